//! Decoding: the readings of plan files, against loops over their bytes in Rust. One of these tests for the sign, and takes longer where it cannot be
//! foreseen.
use crate::cases::Decoding;
use crate::measure::time;
use std::hint::black_box;

/// Least times, in nanoseconds for each reading.
pub struct Decoded {
    pub name: &'static str,
    pub proved: f64,
    pub rust: f64,
    pub testing: f64,
}

/// Decodes the readings of a plan file, which are so many and stand last.
type Decoder = fn(&[u8], &mut [i16]);

/// The same numbers from all first, then their times over all records, by turns.
pub fn measure(case: &Decoding, repeats: usize) -> Decoded {
    let decoders: [Decoder; 3] = [proved, rust, testing];
    let files: Vec<Vec<u8>> = case.files();
    let mut list = vec![0; case.records[0].len()];
    for (file, record) in files.iter().zip(&case.records) {
        for decoder in decoders {
            list.fill(0);
            decoder(file, &mut list);
            assert_eq!(&list, record, "{}", case.name);
        }
    }
    let mut least = [f64::MAX; 3];
    for _ in 0..repeats {
        for (decoder, least) in decoders.iter().zip(&mut least) {
            time(least, || files.iter().for_each(|file| decoder(file, black_box(&mut list))));
        }
    }
    let readings = (files.len() * list.len()) as f64;
    let [proved, rust, testing] = least.map(|milliseconds| milliseconds * 1e6 / readings);
    let name = case.name;
    Decoded { name, proved, rust, testing }
}

fn proved(file: &[u8], list: &mut [i16]) {
    let n = list.len();
    assert_eq!(yeldaski::read_plan(file, list), Ok(n));
}

fn body(file: &[u8], n: usize) -> &[u8] {
    &file[file.len() - 2 * n..]
}

fn rust(file: &[u8], list: &mut [i16]) {
    let body = body(file, list.len());
    for (reading, pair) in list.iter_mut().zip(body.chunks_exact(2)) {
        *reading = i16::from_be_bytes([pair[0], pair[1]]);
    }
}

/// The compiler would take the test away, but for what it cannot see in one of the two branches.
fn testing(file: &[u8], list: &mut [i16]) {
    let body = body(file, list.len());
    for (reading, pair) in list.iter_mut().zip(body.chunks_exact(2)) {
        let number = u16::from_be_bytes([pair[0], pair[1]]);
        *reading = if number < 32_768 {
            number as i16
        } else {
            (i32::from(black_box(number)) - 65_536) as i16
        };
    }
}

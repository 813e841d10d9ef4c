//! Every pair of bytes as a signed number of 16 bits, at the three places where a file has one: readings, the grid, and the level of a run.
mod common;
use common::*;

/// Two's complement by its definition: the weights of the bits that are set, of which the first is below zero.
fn by_weights(pair: [u8; 2]) -> i32 {
    const WEIGHTS: [i32; 16] = [-32_768, 16_384, 8_192, 4_096, 2_048, 1_024, 512, 256, 128, 64, 32, 16, 8, 4, 2, 1];
    let bits = pair.into_iter().flat_map(|byte| (0..8).rev().map(move |place| byte >> place & 1));
    bits.zip(WEIGHTS).map(|(bit, weight)| i32::from(bit) * weight).sum()
}

/// All 65,536 pairs, in parts that fill a file.
fn parts() -> Vec<Vec<[u8; 2]>> {
    let pairs: Vec<[u8; 2]> = (0..=255).flat_map(|high| (0..=255).map(move |low| [high, low])).collect();
    pairs.chunks(4_096).map(<[_]>::to_vec).collect()
}

/// The weights give each number of 16 bits once: the lowest, 0 and the highest where they should be, and every one in between.
#[test]
fn weights_give_every_number_once() {
    assert_eq!([[0x80, 0], [0xFF, 0xFF], [0, 0], [0x7F, 0xFF]].map(by_weights), [-32_768, -1, 0, 32_767]);
    let mut numbers: Vec<i32> = parts().concat().into_iter().map(by_weights).collect();
    numbers.sort_unstable();
    assert_eq!(numbers, (-32_768..=32_767).collect::<Vec<i32>>());
}

#[test]
fn readings() {
    for part in parts() {
        let file = [plan_a(0, 4, 1).head(), field(5, &part.concat())].concat();
        let read = read_plan(&file, part.len()).expect("a plan that can be read");
        assert_eq!(
            read.into_iter().map(i32::from).collect::<Vec<i32>>(),
            part.into_iter().map(by_weights).collect::<Vec<i32>>()
        );
    }
}

/// A grid of this level alone: a cost is given at that level, and the levels beside it are refused.
#[test]
fn grid() {
    let rest = plan_a(0, 0, 1).head()[7..].to_vec();
    for pair in parts().concat() {
        let file = [field(1, &[pair, pair].concat()), rest.clone(), field(5, &[0, 0])].concat();
        let level = by_weights(pair);
        let at = |level: i32| i16::try_from(level).map_or(Err(4), |level| point(&file, &[level], 0, level, CELL, CELL));
        assert_eq!([at(level - 1), at(level), at(level + 1)], [Err(4), Ok(0), Err(4)], "{pair:02X?}");
    }
}

/// An answer with a run of one reading for each pair.
#[test]
fn levels() {
    for part in parts() {
        let run = |(i, pair): (usize, &[u8; 2])| {
            let reading = (i as u16 + 1).to_be_bytes();
            let edge = if i == 0 { 255 } else { 0 };
            field(0x82, &[&reading[..], &reading, &[0], pair, &[edge]].concat())
        };
        let file = [field(0x81, &[0; 8]), part.iter().enumerate().flat_map(run).collect()].concat();
        let (_, numbers) = read_answer(&file, 5 * part.len()).expect("an answer that can be read").expect("runs");
        let levels: Vec<i32> = numbers.chunks(5).map(|run| run[3]).collect();
        assert_eq!(levels, part.into_iter().map(by_weights).collect::<Vec<i32>>());
    }
}

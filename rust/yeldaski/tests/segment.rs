//! Plan file in, answer file out: the answer, and what is left in the other buffers.
mod common;
use common::*;

/// What the program `segment` lends, and more than enough bytes.
const PROGRAM: Lengths = Lengths {
    readings: 4_096,
    words: 7_680,
    numbers: 16_000,
    out: 100,
};

#[test]
fn whole_example() {
    let file = [
        0x01, 0, 4, 0, 0, 0, 9, 0x02, 0, 3, 1, 1, 1, 0x03, 0, 6, 0, 0, 0, 0, 0, 0, 0x03, 0, 6, 0, 0, 1, 0, 0, 4, 0x05, 0, 4, 0, 3, 0, 4,
    ];
    let answer = vec![0x81, 0, 8, 0, 0, 0, 0, 0, 0, 0, 1, 0x82, 0, 8, 0, 1, 0, 2, 0, 0, 3, 0xFF];
    let words = CELL * 10;
    let exact = Lengths {
        readings: 2,
        words,
        numbers: 10,
        out: 22,
    };
    for lent in [PROGRAM, exact] {
        let s = segment(&file, lent, 2, words, 5);
        assert_eq!(s.answer.as_ref(), Ok(&answer));
        assert_eq!((s.readings, s.numbers), (vec![3, 4], vec![1, 2, 0, 3, 255]));
    }
    // the answer does not fit: 15, and only `out` is as before
    for out in [0, 3, 4, 21] {
        let s = segment(&file, Lengths { out, ..exact }, 2, words, 5);
        assert_eq!(s.answer, Err(15));
        assert_eq!((s.readings, s.numbers), (vec![3, 4], vec![1, 2, 0, 3, 255]));
    }
}

/// The answer file of a refusal.
fn refusal(number: u8) -> Result<Vec<u8>, u8> {
    Ok(vec![0x83, 0, 1, number])
}

#[test]
fn refusals_of_the_reader() {
    let broken = [
        (1, vec![]),
        (2, vec![9, 0, 0]),
        (3, vec![1, 0, 5]),
        (4, plan_a(1, 0, 0).file(&[0])),
        (5, Plan::new(0, 1, 9, 1, 1).file(&[0])),
        (6, plan_a(0, 1, 16).file(&[0])),
        (7, plan_a(0, 1, 0).edge(0, 0, ANY, 0, 1).file(&[0])),
        (8, plan_a(0, 1, 0).label(1, 1, 0).file(&[0])),
        (8, plan_a(0, 1, 0).label(1, 2, 10).file(&[0])),
        (9, plan_a(0, 1, 0).file(&[])),
        (10, (1..=65).fold(plan_a(0, 1, 0), |plan, p| plan.label(p, p + 1, 0)).file(&[0])),
        (12, plan_a(0, 1, 0).label(1, 3, 0).label(2, 4, 0).file(&[0])),
    ];
    for (number, file) in broken {
        assert_eq!(segment(&file, PROGRAM, 0, 0, 0).answer, refusal(number));
        assert_eq!(segment(&file, Lengths { out: 4, ..PROGRAM }, 0, 0, 0).answer, refusal(number));
        assert_eq!(segment(&file, Lengths { out: 3, ..PROGRAM }, 0, 0, 0).answer, Err(15));
    }
}

/// 15 of the decoder, then the refusals of the search, which come after the readings were decoded.
#[test]
fn refusals_of_the_search() {
    let a = plan_a(0, 4, 1).file(&[2, 1]);
    assert_eq!(segment(&a, Lengths { readings: 1, ..PROGRAM }, 0, 0, 0).answer, refusal(15));
    let cases = [
        (13, plan_a(0, 4, 1).label(1, 3, 0).file(&[2, 1]), PROGRAM),
        (
            14,
            a.clone(),
            Lengths {
                words: WORDS_A - 1,
                ..PROGRAM
            },
        ),
        (15, a, Lengths { numbers: 9, ..PROGRAM }),
        // state 1 is out of reach, since no level is 7 above another
        (16, plan_b(2, 7).file(&[2, 1]), PROGRAM),
    ];
    for (number, file, lent) in cases {
        let cleared = if number == 16 { WORDS_B } else { 0 };
        let s = segment(&file, lent, 2, cleared, 0);
        assert_eq!((s.answer, s.readings), (refusal(number), vec![2, 1]));
    }
}

/// What the program lends is enough for 40 states times levels and 3,200 readings, and one more is refused.
#[test]
fn bounds_of_the_program() {
    let room = Lengths { out: 40_000, ..PROGRAM };
    let still = vec![7; 3_201];
    let answer = |n: u16| {
        let last = n.to_be_bytes();
        Ok(vec![
            0x81, 0, 8, 0, 0, 0, 0, 0, 0, 0, 0, 0x82, 0, 8, 0, 1, last[0], last[1], 0, 0, 7, 0xFF,
        ])
    };
    assert_eq!(
        segment(&plan_a(0, 39, 1).file(&still[..3_200]), room, 3_200, 7_680, 5).answer,
        answer(3_200)
    );
    assert_eq!(segment(&plan_a(0, 39, 1).file(&still), room, 3_201, 0, 0).answer, refusal(15));
    assert_eq!(segment(&plan_a(0, 40, 1).file(&still), room, 3_201, 0, 0).answer, refusal(14));
    // two states: 20 levels fit, 21 do not
    for (hi, refused) in [(19, false), (20, true)] {
        let plan = Plan::new(0, hi, 2, 1, 1).edge(0, 0, STAY, 0, 0);
        let s = segment(
            &plan.file(&still[..9]),
            room,
            9,
            if refused { 0 } else { 7_680 },
            if refused { 0 } else { 5 },
        );
        assert_eq!(s.answer, if refused { refusal(14) } else { answer(9) });
    }
}

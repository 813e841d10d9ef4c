//! Refusals as text.
use yeldaski::Refusal;

#[test]
fn number_and_sentence() {
    assert_eq!(Refusal(7).to_string(), "refusal 7: same from, to and kind as an earlier edge");
    assert_eq!(Refusal(8).to_string(), "refusal 8: p = 0, q ≤ p, q above 4,096 or c above 9");
    assert_eq!(Refusal(18).to_string(), "refusal 18: a moving window over a plan with labels");
    assert_eq!(Refusal(20).to_string(), "refusal 20: a table for more than 32 changes");
    for number in 1..=20 {
        let text = Refusal(number).to_string();
        assert!(
            text.starts_with(&format!("refusal {number}: ")) && !text.contains("not a refusal"),
            "{text}"
        );
    }
    for number in [0, 21, 255] {
        assert!(Refusal(number).to_string().contains("not a refusal"));
    }
}

/// The header says the limits of a label and of the workspace in the same words, with the signs of ASCII.
#[test]
fn words_of_the_header() {
    let header = include_str!("../../../include/yeldaski.h");
    for number in [8, 14, 18, 19, 20] {
        let text = Refusal(number).to_string();
        let sentence = text.split_once(": ").expect("a sentence").1;
        let plain = sentence.replace('×', "*").replace('−', "-").replace('≤', "<=");
        assert!(header.contains(&format!(" *     {number:2}  {plain}\n")), "{plain}");
    }
    assert!(Refusal(14)
        .to_string()
        .starts_with("refusal 14: workspace under 192 × S × L words of 64 bits"));
}

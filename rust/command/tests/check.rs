//! `check`: number, field and byte of refused files typed by hand, by the scope paper's lists and their order.
mod common;
use common::{hex, run, PAPER_ANSWER, PAPER_PLAN};

const GRID: &str = "01 0004 0000 0009 ";
const ONE: &str = "01 0004 0000 0009  02 0003 01 01 01 ";
const STAY: &str = "03 0006 00 00 00 0000 00 ";
const READINGS: &str = "05 0004 0003 0004 ";
const COST: &str = "81 0008 0000000000000001 ";
const RUN: &str = "82 0008 0001 0002 00 0003 FF ";

fn report(file: &str) -> (i32, String) {
    let done = run(&["check"], &hex(file));
    assert_eq!(done.err, "");
    (done.status, done.text())
}

/// The report on a refused file has the cause first, then the place, then the number.
fn refused(file: &str, number: u8, place: &str, cause: &str) {
    let (status, text) = report(file);
    assert_eq!(status, 1, "{file}");
    assert!(text.contains(&format!("\n  refusal {number}: ")), "{file}: {text}");
    assert!(text.contains(&format!("\n  {place}\n")), "{file}: {text}");
    assert!(text.contains(&format!("cause: {cause}")), "{file}: {text}");
}

#[test]
fn good_files() {
    let (status, text) = report(PAPER_PLAN);
    assert_eq!(status, 0);
    let lines = "plan file, good\n  grid 0 to 9, 10 levels\n  1 state, 2 edges, 0 labels\n  2 readings from 3 to 4\n";
    assert_eq!(
        text,
        format!("standard input: {lines}  workspace of a search: 1920 words\n  a search finds 1 run at cost 1\n")
    );
    assert_eq!(
        report(PAPER_ANSWER),
        (0, "standard input: answer file, good\n  cost 1, 1 run over 2 readings\n".to_string())
    );
    assert_eq!(
        report("83 0001 07"),
        (
            0,
            "standard input: answer file, good\n  holds refusal 7: two edges have the same states and kind\n".to_string()
        )
    );
}

/// The whole report, once: title, cause, place, number with a short sentence. A file of another sort is told at the end.
#[test]
fn order_of_a_report() {
    let lines = "plan file, refused\n  cause: the gap 2000 is above 1023\n  field 3, tag 03 (edge 0), at byte 13 (0xD)\n  \
                 refusal 6: an edge is wrong: its states, kind, gap or class\n";
    let (status, text) = report(&[ONE, "03 0006 00 00 02 07D0 00", READINGS].concat());
    assert_eq!((status, text), (1, format!("standard input: {lines}")));
    let lines = "plan file, good to read, but a search of it is refused\n  cause: no segmentation ends in a state in which a record may end\n  \
                 field 2, tag 02 (states), at byte 7 (0x7)\n  refusal 16: no segmentation is allowed by this plan\n";
    let (status, text) = report(&[GRID, "02 0003 02 01 02", STAY, READINGS].concat());
    assert_eq!((status, text), (1, format!("standard input: {lines}")));
}

#[test]
fn cut_files() {
    refused(
        "",
        1,
        "after field 0, at the end of the file, byte 0 (0x0)",
        "the file ends, but tag 01 (grid) is due",
    );
    refused(
        "01 00",
        1,
        "field 1, tag 01 (grid), at byte 0 (0x0)",
        "the header should have 3 bytes, but the file ends after 2",
    );
    refused(
        "01 0004 0000 00",
        1,
        "field 1, tag 01 (grid), at byte 0 (0x0)",
        "the body should have 4 bytes, but the file ends after 3",
    );
    refused(
        GRID,
        1,
        "after field 1, at the end of the file, byte 7 (0x7)",
        "the file ends, but tag 02 (states) is due",
    );
    refused(
        &[ONE, STAY].concat(),
        1,
        "after field 3, at the end of the file, byte 22 (0x16)",
        "the file ends, but tag 03",
    );
    refused(
        &[ONE, "05 0004 0003 00"].concat(),
        1,
        "field 3, tag 05 (readings), at byte 13 (0xD)",
        "the body should have 4 bytes",
    );
    refused(
        &[ONE, READINGS, "00 00"].concat(),
        1,
        "field 4, tag 00 (unknown), at byte 20 (0x14)",
        "the header should have 3 bytes",
    );
    refused(
        COST,
        1,
        "after field 1, at the end of the file, byte 11 (0xB)",
        "the file ends, but tag 82 (run) is due",
    );
    refused(
        "83 0001 07 83",
        1,
        "field 2, tag 83 (refusal), at byte 4 (0x4)",
        "the header should have 3 bytes, but the file ends after 1",
    );
}

#[test]
fn tags_and_lengths() {
    refused(
        "02 0003 01 01 01",
        2,
        "field 1, tag 02 (states), at byte 0 (0x0)",
        "tag 02 stands where tag 01 (grid) is due",
    );
    refused(
        &[GRID, GRID].concat(),
        2,
        "field 2, tag 01 (grid), at byte 7 (0x7)",
        "tag 01 stands where tag 02",
    );
    refused(
        &[ONE, "04 0005 0001 0002 00", STAY].concat(),
        2,
        "field 4, tag 03 (edge 0), at byte 21 (0x15)",
        "tag 03 stands where tag 04",
    );
    refused(
        &[ONE, READINGS, "05 0001"].concat(),
        2,
        "field 4, tag 05 (readings), at byte 20 (0x14)",
        "tag 05 stands where the end of the file is due",
    );
    refused(
        "01 0003 0000 09",
        3,
        "field 1, tag 01 (grid), at byte 0 (0x0)",
        "the length is 3, but should be 4",
    );
    refused(
        &[ONE, "05 0003 0003 00"].concat(),
        3,
        "field 3, tag 05 (readings), at byte 13 (0xD)",
        "the length 3 is odd",
    );
    refused(
        &[COST, "83 0001 07"].concat(),
        2,
        "field 2, tag 83 (refusal), at byte 11 (0xB)",
        "tag 83 stands where tag 82",
    );
    refused(
        &[COST, RUN, COST].concat(),
        2,
        "field 3, tag 81 (cost), at byte 22 (0x16)",
        "tag 81 stands where tag 82 (run) or the end",
    );
    refused(
        "82 0008 0001",
        2,
        "field 1, tag 82 (run 1), at byte 0 (0x0)",
        "tag 82 stands where tag 81",
    );
    // A wrong length goes before a cut body, and a wrong tag before both.
    refused("01 0009 00", 3, "field 1, tag 01 (grid), at byte 0 (0x0)", "the length is 9");
    refused(
        "06 FFFF 00",
        2,
        "field 1, tag 06 (unknown), at byte 0 (0x0)",
        "tag 06 stands where tag 01",
    );
}

#[test]
fn contents_of_a_plan() {
    let two = [GRID, "02 0003 02 03 02 "].concat();
    let after_two = "field 3, tag 03 (edge 0), at byte 13 (0xD)";
    refused("01 0004 0009 0000", 4, "field 1, tag 01 (grid), at byte 0 (0x0)", "hi 0 is below lo 9");
    refused(
        "01 0004 FFFF 03FF",
        4,
        "field 1, tag 01 (grid), at byte 0 (0x0)",
        "hi 1023 - lo -1 is 1024",
    );
    refused(
        &[GRID, "02 0003 00 01 01"].concat(),
        5,
        "field 2, tag 02 (states), at byte 7 (0x7)",
        "0 states",
    );
    refused(
        &[GRID, "02 0003 09 01 01"].concat(),
        5,
        "field 2, tag 02 (states), at byte 7 (0x7)",
        "9 states",
    );
    refused(
        &[GRID, "02 0003 02 00 01"].concat(),
        5,
        "field 2, tag 02 (states), at byte 7 (0x7)",
        "the start mask is empty",
    );
    refused(
        &[GRID, "02 0003 02 01 04"].concat(),
        5,
        "field 2, tag 02 (states), at byte 7 (0x7)",
        "the end mask 00000100 has a bit",
    );
    refused(
        &[&two, "03 0006 02 00 00 0000 00"].concat(),
        6,
        after_two,
        "its first state 2 is not below 2",
    );
    refused(
        &[&two, "03 0006 00 07 00 0000 00"].concat(),
        6,
        after_two,
        "its second state 7 is not below 2",
    );
    refused(&[&two, "03 0006 00 00 05 0000 00"].concat(), 6, after_two, "the kind 5 is above 4");
    refused(&[&two, "03 0006 00 00 02 0400 00"].concat(), 6, after_two, "the gap 1024 is above 1023");
    refused(
        &[&two, "03 0006 00 00 01 0001 00"].concat(),
        6,
        after_two,
        "the gap is 1, but kind any has none",
    );
    refused(&[&two, "03 0006 00 00 04 0001 10"].concat(), 6, after_two, "the class 16 is above 15");
    refused(
        &[ONE, STAY, "03 0006 00 00 00 0000 05"].concat(),
        7,
        "field 4, tag 03 (edge 1), at byte 22 (0x16)",
        "edge 0 already leads",
    );
    refused(
        &[ONE, "05 0000"].concat(),
        9,
        "field 3, tag 05 (readings), at byte 13 (0xD)",
        "there are no readings, at least 1 is due",
    );
    refused(
        &[ONE, "05 2002"].concat(),
        9,
        "field 3, tag 05 (readings), at byte 13 (0xD)",
        "4097 readings, at most 4096: split the record",
    );
}

#[test]
fn labels_of_a_plan() {
    let label = "field 3, tag 04 (label 1), at byte 13 (0xD)";
    refused(&[ONE, "04 0005 0000 0002 00"].concat(), 8, label, "p is 0");
    refused(&[ONE, "04 0005 0002 0002 00"].concat(), 8, label, "q 2 is not above p 2");
    refused(&[ONE, "04 0005 0002 1001 00"].concat(), 8, label, "q 4097 is above 4096");
    for c in [10, 255] {
        let cause = format!("c {c} is above 9: 0 to 7 ask for so many changes, 8 for one up and 9 for one down\n");
        refused(&[ONE, "04 0005 0001 0002", &format!("{c:02X}")].concat(), 8, label, &cause);
    }
    let two = [ONE, "04 0005 0001 0003 08", "04 0005 0002 0004 03"].concat();
    refused(
        &two,
        12,
        "field 4, tag 04 (label 2), at byte 21 (0x15)",
        "it (readings 2 to 4, 3 changes) starts before the label before it (readings 1 to 3, one up) ends\n",
    );
    let many: String = (1..66).map(|p| format!("04 0005 {p:04X} {:04X} 00", p + 1)).collect();
    refused(
        &[ONE, &many].concat(),
        10,
        "field 67, tag 04 (label 65), at byte 525 (0x20D)",
        "it is the 65th label",
    );
}

#[test]
fn contents_of_an_answer() {
    let first = "field 2, tag 82 (run 1), at byte 11 (0xB)";
    let second = "field 3, tag 82 (run 2), at byte 22 (0x16)";
    refused(
        &[COST, "82 0008 0002 0002 00 0003 FF"].concat(),
        17,
        first,
        "it starts at reading 2, but 1 is due",
    );
    refused(&[COST, "82 0008 0001 0000 00 0003 FF"].concat(), 17, first, "it ends at reading 0");
    refused(&[COST, "82 0008 0001 1001 00 0003 FF"].concat(), 17, first, "it ends at reading 4097");
    refused(&[COST, "82 0008 0001 0001 08 0003 FF"].concat(), 17, first, "the state 8 is above 7");
    refused(&[COST, "82 0008 0001 0001 00 0003 00"].concat(), 17, first, "the first run has edge 0");
    refused(
        &[COST, RUN, "82 0008 0002 0003 00 0003 00"].concat(),
        17,
        second,
        "it starts at reading 2, but 3 is due",
    );
    refused(
        &[COST, RUN, "82 0008 0003 0003 00 0003 20"].concat(),
        17,
        second,
        "the edge 32 is above 31",
    );
    refused("83 0001 00", 17, "field 1, tag 83 (refusal), at byte 0 (0x0)", "0 is no refusal number");
}

/// The report on the plan file of a text.
fn report_on(text: &str) -> (i32, String) {
    let made = run(&["make"], text.as_bytes());
    assert_eq!(made.status, 0, "{}", made.err);
    let done = run(&["check"], &made.out);
    (done.status, done.text())
}

/// A good plan with labels of every sort. They ask for five changes, at 1 each; with those before readings 2, 3, 5, 6 and 7 every level is its reading.
#[test]
fn labels_in_words() {
    let (status, text) = report_on(
        "grid 0 to 9\nstate a start end\nedge a->a stay\nedge a->a up 1 penalty 1\nedge a->a down 1 penalty 1\n\
         label 1 to 2 one up\nlabel 2 to 3 one down\nlabel 3 to 4 changes 0\nlabel 4 to 7 changes 3\nlabel 7 to 8 changes 0\n\
         readings 2 5 3 3 6 9 1 1\n",
    );
    assert_eq!(status, 0, "{text}");
    let labels = "1 state, 3 edges, 5 labels\n  label 1: readings 1 to 2, one up\n  label 2: readings 2 to 3, one down\n  \
                  label 3: readings 3 to 4, no change\n  label 4: readings 4 to 7, 3 changes\n  label 5: readings 7 to 8, no change\n  8 readings";
    assert!(text.contains(labels) && text.ends_with("  a search finds 6 runs at cost 5\n"), "{text}");
}

/// Files that can be read, but not searched.
#[test]
fn refusals_of_a_search() {
    let text = |labels: &str| report_on(&format!("grid 0 to 3\nstate a start end\nedge a->a stay\n{labels}readings 1 2 3\n"));
    let second = "field 5, tag 04 (label 2), at byte 30 (0x1E)";
    for (labels, number, cause) in [
        (
            "label 1 to 3 changes 0\nlabel 3 to 9 changes 0\n",
            13,
            "label 2 (readings 3 to 9, no change) goes on after the last reading, 3",
        ),
        (
            "label 1 to 3 one up\nlabel 3 to 4 one down\n",
            13,
            "label 2 (readings 3 to 4, one down) goes on after the last reading, 3",
        ),
        // A stay is no change, so the second of these labels cannot hold.
        (
            "label 1 to 2 changes 0\nlabel 2 to 3 changes 1\n",
            16,
            "label 2 (readings 2 to 3, 1 change) cannot hold; possible there: no change",
        ),
        (
            "label 1 to 2 changes 0\nlabel 2 to 3 changes 2\n",
            16,
            "label 2 (readings 2 to 3, 2 changes) cannot hold: there is room for 1 change",
        ),
        (
            "label 1 to 2 changes 0\nlabel 2 to 3 one up\n",
            16,
            "label 2 (readings 2 to 3, one up) cannot hold: no edge has the kind up",
        ),
        (
            "label 1 to 2 changes 0\nlabel 2 to 3 one down\n",
            16,
            "label 2 (readings 2 to 3, one down) cannot hold: no edge has the kind down",
        ),
    ] {
        let (status, report) = text(labels);
        let lines = format!("\n  cause: {cause}\n  {second}\n  refusal {number}: ");
        assert!(status == 1 && report.contains(&lines), "{report}");
    }
    refused(
        &[ONE, READINGS].concat(),
        16,
        "cause: the edges allow no chain of 2 readings; is a stay missing, or the grid too narrow for a change?",
        "",
    );
    let states = "field 2, tag 02 (states), at byte 7 (0x7)";
    refused(
        &[GRID, "02 0003 02 01 02", STAY, READINGS].concat(),
        16,
        states,
        "no segmentation ends in a state in which a record may end",
    );
    // State 1 alone can last, but the record may not start in it.
    refused(
        &[GRID, "02 0003 02 01 02 03 0006 01 01 00 0000 00", READINGS].concat(),
        16,
        states,
        "no segmentation starts",
    );
}

/// Labels that cannot hold though their kinds and their room would allow it: what they could ask for instead is said.
#[test]
fn labels_that_could_ask_for_something_else() {
    // The gap of the rise is wider than the grid, so the level only falls, three times at most.
    let falling = "grid 0 to 3\nstate a start end\nedge a->a stay\nedge a->a up 9 penalty 1\nedge a->a down 1 penalty 1\n";
    // Without a stay every boundary is a change.
    let restless = "grid 0 to 1\nstate a start end\nedge a->a any penalty 0\n";
    for (plan, label, words) in [
        (
            falling,
            "label 1 to 4 one up",
            "one up) cannot hold; possible there: no change, 1 change, 2 changes, 3 changes, one down",
        ),
        (
            falling,
            "label 1 to 9 changes 5",
            "5 changes) cannot hold; possible there: no change, 1 change, 2 changes, 3 changes, one down",
        ),
        (restless, "label 1 to 4 changes 2", "2 changes) cannot hold; possible there: 3 changes"),
        (
            restless,
            "label 1 to 9 changes 0",
            "no change) cannot hold; every segmentation has more than 7 changes there",
        ),
    ] {
        let (status, report) = report_on(&format!("{plan}{label}\nreadings 3 2 3 1 2 3 1 2 0 1\n"));
        assert!(status == 1 && report.contains(words), "{report}");
    }
}

/// Two labels that hold alone but not together: the one up that is allowed cannot be used twice.
#[test]
fn labels_that_exclude_each_other() {
    let plan = "grid 0 to 3\nstate a start\nstate b end\nedge a->a stay\nedge b->b stay\nedge a->b up 1 penalty 1\n";
    for (label, asks) in [("changes 1", "1 change"), ("one up", "one up")] {
        let (_, text) = report_on(&format!("{plan}label 1 to 2 {label}\nlabel 2 to 3 {label}\nreadings 1 2 3\n"));
        let cause = format!("cause: label 2 (readings 2 to 3, {asks}) cannot hold together with the labels before it; possible there: no change\n");
        assert!(text.contains(&cause), "{text}");
    }
}

/// Every cut and every changed byte: the located field always agrees with the number, and `run` gives the same number.
#[test]
fn damaged_files() {
    let plan = hex(&[
        GRID,
        "02 0003 02 03 02",
        STAY,
        "03 0006 00 01 02 0001 01",
        "04 0005 0001 0002 01",
        READINGS,
    ]
    .concat());
    for file in [plan, hex(PAPER_ANSWER), hex("83 0001 07")] {
        let mut damaged: Vec<Vec<u8>> = (0..file.len()).map(|end| file[..end].to_vec()).collect();
        for at in 0..file.len() {
            for value in [0, 1, 2, 4, 0x10, 0x7F, 0x82, 0x83, 0xFF, file[at] ^ 1] {
                damaged.push([&file[..at], &[value], &file[at + 1..]].concat());
            }
        }
        for file in damaged {
            let done = run(&["check"], &file);
            let text = done.text();
            assert!(
                !text.contains("could not be found") && !text.contains("cause: unknown"),
                "{file:02X?}: {text}"
            );
            assert_eq!(
                text.contains("refused\n") || text.contains("  refusal "),
                done.status == 1,
                "{file:02X?}: {text}"
            );
            let is_answer = file.first().is_some_and(|tag| (0x81..=0x83).contains(tag));
            if !is_answer && done.status == 1 {
                assert!(text.contains("\n  cause: "), "{file:02X?}: {text}");
                let number = run(&["run"], &file).out[3];
                assert!(text.contains(&format!("\n  refusal {number}: ")), "{file:02X?}: {text}");
            }
        }
    }
}

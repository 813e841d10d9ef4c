//! `plot`: what the picture holds, counted and measured.
mod common;
use common::{folder, hex, program, python, run, run_in, PAPER_ANSWER, PAPER_PLAN};
use std::collections::HashMap;
use std::fs;
use std::process::Stdio;

/// Four readings; a rise after the second one, and a label over readings 2 to 4.
const TEXT: &str = "grid 0 to 9\nstate \"a<b&c\" start\nstate worn end\nedge \"a<b&c\" -> \"a<b&c\" stay\nedge worn -> worn stay\n\
                    edge \"a<b&c\" -> worn up 4 penalty 1\nlabel 2 to 4 changes 1\nreadings 2 2 8 8\n";

/// Another program's XML parser: one line an element, with its name, its own text and its attributes.
const PARSER: &str = "
import sys, xml.etree.ElementTree as tree
sys.stdout.reconfigure(encoding='utf-8', newline='\\n')
for element in tree.fromstring(sys.stdin.buffer.read()).iter():
    own = (element.text or '') + ''.join(child.tail or '' for child in element)
    parts = [element.tag.split('}')[1], own.replace('\\n', ' ')] + [f'{name}={value}' for name, value in element.items()]
    print('\\x1f'.join(parts))
";

struct Element {
    tag: String,
    text: String,
    attributes: HashMap<String, String>,
}

impl Element {
    fn get(&self, name: &str) -> &str {
        self.attributes.get(name).map_or("", String::as_str)
    }

    fn number(&self, name: &str) -> f64 {
        self.get(name).parse().unwrap_or_else(|_| panic!("{} has no number {name}", self.tag))
    }

    /// Less than any font takes: half the font size a character.
    fn least_width(&self) -> f64 {
        let size: f64 = self.get("font-size").parse().unwrap_or(13.0);
        self.text.chars().filter(|c| !"ijltfr. ".contains(*c)).count() as f64 * size * 0.5
    }
}

/// The elements of a picture, which has to be well-formed for that.
fn elements(svg: &str) -> Vec<Element> {
    let lines = python(PARSER, svg.as_bytes());
    let element = |line: &str| {
        let mut parts = line.split('\x1f').map(str::to_string);
        Element {
            tag: parts.next().expect("name"),
            text: parts.next().expect("text"),
            attributes: parts
                .filter_map(|part| part.split_once('=').map(|(name, value)| (name.into(), value.into())))
                .collect(),
        }
    };
    lines.split_terminator('\n').map(element).collect()
}

fn tagged<'a>(elements: &'a [Element], tag: &'a str) -> impl Iterator<Item = &'a Element> {
    elements.iter().filter(move |element| element.tag == tag)
}

/// The frame around the readings: left, top, right and bottom.
fn chart(elements: &[Element]) -> [f64; 4] {
    let frame = tagged(elements, "rect").find(|rect| rect.get("fill") == "none").expect("frame");
    let [x, y, width, height] = ["x", "y", "width", "height"].map(|name| frame.number(name));
    [x, y, x + width, y + height]
}

/// Makes a plan from a text and draws it, with the names of the text.
fn drawn(test: &str, text: &str, options: &[&str]) -> String {
    let folder = folder(&format!("plot_{test}"));
    fs::write(folder.join("plan.txt"), text).expect("file");
    let made = run_in(&folder, &["make", "plan.txt", "-o", "p"], b"");
    assert_eq!((made.status, made.messages().as_str()), (0, ""));
    let done = run_in(&folder, &[&["plot", "p", "--text", "plan.txt"], options].concat(), b"");
    assert_eq!((done.status, done.err.as_str()), (0, ""), "{options:?}");
    done.text()
}

/// A plan of eight states one after the other, each for 20 readings.
fn eight_states(names: &[String; 8], more: &str) -> String {
    let mut text = "grid 0 to 99\n".to_string();
    text.extend(
        names
            .iter()
            .map(|name| format!("state \"{name}\" {} end\n", if *name == names[0] { "start" } else { "" })),
    );
    for (index, name) in names.iter().enumerate() {
        let next = &names[(index + 1) % 8];
        text += &format!("edge \"{name}\" -> \"{name}\" stay\n");
        text.extend(["abs", "up", "down"].map(|kind| format!("edge \"{name}\" -> \"{next}\" {kind} 5 penalty 100\n")));
    }
    let readings: String = (0..160).map(|i| format!(" {}", i / 20 * 37 % 80 + 10)).collect();
    text + more + "readings" + &readings + "\n"
}

/// Every part lies inside the picture, and no number is missing.
fn check_inside(elements: &[Element]) {
    let (width, height) = (elements[0].number("width"), elements[0].number("height"));
    let inside = |x: f64, y: f64| (0.0..=width).contains(&x) && (0.0..=height).contains(&y);
    for path in tagged(elements, "path") {
        for start in path.get("d").split('M').skip(1) {
            let place: Vec<f64> = start
                .split([' ', 'h', 'v', 'l', 'H', 'V', 'L'])
                .take(2)
                .map(|n| n.parse().expect(start))
                .collect();
            assert!(inside(place[0], place[1]), "{start}");
        }
    }
    for rect in tagged(elements, "rect").skip(1) {
        assert!(inside(rect.number("x"), rect.number("y")));
        assert!(inside(rect.number("x") + rect.number("width"), rect.number("y") + rect.number("height")));
    }
    for text in tagged(elements, "text").filter(|text| text.get("transform").is_empty()) {
        let part = match text.get("text-anchor") {
            "middle" => 0.5,
            "end" => 1.0,
            _ => 0.0,
        };
        let left = text.number("x") - part * text.least_width();
        assert!(
            inside(left, text.number("y")) && inside(left + text.least_width(), text.number("y")),
            "{}",
            text.text
        );
    }
}

fn picture(test: &str) -> String {
    let folder = folder(test);
    fs::write(folder.join("plan.txt"), TEXT).expect("file");
    assert_eq!(run_in(&folder, &["make", "plan.txt", "-o", "p"], b"").status, 0);
    assert_eq!(run_in(&folder, &["run", "p", "-o", "a"], b"").status, 0);
    let done = run_in(&folder, &["plot", "p", "--answer", "a", "--text", "plan.txt", "-o", "out.svg"], b"");
    assert_eq!((done.status, done.err.as_str(), done.out.len()), (0, "", 0));
    let alone = run_in(&folder, &["plot", "p", "--text", "plan.txt"], b"");
    let svg = fs::read_to_string(folder.join("out.svg")).expect("picture");
    assert_eq!(alone.text(), svg, "without an answer file the plan is searched");
    svg
}

#[test]
fn parts_of_a_picture() {
    let svg = picture("parts");
    let elements = elements(&svg);
    check_inside(&elements);
    let texts: Vec<&str> = tagged(&elements, "text").map(|text| text.text.as_str()).collect();
    for text in [
        "4 readings: 2 runs, 1 change, cost 1",
        "level, a<b&c",
        "level, worn",
        "label, 1 change",
        "reading",
        "current",
        "change",
    ] {
        assert!(texts.contains(&text), "{text}");
    }
    assert!(!svg.contains("label, no change") && !svg.contains("beyond the axis"));
}

#[test]
fn places_in_a_picture() {
    let elements = elements(&picture("places"));
    // Four points in one path: the one in the legend stands alone.
    assert!(tagged(&elements, "path").any(|path| path.get("d").matches("h0").count() == 4));
    // The axis of four readings is 70 to 1180: the change lies in the middle, 625, the label between the middles of readings 2 and 4.
    let changes: Vec<&str> = tagged(&elements, "path")
        .filter(|path| !path.get("stroke-dasharray").is_empty())
        .map(|path| path.get("d"))
        .collect();
    assert_eq!(
        (changes.len(), changes[1]),
        (2, "M625.0 62.0L625.0 476.0"),
        "one in the legend, one in the chart"
    );
    let window = tagged(&elements, "rect").find(|rect| rect.get("x") == "486.2").expect("label");
    assert_eq!(["y", "width", "height"].map(|name| window.number(name)), [62.0, 555.0, 388.0]);
    // The strip has colours of its own, which another test looks at.
    for text in tagged(&elements, "text").filter(|text| text.number("y") != 470.5) {
        let worst = ["#ffffff", window.get("fill")]
            .map(|behind| contrast(text.get("fill"), behind))
            .into_iter()
            .fold(21.0, f64::min);
        assert!(worst >= 4.5, "{}: {worst}", text.text);
    }
    for words in ["readings 1 to 2: a<b&c, level 2", "readings 3 to 4: worn, level 8"] {
        assert_eq!(
            tagged(&elements, "title").filter(|title| title.text == words).count(),
            2,
            "level and strip: {words}"
        );
    }
}

/// What labels can ask for: in a text, in words, and in one sign.
const ASKED: [(&str, &str, &str); 10] = [
    ("changes 0", "no change", "0"),
    ("changes 1", "1 change", "1"),
    ("changes 2", "2 changes", "2"),
    ("changes 3", "3 changes", "3"),
    ("changes 4", "4 changes", "4"),
    ("changes 5", "5 changes", "5"),
    ("changes 6", "6 changes", "6"),
    ("changes 7", "7 changes", "7"),
    ("one up", "one up", "↑"),
    ("one down", "one down", "↓"),
];

/// A record of so many readings, at least 71, with labels.
fn labelled(count: usize, labels: &str) -> String {
    let edges = "edge a -> a stay\nedge a -> a up 0 penalty 1\nedge a -> a down 0 penalty 1\n";
    format!("grid 0 to 9\nstate a start end\n{edges}{labels}readings{}\n", " 5".repeat(count))
}

/// Every sort of label, each over seven boundaries: readings 1 to 8, 8 to 15 and so on.
fn every_label() -> String {
    let label = |(i, asked): (usize, &(&str, &str, &str))| format!("label {} to {} {}\n", 1 + 7 * i, 8 + 7 * i, asked.0);
    ASKED.iter().enumerate().map(label).collect()
}

/// The windows of labels, in their order.
fn windows(elements: &[Element]) -> Vec<&Element> {
    let [_, top, _, bottom] = chart(elements);
    let high = |rect: &&Element| rect.get("y").parse() == Ok(top) && rect.number("height") == bottom - top;
    tagged(elements, "rect").filter(high).filter(|rect| rect.get("fill") != "none").collect()
}

/// The texts in the windows of labels.
fn window_texts(elements: &[Element]) -> Vec<&Element> {
    let foot = chart(elements)[3] - 8.0;
    tagged(elements, "text").filter(|text| text.number("y") == foot).collect()
}

#[test]
fn windows_of_labels() {
    let elements = elements(&drawn("label_windows", &labelled(71, &every_label()), &[]));
    check_inside(&elements);
    let (windows, texts) = (windows(&elements), window_texts(&elements));
    assert_eq!((windows.len(), texts.len()), (10, 10));
    // 71 readings on an axis from 70 to 1180.
    let place = |reading: usize| 70.0 + 1110.0 * (reading as f64 - 0.5) / 71.0;
    for (index, (_, words, _)) in ASKED.iter().enumerate() {
        let (p, q) = (1 + 7 * index, 8 + 7 * index);
        let (window, text) = (windows[index], texts[index]);
        assert!((window.number("x") - place(p)).abs() < 0.1 && (window.number("width") - (place(q) - place(p))).abs() < 0.1);
        assert!(
            (text.number("x") - (place(p) + place(q)) / 2.0).abs() < 0.1 && text.text == *words,
            "{}",
            text.text
        );
        assert!(contrast(text.get("fill"), window.get("fill")) >= 4.5, "{words}");
        let hint = format!("label: readings {p} to {q}, {words}");
        assert_eq!(tagged(&elements, "title").filter(|title| title.text == hint).count(), 1, "{hint}");
    }
    // All numbers of changes but 0 have one colour and the others each their own, by which the legend names them.
    let legend = ["label, no change", "label, number of changes", "label, one up", "label, one down"];
    let colours: Vec<&str> = windows.iter().map(|window| window.get("fill")).collect();
    assert!(colours[1..8].iter().all(|colour| *colour == colours[1]));
    for (words, index) in legend.iter().zip([0, 1, 8, 9]) {
        let text = tagged(&elements, "text").find(|text| text.text == *words).expect(words);
        let beside = |rect: &&Element| rect.get("x").parse() == Ok(text.number("x") - 34.0) && rect.number("y") == text.number("y") - 10.0;
        assert_eq!(tagged(&elements, "rect").find(beside).expect(words).get("fill"), colours[index]);
        assert_eq!(
            colours.iter().filter(|colour| **colour == colours[index]).count(),
            if index == 1 { 7 } else { 1 }
        );
    }
}

/// Narrower windows have one sign, and still narrower ones the words under the mouse alone.
#[test]
fn narrow_windows_of_labels() {
    for (readings, signs) in [(71, true), (710, false)] {
        let elements = elements(&drawn("narrow_labels", &labelled(readings, &every_label()), &["--size", "500x400"]));
        check_inside(&elements);
        let texts: Vec<&str> = window_texts(&elements).iter().map(|text| text.text.as_str()).collect();
        assert_eq!(texts, if signs { ASKED.map(|asked| asked.2).to_vec() } else { vec![] }, "{readings}");
        assert_eq!(windows(&elements).len(), 10, "{readings}");
        assert!(tagged(&elements, "title").any(|title| title.text == "label: readings 64 to 71, one down"));
    }
}

/// Labels that all ask for the same number of changes are named by it.
#[test]
fn the_legend_of_labels() {
    for (labels, due) in [
        ("label 1 to 8 changes 3\nlabel 8 to 15 changes 3\n", &["label, 3 changes"][..]),
        ("label 1 to 8 changes 3\nlabel 8 to 15 changes 2\n", &["label, number of changes"]),
        (
            "label 1 to 8 one down\nlabel 8 to 15 changes 0\n",
            &["label, no change", "label, one down"],
        ),
        ("", &[]),
    ] {
        let elements = elements(&drawn("label_legend", &labelled(71, labels), &[]));
        let texts = tagged(&elements, "text").map(|text| text.text.as_str());
        assert_eq!(texts.filter(|text| text.starts_with("label")).collect::<Vec<&str>>(), due);
    }
}

#[test]
fn numbers_on_the_axes() {
    let elements = elements(&picture("axes"));
    let numbers = |anchor: &str| -> Vec<&str> {
        let texts = tagged(&elements, "text").filter(|text| text.get("text-anchor") == anchor && text.number("y") != 470.5);
        texts.map(|text| text.text.as_str()).filter(|text| text.parse::<i32>().is_ok()).collect()
    };
    assert_eq!(numbers("middle"), ["1", "2", "3", "4"]);
    assert_eq!(numbers("end"), ["1", "2", "3", "4", "5", "6", "7", "8", "9"]);
}

/// The contrast ratio of two colours `#rrggbb`, by the formula of the Web Content Accessibility Guidelines.
fn contrast(a: &str, b: &str) -> f64 {
    let luminance = |colour: &str| -> f64 {
        let number = u32::from_str_radix(&colour[1..], 16).expect("colour");
        let parts = [(number >> 16, 0.2126), (number >> 8 & 255, 0.7152), (number & 255, 0.0722)];
        parts
            .iter()
            .map(|(part, share)| share * ((f64::from(*part) / 255.0 + 0.055) / 1.055).powf(2.4))
            .sum()
    };
    let (a, b) = (luminance(a), luminance(b));
    (a.max(b) + 0.05) / (a.min(b) + 0.05)
}

#[test]
fn the_strip_of_eight_states() {
    let names = [0, 1, 2, 3, 4, 5, 6, 7].map(|index| format!("s{index}"));
    let elements = elements(&drawn("strip", &eight_states(&names, ""), &[]));
    // The strip lies 6 to 26 below the chart; its middle is at 466.
    let boxes: Vec<&Element> = tagged(&elements, "path").filter(|path| path.get("stroke-width") == "20").collect();
    let colours: std::collections::HashSet<&str> = boxes.iter().map(|path| path.get("stroke")).collect();
    assert_eq!((boxes.len(), colours.len()), (8, 8));
    for (index, name) in names.iter().enumerate() {
        let [left, right] = [index, index + 1].map(|at| 70.0 + 1110.0 / 8.0 * at as f64);
        assert_eq!(boxes[index].get("d"), format!("M{left:.1} 466.0H{right:.1}"));
        let text = tagged(&elements, "text")
            .find(|text| text.text.starts_with(&format!("{name} ")))
            .expect("text");
        assert_eq!(text.text, format!("{name} {}", index * 37 % 80 + 10));
        assert!((left..right).contains(&text.number("x")));
        assert!(contrast(text.get("fill"), boxes[index].get("stroke")) >= 4.5, "{name}");
        let legend = tagged(&elements, "path").filter(|path| path.get("stroke-width") == "4" && path.get("stroke") == boxes[index].get("stroke"));
        assert_eq!(legend.count(), 1, "{name}");
    }
}

/// Two runs of one state stay two: the white line between them stands at their boundary.
#[test]
fn runs_of_one_state_are_divided() {
    let text = "grid 0 to 9\nstate a start end\nedge a -> a stay\nedge a -> a up 4 penalty 1\nreadings 2 2 8 8\n";
    let svg = drawn("divided", text, &[]);
    let white: Vec<String> = tagged(&elements(&svg), "path")
        .filter(|path| path.get("stroke") == "white")
        .map(|path| path.get("d").to_string())
        .collect();
    assert_eq!(white, ["M625.0 456.0V476.0"]);
}

/// A run of one reading among 4,096 is seen: at least 2 wide in the strip, drawn after its neighbours, and around its place.
#[test]
fn a_narrow_run_is_seen() {
    let readings: String = (0..4096).map(|i| if i == 2999 { " 60" } else { " 10" }).collect();
    let edges = "edge a -> a stay\nedge b -> b stay\nedge a -> b up 9 penalty 1\nedge b -> a down 9 penalty 1\n";
    let text = format!("grid 0 to 60\nstate a start end\nstate b\n{edges}readings{readings}\n");
    let elements = elements(&drawn("narrow", &text, &[]));
    let strip: Vec<&str> = tagged(&elements, "path")
        .filter(|path| path.get("stroke-width") == "20")
        .map(|path| path.get("d"))
        .collect();
    assert_eq!(strip.len(), 3);
    let (left, right) = strip[2][1..].split_once(" 466.0H").expect("the narrow run comes last");
    let (left, right): (f64, f64) = (left.parse().expect("left"), right.parse().expect("right"));
    let middle = 70.0 + 1110.0 * 2999.5 / 4096.0;
    assert!(
        (1.8..4.0).contains(&(right - left)) && (left..right).contains(&middle),
        "{left} to {right}"
    );
    assert!(
        !elements.iter().any(|element| element.get("stroke") == "white"),
        "a divider would cover it"
    );
}

#[test]
fn title_unit_and_size() {
    let svg = drawn("look", TEXT, &["--title", "Drive \"B\" & <C>", "--unit", "10 mA", "--size", "800x400"]);
    let elements = elements(&svg);
    check_inside(&elements);
    assert_eq!(
        ["width", "height", "viewBox"].map(|name| elements[0].get(name)),
        ["800", "400", "0 0 800 400"]
    );
    assert_eq!(elements[1].text, "Drive \"B\" & <C>", "the title of the document");
    let of = |text: &str| {
        tagged(&elements, "text")
            .find(|element| element.text == text)
            .unwrap_or_else(|| panic!("{text}"))
    };
    let (title, summary) = (of("Drive \"B\" & <C>"), of("4 readings: 2 runs, 1 change, cost 1"));
    assert!(title.number("y") < summary.number("y") && title.number("font-size") > summary.number("font-size"));
    assert!(of("current (10 mA)").get("transform").starts_with("rotate(-90"));
    let [left, top, right, bottom] = chart(&elements);
    assert!(left < 100.0 && right > 760.0 && bottom > 300.0 && top > summary.number("y"));
}

#[test]
fn sizes() {
    for size in ["400x300", "4000x3000", "0800x0400"] {
        assert_eq!(run(&["plot", "--size", size], &hex(PAPER_PLAN)).status, 0, "{size}");
    }
    for size in [
        "",
        "x",
        "800",
        "800x",
        "x400",
        "399x300",
        "400x299",
        "4001x300",
        "400x3001",
        "800X400",
        "800x400x2",
        "+800x400",
        " 800x400",
        "8e2x400",
        "800.5x400",
        "-800x400",
        "99999999999999999999x400",
        "８００x400",
    ] {
        let done = run(&["plot", "--size", size], &hex(PAPER_PLAN));
        assert_eq!((done.status, done.out.len()), (2, 0), "{size}");
        assert!(
            done.err.contains("--size: expected WIDTHxHEIGHT, 400x300 to 4000x3000, found '"),
            "{size}: {}",
            done.err
        );
    }
}

/// Long names and names of odd characters, in the smallest picture too: nothing overlaps, and the whole name stays at hand.
#[test]
fn odd_names() {
    let names = [
        "m".repeat(5000),
        "a name of a state that goes on and on and on and on, first".to_string(),
        "a name of a state that goes on and on and on and on, second".to_string(),
        "]]> <!-- & &amp; ' --> <![CDATA[ </svg> <?x ?>".to_string(),
        "摩耗したベルトの状態を示すとても長い名前摩耗したベルトの状態".to_string(),
        "\u{202e}right to left \u{fffe}\u{ffff} and no character".to_string(),
        " ".to_string(),
        "e\u{301}\u{302}\u{303}🦀".to_string(),
    ];
    let labels = "label 10 to 30 one up\nlabel 30 to 50 changes 1\nlabel 50 to 55 changes 0\nlabel 55 to 70 one down\nlabel 70 to 110 changes 2\n";
    let more = &format!("{labels}readings 30000\n");
    let title = format!("tab\there, \u{1} \u{1b}[0m {}", "long ".repeat(200));
    let unit = "\u{2}<&>\u{7}".repeat(30);
    for size in ["400x300", "1200x540", "401x3000", "4000x300"] {
        let options = ["--size", size, "--title", &title, "--unit", &unit];
        let svg = drawn("names", &eight_states(&names, more), &options);
        assert!(!svg.contains('\u{1}') && !svg.contains('\u{fffe}') && svg.contains('\u{fffd}'));
        let elements = elements(&svg);
        check_inside(&elements);
        let own = |tag: &'static str| tagged(&elements, tag).map(|element| element.text.as_str()).collect::<Vec<&str>>();
        let (titles, texts) = (own("title"), own("text"));
        for name in &names[..5] {
            assert!(
                titles.iter().chain(&texts).any(|text| text.ends_with(name.as_str())),
                "the legend's whole name: {name}"
            );
            assert!(
                titles.iter().any(|title| title.contains(&format!(": {name}, level "))),
                "the strip's whole name: {name}"
            );
        }
        check_legend(&elements);
    }
}

/// The legend's texts stand above the chart, and each ends before the next one in its line.
fn check_legend(elements: &[Element]) {
    let [_, top, _, bottom] = chart(elements);
    assert!(bottom - top >= 80.0, "{top} to {bottom}");
    let above = tagged(elements, "text").filter(|text| text.get("text-anchor").is_empty());
    let mut texts: Vec<&Element> = above.collect();
    texts.sort_by(|a, b| {
        (a.number("y"), a.number("x"))
            .partial_cmp(&(b.number("y"), b.number("x")))
            .expect("numbers")
    });
    assert_eq!(
        texts.len(),
        2 + 1 + 8 + 1 + 4 + 1,
        "title, summary, reading, states, change, labels, reading beyond the axis"
    );
    assert!(texts.iter().all(|text| text.number("y") + 4.0 < top));
    for pair in texts.windows(2).filter(|pair| pair[0].number("y") == pair[1].number("y")) {
        // 16 is the narrowest sign.
        assert!(
            pair[0].number("x") + pair[0].least_width() < pair[1].number("x") - 16.0,
            "{} and {}",
            pair[0].text,
            pair[1].text
        );
    }
}

/// As many runs as there can be: no stay is allowed, and changes cost nothing.
#[test]
fn a_run_for_every_reading() {
    let readings: String = (0..4096).map(|i| format!(" {}", i * 7919 % 61)).collect();
    let text = format!("grid 0 to 60\nstate a start end\nstate b end\nedge a -> b any class 0\nedge b -> a any class 0\nreadings{readings}\n");
    for size in ["400x300", "1200x540", "4000x3000"] {
        let svg = drawn("crowd", &text, &["--size", size]);
        assert!(svg.len() < 500_000, "{size}: {} bytes", svg.len());
        let elements = elements(&svg);
        check_inside(&elements);
        assert!(elements.len() < 300, "{size}: {} elements", elements.len());
        // Two states, each with half of the runs as levels.
        let runs = tagged(&elements, "path").filter(|path| path.get("d").matches('H').count() == 2048);
        assert_eq!(runs.count(), 2, "{size}");
        let changes = tagged(&elements, "path").filter(|path| path.get("d").matches('M').count() == 4095 && path.get("d").contains("v6"));
        assert_eq!(changes.count(), 1, "{size}");
        assert_eq!(
            tagged(&elements, "path").filter(|path| path.get("stroke") == "white").count(),
            0,
            "{size}"
        );
    }
}

/// Two states that a reading far off tells apart: `b` for those that are chosen.
fn two_states(count: usize, chosen: impl Fn(usize) -> bool) -> String {
    let readings: String = (0..count).map(|i| if chosen(i) { " 60" } else { " 10" }).collect();
    let edges = "edge a -> a stay\nedge b -> b stay\nedge a -> b up 9 penalty 1\nedge b -> a down 9 penalty 1\n";
    format!("grid 0 to 60\nstate a start end\nstate b end\n{edges}readings{readings}\n")
}

/// Numbers below a bound, always the same ones.
fn chance(seed: &mut u64, bound: u64) -> u64 {
    *seed = seed.wrapping_mul(6364136223846793005).wrapping_add(1442695040888963407);
    (*seed >> 33) % bound
}

/// The colours of states, in order of number, as the legend shows them.
fn legend_colours(elements: &[Element]) -> Vec<&str> {
    let signs = tagged(elements, "path").filter(|path| path.get("stroke-width") == "4");
    signs.map(|path| path.get("stroke")).collect()
}

/// How much of the strip's height shows each state at a place. Paths reach down to the strip's lower edge, and later ones lie in front.
fn strip_heights(elements: &[Element]) -> impl Fn(f64) -> Vec<f64> {
    let below = chart(elements)[3] + 26.0;
    let steps = |colour: &str| -> Vec<[f64; 2]> {
        let Some(path) = tagged(elements, "path").find(|path| path.get("fill") == colour) else {
            return Vec::new();
        };
        let number = |text: &str| text.trim_end_matches('z').parse::<f64>().expect("number");
        let pairs = path.get("d").split('H').skip(1).map(|step| step.split_once('V').expect("step"));
        pairs.map(|(x, y)| [number(x), number(y)]).collect()
    };
    let steps: Vec<Vec<[f64; 2]>> = legend_colours(elements).into_iter().map(steps).collect();
    move |x| {
        let top = |steps: &Vec<[f64; 2]>| match steps.partition_point(|step| step[0] <= x) {
            0 => below,
            passed => steps[passed - 1][1],
        };
        let tops: Vec<f64> = steps.iter().map(top).collect();
        let end = |state: usize| tops[state + 1..].iter().copied().fold(below, f64::min);
        (0..tops.len()).map(|state| (end(state) - tops[state]).max(0.0)).collect()
    }
}

/// The strip against the state of each reading: all of it is covered, each reading shows, no state shows far from its readings, and a
/// window of many readings has as much of each state as they have.
fn check_shares(elements: &[Element], states: &[usize], words: &str) {
    const WINDOW: usize = 256;
    // More readings than a bin of 2 px holds in the narrowest picture.
    const FAR: usize = 30;
    let [left, _, right, _] = chart(elements);
    let heights = strip_heights(elements);
    let at = |reading: f64| heights(left + (right - left) * reading / states.len() as f64);
    for (index, state) in states.iter().enumerate() {
        let shown = at(index as f64 + 0.5);
        assert!((shown.iter().sum::<f64>() - 20.0).abs() < 0.05, "{words}, reading {index}: {shown:?}");
        assert!(shown[*state] > 0.95, "{words}, reading {index} of state {state}: {shown:?}");
        let near = &states[index.saturating_sub(FAR)..states.len().min(index + FAR)];
        let absent = |other: usize| shown[other] == 0.0 || near.contains(&other);
        assert!((0..shown.len()).all(absent), "{words}, reading {index}: {shown:?}");
    }
    for (index, window) in states.chunks(WINDOW).enumerate() {
        let samples = (0..4 * window.len()).map(|sample| at((index * WINDOW) as f64 + sample as f64 / 4.0 + 0.1));
        let samples: Vec<Vec<f64>> = samples.collect();
        for state in 0..samples[0].len() {
            let drawn = samples.iter().map(|heights| heights[state]).sum::<f64>() / samples.len() as f64;
            let share = window.iter().filter(|other| **other == state).count() as f64 / window.len() as f64;
            assert!(
                (drawn - 20.0 * share).abs() < 0.6,
                "{words}, window {index}, state {state}: {drawn} for {share}"
            );
        }
    }
}

#[test]
fn shares_of_two_states() {
    let mut seed = 1;
    let mut singles = [0; 4096];
    // Half of the record, in parts, holds 512 readings of state b, none beside another.
    while singles.iter().sum::<usize>() < 512 {
        let place = 1 + chance(&mut seed, 4094) as usize;
        let free = place % 1024 < 512 && singles[place - 1] + singles[place + 1] == 0;
        singles[place] |= usize::from(free);
    }
    let records = [
        ("alternating", std::array::from_fn(|i| i % 2)),
        ("singles", singles),
        ("runs of 9", std::array::from_fn(|i| i / 9 % 2)),
    ];
    for (name, states) in records {
        for size in ["400x300", "1200x540", "4000x3000"] {
            let svg = drawn("shares", &two_states(4096, |i| states[i] == 1), &["--size", size]);
            assert!(svg.len() < 500_000, "{name}, {size}: {} bytes", svg.len());
            let elements = elements(&svg);
            check_inside(&elements);
            check_shares(&elements, &states, &format!("{name}, {size}"));
            let heights = strip_heights(&elements);
            let [left, _, right, _] = chart(&elements);
            let shown: Vec<f64> = (0..10000)
                .map(|i| heights(left + (right - left) * (f64::from(i) + 0.5) / 10000.0)[1])
                .collect();
            if name == "alternating" {
                assert!(shown.iter().all(|height| (height - 10.0).abs() < 1.5), "{size}");
            }
            let (drawn, share) = (shown.iter().sum::<f64>() / 200_000.0, states.iter().sum::<usize>() as f64 / 4096.0);
            assert!((drawn / share - 1.0).abs() < 0.03, "{name}, {size}: {drawn} for {share}");
        }
    }
}

/// One reading of 26 or 27 in a bin would be less than a pixel high.
#[test]
fn a_small_share_is_seen() {
    let elements = elements(&drawn("small", &two_states(4096, |i| i % 60 == 30), &["--size", "400x300"]));
    let heights = strip_heights(&elements);
    for reading in (30..4096).step_by(60) {
        let shown = heights(70.0 + 310.0 * (f64::from(reading) + 0.5) / 4096.0);
        assert!(
            (shown[1] - 1.0).abs() < 0.02 && (shown[0] - 19.0).abs() < 0.02,
            "reading {reading}: {shown:?}"
        );
    }
    for name in ["a", "b"] {
        let words = format!("{name}, share of readings");
        assert_eq!(tagged(&elements, "title").filter(|title| title.text == words).count(), 1, "{name}");
    }
}

/// As many runs and states as there can be: a rise leads to the next state, a fall to the third one from there.
#[test]
fn shares_of_eight_states() {
    let mut seed = 8;
    let mut text = "grid 0 to 1000\n".to_string();
    text.extend((0..8).map(|state| format!("state s{state} {} end\n", if state == 0 { "start" } else { "" })));
    for (kind, step) in [("up", 1), ("down", 3)] {
        text.extend((0..8).map(|state| format!("edge s{state} -> s{} {kind} 1 class 0\n", (state + step) % 8)));
    }
    let (mut reading, mut states) = (500, vec![0]);
    text += "readings 500";
    while states.len() < 4096 {
        let next = chance(&mut seed, 1001);
        if next != reading {
            states.push((states[states.len() - 1] + if next > reading { 1 } else { 3 }) % 8);
            text += &format!(" {next}");
            reading = next;
        }
    }
    text += "\n";
    for size in ["400x300", "1200x540", "4000x3000"] {
        let svg = drawn("shares_of_eight", &text, &["--size", size]);
        assert!(svg.len() < 500_000, "{size}: {} bytes", svg.len());
        let elements = elements(&svg);
        check_inside(&elements);
        check_shares(&elements, &states, size);
    }
}

/// Readings of 2 px are drawn one by one, however many runs there are; narrower ones are not.
#[test]
fn a_crowd_of_wide_runs() {
    for (count, size, exact) in [(555, "1200x540", true), (556, "1200x540", false), (1955, "4000x3000", true)] {
        let elements = elements(&drawn("wide", &two_states(count, |i| i % 2 == 1), &["--size", size]));
        let strip: Vec<&Element> = tagged(&elements, "path").filter(|path| path.get("stroke-width") == "20").collect();
        assert_eq!(strip.len(), if exact { 2 } else { 0 }, "{count}");
        let [left, _, right, bottom] = chart(&elements);
        for (state, path) in strip.iter().enumerate() {
            assert_eq!(path.get("shape-rendering"), "", "{count}: edges off their place");
            let runs = (state..count).step_by(2).map(|i| {
                let [from, to] = [i, i + 1].map(|at| left + at as f64 / count as f64 * (right - left));
                format!("M{from:.1} {:.1}H{to:.1}", bottom + 16.0)
            });
            assert_eq!(path.get("d"), runs.collect::<String>(), "{count}");
        }
        if !exact {
            let states: Vec<usize> = (0..count).map(|i| i % 2).collect();
            check_shares(&elements, &states, size);
        }
    }
}

/// The legend shows changes as the chart does: up to 120 as dashed lines, more as short marks.
#[test]
fn the_legend_of_changes() {
    for (count, words, marks) in [(120, "change", false), (121, "change (mark above)", true)] {
        let elements = elements(&drawn("legend", &two_states(count + 1, |i| i % 2 == 1), &[]));
        let text = tagged(&elements, "text").find(|text| text.text.starts_with("change")).expect("legend");
        assert_eq!(text.text, words);
        let dashed = tagged(&elements, "path").filter(|path| !path.get("stroke-dasharray").is_empty()).count();
        assert_eq!(dashed, if marks { 0 } else { count + 1 }, "{count}");
        let signs: Vec<&str> = tagged(&elements, "path")
            .map(|path| path.get("d"))
            .filter(|d| d.ends_with("v6"))
            .collect();
        assert_eq!(signs.len(), if marks { 2 } else { 0 }, "{count}: legend and chart");
        if marks {
            let place = signs[0][1..].trim_end_matches("v6").split_once(' ').expect("one mark");
            let [x, y] = [place.0, place.1].map(|number| number.parse::<f64>().expect("number"));
            let (right, foot) = (text.number("x"), text.number("y"));
            assert!(
                (right - 34.0..right - 8.0).contains(&x) && (foot - 13.0..foot - 6.0).contains(&y),
                "{x}, {y}"
            );
            assert_eq!(signs[1].matches("v6").count(), count);
        }
    }
    let help = run(&["help", "plot"], b"").text().replace('\n', " ");
    for words in [
        "more than 120 are short marks above the chart",
        "Where many runs share the same place, the strip shows the share of each state.",
    ] {
        assert!(help.contains(words), "{words}");
    }
}

#[test]
fn small_and_odd_records() {
    let states = "state a start end\nedge a -> a stay\nedge a -> a any penalty 1\n";
    let labels: String = (0..64)
        .map(|i| format!("label {} to {} changes {}\n", 1 + 4 * i, 5 + 4 * i, i % 4))
        .collect();
    let cases = [
        ("one", "readings -32768".to_string(), 1, 0),
        ("two", "readings 32767 -32768".to_string(), 2, 0),
        ("equal", format!("readings{}", " 5".repeat(100)), 100, 0),
        ("far", format!("readings{}{}", " 30000".repeat(50), " -30000".repeat(50)), 100, 0),
        ("labels", format!("{labels}readings{}", " 5".repeat(300)), 300, 64),
    ];
    for (name, rest, count, labels) in cases {
        for size in ["400x300", "1200x540", "4000x3000"] {
            let text = format!("grid 0 to 9\n{states}{rest}\n");
            let elements = elements(&drawn(name, &text, &["--size", size]));
            check_inside(&elements);
            let dots: usize = tagged(&elements, "path").map(|path| path.get("d").matches("h0").count()).sum();
            assert_eq!(dots, count + 1, "{name}, {size}: the readings, and one in the legend");
            let [left, _, right, bottom] = chart(&elements);
            let windows = tagged(&elements, "rect").filter(|rect| rect.get("fill") != "none" && rect.number("height") > 50.0);
            assert_eq!(windows.count(), labels + 1, "{name}, {size}: labels, and the background");
            let numbers = tagged(&elements, "text").filter(|text| text.get("text-anchor") == "end");
            assert!(numbers.count() >= 1, "{name}, {size}: a number at the axis of currents");
            let strip = tagged(&elements, "path").find(|path| path.get("stroke-width") == "20").expect("strip");
            assert!(
                strip.get("d").starts_with(&format!("M{left:.1} {:.1}H", bottom + 16.0)) && right > left,
                "{name}, {size}"
            );
        }
    }
}

fn long_record(penalty: u32) -> Vec<u8> {
    let readings: String = (0..4096)
        .map(|i| format!(" {}", if i == 2000 { 30000 } else { i * 7919 % 61 - 30 }))
        .collect();
    let text = format!("grid -40 to 39\nstate a start end\nedge a -> a stay\nedge a -> a any penalty {penalty}\nreadings{readings}\n");
    run(&["make"], text.as_bytes()).out
}

#[test]
fn a_long_record() {
    let plan = long_record(50000);
    let done = run(&["plot"], &plan);
    assert_eq!(done.status, 0);
    let svg = done.text();
    check_inside(&elements(&svg));
    // The lone reading of 30,000 does not flatten the rest: it is a mark at the edge.
    assert!(svg.lines().any(|line| line.matches("h0").count() == 4095));
    assert!(svg.contains("reading beyond the axis") && svg.contains(">level, state 0<"));
}

#[test]
fn a_pipe_that_closes_early() {
    let folder = folder("pipe");
    fs::write(folder.join("p"), long_record(10)).expect("file");
    let mut command = program();
    let mut child = command
        .args(["plot", "p"])
        .current_dir(&folder)
        .stdout(Stdio::piped())
        .stderr(Stdio::piped())
        .spawn()
        .expect("program");
    drop(child.stdout.take());
    let output = child.wait_with_output().expect("output");
    assert_eq!((output.status.code(), output.stderr.len()), (Some(0), 0));
}

#[test]
fn nothing_to_draw() {
    let folder = folder("nothing");
    fs::write(folder.join("p"), hex(PAPER_PLAN)).expect("file");
    fs::write(folder.join("refused"), hex("83 0001 10")).expect("file");
    // One reading less than the plan has, and a level off its grid.
    fs::write(folder.join("short"), hex(&PAPER_ANSWER.replace("0001 0002", "0001 0001"))).expect("file");
    fs::write(folder.join("level"), hex(&PAPER_ANSWER.replace("0003 FF", "000A FF"))).expect("file");
    fs::write(folder.join("plan.txt"), TEXT).expect("file");
    fs::write(folder.join("edges.txt"), "grid 0 to 9\nstate s start end\nedge s->s stay\nreadings 1\n").expect("file");
    let cases = [
        (vec!["p", "--answer", "refused"], 1, "holds refusal 16"),
        (vec!["p", "--answer", "short"], 1, "the answer has 1 readings, but p has 2"),
        (vec!["p", "--answer", "level"], 1, "run 1 has level 10"),
        (vec!["p", "--answer", "p"], 1, "not a good answer file"),
        (vec!["refused"], 1, "not a good plan file"),
        (vec!["p", "--text", "plan.txt"], 1, "plan.txt is not the text of p"),
        (vec!["p", "--text", "edges.txt"], 1, "edges.txt is not the text of p"),
        (vec!["-", "--answer", "-"], 2, "standard input is asked for twice"),
        (vec!["p", "--answer", "missing"], 2, "cannot read 'missing'"),
    ];
    for (args, status, words) in cases {
        let done = run_in(&folder, &[vec!["plot"], args.clone()].concat(), b"");
        assert_eq!((done.status, done.out.len()), (status, 0), "{args:?}");
        assert!(done.err.contains(words), "{args:?}: {}", done.err);
    }
}

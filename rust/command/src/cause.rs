//! What is wrong in a refused file, in words. The number is the proved library's; this only explains it.
use crate::answer;
use crate::check::counted;
use crate::failure::sentence;
use crate::label::{Label, MOST_CHANGES, ONE_DOWN, ONE_UP};
use crate::locate::{agrees, is_cut, locate, Kind, Place};
use crate::plan::{edge_of, with_c, with_grid, with_labels, with_masks, Edge, Plan, KINDS, MAX_CHANGES, MAX_READINGS, MAX_RECORD, MAX_WINDOW};
use crate::rules::permits;
use shared::fields::{number, signed, Field};
use yeldaski::Refusal;

const END: &str = "the end of the file";
const ONE_LEVEL: &str = "the grid has one level, and every change of this plan needs another";
const NO_READINGS: &str = "there are no readings, at least 1 is due";

/// The cause of a plan file's refusal, by the reader or by a search; the short sentence of the number where none is found.
pub fn words(file: &[u8], refusal: Refusal) -> String {
    of_plan_file(file, refusal).unwrap_or_else(|| sentence(refusal).to_string())
}

pub fn of_plan_file(file: &[u8], refusal: Refusal) -> Option<String> {
    match Plan::read(file) {
        Ok(plan) => of_search(file, &plan, refusal).map(|(_, cause)| cause),
        Err(_) => of_field(Kind::Plan, file, refusal),
    }
}

/// The cause of a reader's refusal, where the field that it is about is found.
pub fn of_field(kind: Kind, file: &[u8], refusal: Refusal) -> Option<String> {
    let place = locate(kind, file, refusal);
    agrees(kind, &place, refusal).then(|| cause(kind, file, &place, refusal.0)).flatten()
}

/// What is wrong with a number of readings, and what to do about too many.
pub fn of_count(count: usize) -> String {
    match count {
        0 => NO_READINGS.to_string(),
        _ => format!(
            "{count} readings, at most {MAX_READINGS}: split the record into parts of at most {MAX_READINGS} readings; each is searched by itself, \
             so mark as 'start' the states in which a later part may begin"
        ),
    }
}

/// The same of a text or a record, which may be longer for a moving window; a plan file may not.
pub fn of_record(count: usize) -> String {
    let cause = of_count(count);
    match count {
        1..=MAX_RECORD => format!("{cause}; or try 'yeldaski windows', which takes the whole record, stretch by stretch"),
        _ => cause,
    }
}

/// Why a moving window of `w` readings over a record of `count` is refused, and what to do about it.
pub fn of_windows(count: usize, w: usize, refusal: Refusal) -> String {
    let room = count.min(MAX_WINDOW);
    match refusal.0 {
        9 if count == 0 => NO_READINGS.to_string(),
        9 => {
            // 9 comes before 19, so the window may be none.
            let overlap = match w {
                1..=MAX_WINDOW => format!("{}, one less than the window", counted(w - 1, "reading")),
                _ => format!("one reading less than the window has, which is 1 to {MAX_WINDOW}"),
            };
            format!(
                "{count} readings, at most {MAX_RECORD} for a moving window: split the record into parts that overlap by {overlap}, \
                 so that no stretch is lost"
            )
        }
        18 => "a moving window takes a plan without labels: --no-labels leaves them out".to_string(),
        19 if w > count && w <= MAX_WINDOW => format!("a window of {w} readings, but the record has {count}: choose --window from 1 to {room}"),
        19 => format!("a window of {}: choose --window from 1 to {room}", counted(w, "reading")),
        _ => sentence(refusal).to_string(),
    }
}

/// Why a table for up to `most` changes over a record of `count` readings is refused by a number that no search has, or has in other words.
pub fn of_table(count: usize, most: usize, refusal: Refusal) -> String {
    match refusal.0 {
        9 => of_record(count),
        20 => format!("a table for {most} changes: choose --changes from 0 to {MAX_CHANGES}"),
        _ => sentence(refusal).to_string(),
    }
}

/// What is wrong in a field that is found.
pub fn cause(kind: Kind, file: &[u8], place: &Place, refusal: u8) -> Option<String> {
    let Some(field) = place.field() else {
        return Some(format!("the file ends, but {} is due", due(kind, place)));
    };
    let body = &file[field.body.clone()];
    match refusal {
        1 if due(kind, place) == END => Some(format!("{}; nothing may stand here", cut(field))),
        1 => Some(cut(field)),
        2 => Some(format!("tag {:02X} stands where {} is due", field.tag, due(kind, place))),
        3 => Some(wrong_length(field)),
        9 => Some(of_count(field.length.unwrap_or(0) / 2)),
        // The other numbers are about the content of a whole body.
        _ if is_cut(field) => None,
        4 => Some(grid(body)),
        5 => states(body),
        6 => edge(file, place, &edge_of(body)),
        7 => same_edge(file, place, &edge_of(body)),
        8 => label(body),
        10 if field.tag == 3 => Some("it is the 33rd edge".to_string()),
        10 => Some("it is the 65th label".to_string()),
        12 => early_label(file, place, body),
        17 if field.tag == 0x83 => Some(format!("{} is no refusal number", body[0])),
        17 => run(file, place, body),
        _ => None,
    }
}

fn due(kind: Kind, place: &Place) -> &'static str {
    let before = place
        .index
        .checked_sub(1)
        .and_then(|index| place.fields.get(index))
        .map(|field| field.tag);
    match (kind, before) {
        (Kind::Plan, None) => "tag 01 (grid)",
        (Kind::Plan, Some(1)) => "tag 02 (states)",
        (Kind::Plan, Some(2 | 3)) => "tag 03 (edge), 04 (label) or 05 (readings)",
        (Kind::Plan, Some(4)) => "tag 04 (label) or 05 (readings)",
        (Kind::Answer, None) => "tag 81 (cost) or 83 (refusal)",
        (Kind::Answer, Some(0x81)) => "tag 82 (run)",
        (Kind::Answer, Some(0x82)) => "tag 82 (run) or the end of the file",
        _ => END,
    }
}

fn cut(field: &Field) -> String {
    match field.length {
        Some(length) => format!(
            "the body should have {length} bytes, but the file ends after {} of them",
            field.body.len()
        ),
        None => format!(
            "the header should have 3 bytes, but the file ends after {} of them",
            field.end() - field.offset
        ),
    }
}

fn wrong_length(field: &Field) -> String {
    let right = match field.tag {
        0x01 => 4,
        0x02 => 3,
        0x03 => 6,
        0x04 => 5,
        0x81 | 0x82 => 8,
        0x83 => 1,
        _ => return format!("the length {} is odd", field.length.unwrap_or(0)),
    };
    format!("the length is {}, but should be {right}", field.length.unwrap_or(0))
}

fn grid(body: &[u8]) -> String {
    let (lo, hi) = (signed(&body[..2]), signed(&body[2..]));
    let width = i32::from(hi) - i32::from(lo);
    if width < 0 {
        return format!("hi {hi} is below lo {lo}");
    }
    format!("hi {hi} - lo {lo} is {width}, above 1023")
}

fn states(body: &[u8]) -> Option<String> {
    let count = body[0];
    if count == 0 || count > 8 {
        return Some(format!("{count} states, but 1 to 8 are allowed"));
    }
    let mask = |name: &str, mask: u8| match mask {
        0 => Some(format!("the {name} mask is empty")),
        _ if u16::from(mask) >> count != 0 => Some(format!("the {name} mask {mask:08b} has a bit for a state not below {count}")),
        _ => None,
    };
    mask("start", body[1]).or_else(|| mask("end", body[2]))
}

fn edge(file: &[u8], place: &Place, edge: &Edge) -> Option<String> {
    let states = place.earlier(2).next().map(|field| file[field.body.start])?;
    let reasons = [
        (edge.from >= states, format!("its first state {} is not below {states}", edge.from)),
        (edge.to >= states, format!("its second state {} is not below {states}", edge.to)),
        (edge.kind > 4, format!("the kind {} is above 4", edge.kind)),
        (edge.gap > 1023, format!("the gap {} is above 1023", edge.gap)),
        (
            edge.kind < 2 && edge.gap > 0,
            format!("the gap is {}, but kind {} has none", edge.gap, edge.kind_text()),
        ),
        (edge.class > 15, format!("the class {} is above 15", edge.class)),
    ];
    reasons.into_iter().find(|(holds, _)| *holds).map(|(_, reason)| reason)
}

fn same_edge(file: &[u8], place: &Place, edge: &Edge) -> Option<String> {
    let key = |edge: &Edge| (edge.from, edge.to, edge.kind);
    let earlier = place.earlier(3).position(|field| key(&edge_of(&file[field.body.clone()])) == key(edge))?;
    let kind = KINDS.get(usize::from(edge.kind))?;
    Some(format!(
        "edge {earlier} already leads from state {} to state {} with kind {kind}",
        edge.from, edge.to
    ))
}

fn label(body: &[u8]) -> Option<String> {
    let label = Label::of(body);
    let reasons = [
        (label.p == 0, "p is 0, but readings are counted from 1".to_string()),
        (label.q <= label.p, format!("q {} is not above p {}", label.q, label.p)),
        (usize::from(label.q) > MAX_READINGS, format!("q {} is above {MAX_READINGS}", label.q)),
        (
            label.c > ONE_DOWN,
            format!(
                "c {} is above {ONE_DOWN}: 0 to {MOST_CHANGES} ask for so many changes, {ONE_UP} for one up and {ONE_DOWN} for one down",
                label.c
            ),
        ),
    ];
    reasons.into_iter().find(|(holds, _)| *holds).map(|(_, reason)| reason)
}

fn early_label(file: &[u8], place: &Place, body: &[u8]) -> Option<String> {
    let before = Label::of(&file[place.earlier(4).last()?.body.clone()]);
    Some(format!(
        "it ({}) starts before the label before it ({}) ends",
        Label::of(body).text(),
        before.text()
    ))
}

fn run(file: &[u8], place: &Place, body: &[u8]) -> Option<String> {
    let before = place
        .earlier(0x82)
        .last()
        .map(|field| number(&file[field.body.start + 2..field.body.start + 4]));
    let (first, last, state, edge) = (number(&body[..2]), number(&body[2..4]), body[4], body[7]);
    let due = before.map_or(1, |last| last + 1);
    let reasons = [
        (first != due, format!("it starts at reading {first}, but {due} is due")),
        (last < first, format!("it ends at reading {last}, before it starts at {first}")),
        (last > MAX_READINGS as u64, format!("it ends at reading {last}, above {MAX_READINGS}")),
        (state > 7, format!("the state {state} is above 7")),
        (before.is_none() && edge != 255, format!("the first run has edge {edge}, but 255 is due")),
        (before.is_some() && edge > 31, format!("the edge {edge} is above 31")),
    ];
    reasons.into_iter().find(|(holds, _)| *holds).map(|(_, reason)| reason)
}

/// Why a search of a plan that can be read is refused, and the field to blame (counted from 0) where there is one.
pub fn of_search(file: &[u8], plan: &Plan, refusal: Refusal) -> Option<(Option<usize>, String)> {
    match refusal.0 {
        13 => long_label(plan),
        16 => Some(no_segmentation(file, plan)),
        _ => None,
    }
}

/// The place of a label among the fields, all counted from 0: grid and states stand first, then the edges.
fn label_index(plan: &Plan, number: usize) -> Option<usize> {
    Some(2 + plan.edges.len() + number)
}

fn long_label(plan: &Plan) -> Option<(Option<usize>, String)> {
    let count = plan.readings.len();
    let (at, beyond) = plan.labels.iter().enumerate().find_map(|(at, label)| Some((at, label.beyond(count)?)))?;
    Some((label_index(plan, at), format!("label {} {beyond}", at + 1)))
}

/// Asks the search what it says with fewer labels and with wider masks, to name what leaves no segmentation.
fn no_segmentation(file: &[u8], plan: &Plan) -> (Option<usize>, String) {
    let none = |file: &[u8]| answer::search(file).err() == Some(Refusal(16));
    let bare = with_labels(file, |_| false);
    if none(&bare) {
        return no_walk(&bare, plan, none);
    }
    // The first label that, with all before it, leaves none. It is the last one if none of the others is.
    let others: Vec<usize> = (1..plan.labels.len()).collect();
    let at = others.partition_point(|count| !none(&with_labels(file, |index| index < *count)));
    let alone = none(&with_labels(file, |index| index == at));
    let together = if alone { "" } else { " together with the labels before it" };
    let label = &plan.labels[at];
    let why = match hopeless(plan, label) {
        Some(why) => format!(": {why}"),
        None => format!("{together}; {}", possible(file, at, none)),
    };
    (label_index(plan, at), format!("label {} ({}) cannot hold{why}", at + 1, label.text()))
}

/// What the label with this number, from 0, could ask for instead, beside the labels before it.
fn possible(file: &[u8], at: usize, none: impl Fn(&[u8]) -> bool) -> String {
    let file = with_labels(file, |index| index <= at);
    let holds = (0..=ONE_DOWN).filter(|c| !none(&with_c(&file, at, *c)));
    let words: Vec<String> = holds.map(|c| Label { p: 0, q: 0, c }.asks()).collect();
    if words.is_empty() {
        return format!("every segmentation has more than {MOST_CHANGES} changes there");
    }
    format!("possible there: {}", words.join(", "))
}

/// Why a label holds in no record, where that can be read off the plan.
fn hopeless(plan: &Plan, label: &Label) -> Option<String> {
    let room = label.q - label.p;
    match label.kind() {
        Some(kind) if plan.edges.iter().all(|edge| edge.kind != kind) => Some(format!("no edge has the kind {}", KINDS[usize::from(kind)])),
        None if u16::from(label.c) > room => Some(format!("there is room for {}", counted(usize::from(room), "change"))),
        _ if label.c > 0 && no_other_level(plan) => Some(ONE_LEVEL.to_string()),
        _ => None,
    }
}

/// Whether there are changes, and all of them need a second level, which the grid does not have.
fn no_other_level(plan: &Plan) -> bool {
    let mut changes = plan.edges.iter().filter(|edge| edge.is_change()).peekable();
    plan.lo == plan.hi && changes.peek().is_some() && changes.all(|edge| !permits(edge, plan.lo, plan.lo))
}

/// The same for a plan that has no segmentation even without its labels.
fn no_walk(bare: &[u8], plan: &Plan, none: impl Fn(&[u8]) -> bool) -> (Option<usize>, String) {
    // One level more, on whichever side there is one.
    let wider = if plan.hi < i16::MAX {
        (plan.lo, plan.hi + 1)
    } else {
        (plan.lo - 1, plan.hi)
    };
    if no_other_level(plan) && !none(&with_grid(bare, wider.0, wider.1)) {
        // Field 01, which holds the grid, is the first of a plan file.
        return (Some(0), ONE_LEVEL.to_string());
    }
    let all = ((1u16 << plan.states) - 1) as u8;
    let masks = [
        (plan.start, all, "no segmentation ends in a state in which a record may end"),
        (all, plan.end, "no segmentation starts in a state in which a record may start"),
        (
            all,
            all,
            "no segmentation leads from a state in which a record may start to one in which it may end",
        ),
    ];
    match masks.iter().find(|(start, end, _)| !none(&with_masks(bare, *start, *end))) {
        // Field 02, which holds the masks, is the second of a plan file.
        Some((_, _, cause)) => (Some(1), cause.to_string()),
        None => {
            let readings = counted(plan.readings.len(), "reading");
            let cause = format!("the edges allow no chain of {readings}; is a stay missing, or the grid too narrow for a change?");
            (None, cause)
        }
    }
}

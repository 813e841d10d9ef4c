//! The picture of a record: readings, runs, changes and labels.
use crate::answer::Run;
use crate::check::counted;
use crate::colours::{self, text_on, DOT, INK, TEXT};
use crate::failure::{quoted, usage, Failure};
use crate::frame::{axes, fill, heading, Frame};
use crate::label::{Label, ONE_DOWN, ONE_UP};
use crate::outline::Outline;
use crate::plan::Plan;
use crate::scale::{current_range, Scale};
use crate::svg::{fitted, text_width, Svg, SIZE, SMALL};
use shared::options::Args;
use std::cmp::Ordering;

/// Width and height: without `--size`, and the least and the most that may be asked for.
const USUAL: [f64; 2] = [1200.0, 540.0];
const LEAST: [u32; 2] = [400, 300];
const MOST: [u32; 2] = [4000, 3000];

/// From so many changes or runs on they are drawn finer, and without texts of their own.
const CROWD: usize = 120;
/// How far a change's mark reaches above the chart where changes are a crowd.
const MARK: f64 = 6.0;

/// The strip below the readings, which says the state of each run, takes so much of the height.
const STRIP: f64 = 26.0;
/// The strip of a crowd is divided into bins at least so wide, and into no more than keep the file small.
const BIN: f64 = 2.0;
const MOST_BINS: f64 = 600.0;
/// A state with a reading in a bin is at least so high there, else it would not be seen.
const LEAST_SHARE: f64 = 1.0;
/// Neighbours in the strip are divided by a broad line from the one width on, and by a thin line from the other on.
const WIDE: f64 = 6.0;
const NARROW: f64 = 1.8;

/// The legend's sign and the gap behind it, in a usual legend and in a narrow one.
const SIGN: [f64; 2] = [26.0, 16.0];
const SIGN_GAP: [f64; 2] = [8.0, 5.0];
/// A usual legend with more lines is worse to read than one in columns.
const MOST_LINES: f64 = 5.0;

const MOST_STATES: usize = 8;

/// What the user wants of a picture beside its content.
pub struct Look {
    pub title: Option<String>,
    pub unit: Option<String>,
    /// What readings were multiplied by, where a text says so: the axis then counts in that part of the unit.
    pub scale: Option<u32>,
    pub width: f64,
    pub height: f64,
}

impl Look {
    pub fn of(args: &Args) -> Result<Look, Failure> {
        let words = |long: &str| args.option(long).filter(|text| !text.trim().is_empty()).map(String::from);
        let [width, height] = args.option("size").map_or(Ok(USUAL), size)?;
        Ok(Look {
            title: words("title"),
            unit: words("unit"),
            scale: None,
            width,
            height,
        })
    }
}

fn size(text: &str) -> Result<[f64; 2], Failure> {
    let part = |digits: &str, at: usize| {
        let digits = Some(digits).filter(|digits| digits.bytes().all(|byte| byte.is_ascii_digit()))?;
        let number = digits.parse().ok().filter(|number| (LEAST[at]..=MOST[at]).contains(number))?;
        Some(f64::from(number))
    };
    let found = text.split_once('x').and_then(|(width, height)| Some([part(width, 0)?, part(height, 1)?]));
    found.ok_or_else(|| {
        usage(format!(
            "--size: expected WIDTHxHEIGHT, {}x{} to {}x{}, found {}",
            LEAST[0],
            LEAST[1],
            MOST[0],
            MOST[1],
            quoted(text)
        ))
    })
}

pub fn picture(plan: &Plan, outline: &Outline, cost: u64, runs: &[Run], look: &Look) -> String {
    let changes: Vec<&Run> = runs
        .iter()
        .filter(|run| run.edge.and_then(|edge| outline.edge(edge)).is_some_and(|edge| edge.is_change()))
        .collect();
    let summary = format!(
        "{}: {}, {}, cost {cost}",
        counted(plan.readings.len(), "reading"),
        counted(runs.len(), "run"),
        counted(changes.len(), "change")
    );
    let mut svg = Svg::new(look.width, look.height, look.title.as_ref().unwrap_or(&summary));
    let mut frame = Frame::of(look, STRIP);
    heading(&mut svg, &mut frame, look.title.as_deref(), &summary);
    let (least, most) = current_range(&plan.readings, runs);
    let beyond = plan.readings.iter().any(|reading| !(least..=most).contains(&f64::from(*reading)));
    legend(&mut svg, &mut frame, legend_items(plan, outline, changes.len() > CROWD, beyond));
    let chart = Chart {
        x: Scale::new([0.0, plan.readings.len() as f64], [frame.left, frame.right]),
        y: Scale::new([least, most], [frame.bottom, frame.top]),
        frame,
        outline,
    };
    chart.labels(&mut svg, plan);
    axes(&mut svg, &chart.frame, [&chart.x, &chart.y], 1, ["reading", &current(look)]);
    chart.changes(&mut svg, &changes);
    chart.readings(&mut svg, &plan.readings);
    chart.levels(&mut svg, runs);
    chart.strip(&mut svg, runs);
    chart.label_texts(&mut svg, plan);
    svg.finish()
}

/// What the axis of levels counts: `current`, `current × 10 (A)`.
fn current(look: &Look) -> String {
    let times = look.scale.filter(|scale| *scale > 1).map_or(String::new(), |scale| format!(" × {scale}"));
    let unit = look.unit.as_ref().map_or(String::new(), |unit| format!(" ({unit})"));
    format!("current{times}{unit}")
}

/// What stands in front of a legend's text.
enum Sign {
    Line(String),
    Mark,
    Box(String),
    Dot,
    Triangle,
}

/// Something of the legend: its sign, its text, and a shorter text for where there is little room.
type Item = (Sign, String, String);

fn legend_items(plan: &Plan, outline: &Outline, crowd: bool, beyond: bool) -> Vec<Item> {
    let item = |sign: Sign, long: &str, short: &str| (sign, long.to_string(), short.to_string());
    let mut items = vec![item(Sign::Dot, "reading", "reading")];
    for state in 0..plan.states {
        let name = outline.state(state);
        let style = format!("stroke=\"{}\" stroke-width=\"4\"", colours::of_state(state));
        items.push(item(Sign::Line(style), &format!("level, {name}"), &name));
    }
    items.push(match crowd {
        true => item(Sign::Mark, "change (mark above)", "change (above)"),
        false => item(Sign::Line(change_style()), "change", "change"),
    });
    items.extend((0..colours::LABELS.len()).filter_map(|shade| legend_of_labels(plan, shade)));
    if beyond {
        items.push(item(Sign::Triangle, "reading beyond the axis", "off the axis"));
    }
    items
}

/// The labels of one shade; none where there are none. Where they ask for different numbers of changes, the windows say how many.
fn legend_of_labels(plan: &Plan, shade: usize) -> Option<Item> {
    let mut labels = plan.labels.iter().filter(|label| shade_of(label) == shade);
    let first = labels.next()?;
    let (long, short) = match labels.all(|label| label.c == first.c) {
        true => (first.asks(), first.asks()),
        false => ("number of changes".to_string(), "changes".to_string()),
    };
    Some((Sign::Box(window_style(shade)), format!("label, {long}"), short))
}

/// Draws the legend in as many lines as it needs, but no more than leave enough for the chart: else in narrow columns.
fn legend(svg: &mut Svg, frame: &mut Frame, items: Vec<Item>) {
    let allowed = (frame.bottom - frame.top) * 0.45;
    let longest = (frame.room() / 4.0).max(150.0);
    let (mut x, mut y) = (frame.margin, frame.top);
    let mut places = Vec::new();
    for (_, long, _) in &items {
        let width = SIGN[0] + SIGN_GAP[0] + text_width(long, SIZE).min(longest) + 22.0;
        if x > frame.margin && x + width > frame.right + 22.0 {
            (x, y) = (frame.margin, y + 20.0);
        }
        places.push([x, y]);
        x += width;
    }
    if y - frame.top + 20.0 <= allowed.min(MOST_LINES * 20.0) {
        for ((sign, long, _), place) in items.iter().zip(places) {
            legend_item(svg, sign, place, long, longest, false);
        }
        frame.top = y + 14.0;
        return;
    }
    let lines = (allowed / 16.0).floor().max(1.0) as usize;
    let columns = items.len().div_ceil(lines);
    let width = frame.room() / columns as f64;
    for (index, (sign, _, short)) in items.iter().enumerate() {
        let place = [
            frame.margin + (index % columns) as f64 * width,
            frame.top + (index / columns) as f64 * 16.0,
        ];
        legend_item(svg, sign, place, short, width - SIGN[1] - SIGN_GAP[1] - 6.0, true);
    }
    frame.top += (items.len().div_ceil(columns) - 1) as f64 * 16.0 + 14.0;
}

fn legend_item(svg: &mut Svg, sign: &Sign, [x, y]: [f64; 2], content: &str, room: f64, small: bool) {
    let (width, gap) = (SIGN[usize::from(small)], SIGN_GAP[usize::from(small)]);
    let middle = x + width / 2.0;
    match sign {
        Sign::Line(style) => svg.line([x, y - 4.0, x + width, y - 4.0], style),
        Sign::Mark => svg.path(&mark(middle, y - 1.0), &mark_style(1.5), ""),
        Sign::Box(style) => svg.rect([x, y - 10.0, x + width, y + 1.0], style, ""),
        Sign::Dot => svg.path(&format!("M{middle:.1} {:.1}h0", y - 4.0), &dot_style(5.2), ""),
        Sign::Triangle => svg.path(&triangle(middle, y - 8.0, 1.0), &fill(DOT), ""),
    }
    let size = if small { SMALL } else { SIZE };
    svg.text_within([x + width + gap, y], size, room, &fill(TEXT), content);
}

fn change_style() -> String {
    format!("stroke=\"{INK}\" stroke-dasharray=\"5 4\" fill=\"none\"")
}

/// A change of a crowd: a short mark that ends at a place.
fn mark(x: f64, end: f64) -> String {
    format!("M{x:.1} {:.1}v{MARK}", end - MARK)
}

fn mark_style(width: f64) -> String {
    format!("stroke=\"{INK}\" stroke-width=\"{width}\" fill=\"none\"")
}

fn dot_style(width: f64) -> String {
    format!("stroke=\"{DOT}\" stroke-opacity=\"0.6\" stroke-width=\"{width:.1}\" stroke-linecap=\"round\" fill=\"none\"")
}

/// Which of the colours of labels is a label's: one for all numbers of changes but 0.
fn shade_of(label: &Label) -> usize {
    match label.c {
        0 => 0,
        ONE_UP => 2,
        ONE_DOWN => 3,
        _ => 1,
    }
}

/// The look of a label's window, with a rim since one label may begin where the one before it ends.
fn window_style(shade: usize) -> String {
    let (rim, shade) = colours::LABELS[shade];
    format!("fill=\"{shade}\" stroke=\"{rim}\"")
}

/// What a label asks for in one sign, for a narrow window.
fn sign_of(label: &Label) -> String {
    match label.c {
        ONE_UP => "↑".to_string(),
        ONE_DOWN => "↓".to_string(),
        count => count.to_string(),
    }
}

/// A small triangle with its tip at a place: upwards for 1, downwards for -1.
fn triangle(x: f64, tip: f64, direction: f64) -> String {
    format!("M{x:.1} {tip:.1}l4 {:.1}h-8z", 7.0 * direction)
}

/// Where each state of a bin begins in the strip; one without a reading there, at the strip's lower edge.
fn tops(states: &[u8], [above, below]: [f64; 2]) -> [f64; MOST_STATES] {
    let part = (below - above) / states.len() as f64;
    let mut heights: [f64; MOST_STATES] =
        std::array::from_fn(|number| part * states.iter().filter(|state| usize::from(**state) == number).count() as f64);
    for number in 0..MOST_STATES {
        let missing = LEAST_SHARE - heights[number];
        if heights[number] > 0.0 && missing > 0.0 {
            let largest = (0..MOST_STATES).max_by(|a, b| heights[*a].total_cmp(&heights[*b])).unwrap_or(number);
            heights[largest] -= missing;
            heights[number] += missing;
        }
    }
    let mut free = above;
    heights.map(|height| {
        let top = if height > 0.0 { free } else { below };
        free += height;
        top
    })
}

struct Chart<'a> {
    /// Reading i lies between i - 1 and i on the axis of readings, so boundary i is at i.
    x: Scale,
    y: Scale,
    frame: Frame,
    outline: &'a Outline,
}

impl Chart<'_> {
    fn labels(&self, svg: &mut Svg, plan: &Plan) {
        for label in &plan.labels {
            let (left, right) = self.window(label);
            let style = window_style(shade_of(label));
            let hint = format!("label: {}", label.text());
            svg.rect([left, self.frame.top, right, self.frame.bottom], &style, &hint);
        }
    }

    /// The texts of labels come last, with a white rim, since a change may stand right behind them.
    fn label_texts(&self, svg: &mut Svg, plan: &Plan) {
        const RIM: &str = "stroke=\"white\" stroke-width=\"4\" stroke-linejoin=\"round\" paint-order=\"stroke\" pointer-events=\"none\"";
        for label in &plan.labels {
            let (left, right) = self.window(label);
            let texts = [label.asks(), sign_of(label)];
            if let Some(content) = texts.iter().find(|content| text_width(content, SIZE) + 2.0 < right - left) {
                let style = format!("text-anchor=\"middle\" {} {RIM}", fill(TEXT));
                svg.text((left + right) / 2.0, self.frame.bottom - 8.0, &style, content);
            }
        }
    }

    /// The boundaries p to q - 1 lie between the middles of readings p and q.
    fn window(&self, label: &Label) -> (f64, f64) {
        (self.x.place(f64::from(label.p) - 0.5), self.x.place(f64::from(label.q) - 0.5))
    }

    fn changes(&self, svg: &mut Svg, changes: &[&Run]) {
        let Frame { top, strip, .. } = self.frame;
        let place = |run: &Run| self.x.place(run.first as f64 - 1.0);
        // Many lines side by side would hide the readings, so they become thin, and then short marks above them.
        if changes.len() > CROWD {
            let marks: String = changes.iter().map(|run| mark(place(run), top)).collect();
            svg.path(&marks, &mark_style(0.5), "");
            return;
        }
        let width = if changes.len() > 30 { 0.5 } else { 1.2 };
        for run in changes {
            let x = place(run);
            svg.line([x, top, x, strip[1]], &format!("{} stroke-width=\"{width}\"", change_style()));
            svg.path(&triangle(x, top, -1.0), &fill(INK), &format!("change before reading {}", run.first));
        }
    }

    fn readings(&self, svg: &mut Svg, readings: &[i16]) {
        let spacing = (self.frame.right - self.frame.left) / readings.len() as f64;
        let width = (spacing * 1.2).clamp(2.4, 5.2);
        let (mut dots, mut marks) = (String::new(), String::new());
        for (index, reading) in readings.iter().enumerate() {
            let value = f64::from(*reading);
            let (x, y) = (self.x.place(index as f64 + 0.5), self.y.place(value));
            match self.y.side(value) {
                Ordering::Equal => dots += &format!("M{x:.1} {y:.1}h0"),
                Ordering::Greater => marks += &triangle(x, y, 1.0),
                Ordering::Less => marks += &triangle(x, y, -1.0),
            }
        }
        svg.path(&dots, &dot_style(width), "");
        svg.path(&marks, &fill(DOT), "");
    }

    fn levels(&self, svg: &mut Svg, runs: &[Run]) {
        // Steps of runs narrower than a pixel would add up to one dark shape, so they become faint.
        let mean = (self.frame.right - self.frame.left) / runs.len() as f64;
        let (width, step) = if runs.len() > CROWD { (2.0, (mean / 2.0).min(0.2)) } else { (3.5, 1.2) };
        let mut steps = String::new();
        for pair in runs.windows(2) {
            let x = self.x.place(pair[0].last as f64);
            let [from, to] = [0, 1].map(|at| self.y.place(f64::from(pair[at].level)));
            steps += &format!("M{x:.1} {from:.1}V{to:.1}");
        }
        svg.path(&steps, &format!("stroke=\"{INK}\" stroke-width=\"{step:.2}\" fill=\"none\""), "");
        self.by_state(svg, runs, &format!("stroke-width=\"{width}\""), width, |run| {
            self.y.place(f64::from(run.level))
        });
    }

    /// Lines in the colour of their state: each with its text, or where they are many all of one state in one path.
    fn by_state(&self, svg: &mut Svg, runs: &[Run], style: &str, least: f64, y: impl Fn(&Run) -> f64) {
        let style = |state: u8| format!("stroke=\"{}\" {style} fill=\"none\"", colours::of_state(state));
        let line = |run: &Run| {
            let (left, right) = self.ends(run);
            // A run of less than a pixel would not be seen.
            let more = ((least - (right - left)) / 2.0).max(0.0);
            let (left, right) = ((left - more).max(self.frame.left), (right + more).min(self.frame.right));
            format!("M{left:.1} {:.1}H{right:.1}", y(run))
        };
        if runs.len() > CROWD {
            for state in 0..MOST_STATES as u8 {
                let lines: String = runs.iter().filter(|run| run.state == state).map(line).collect();
                svg.path(&lines, &style(state), &self.outline.state(state));
            }
            return;
        }
        // Narrow runs come last, else their neighbours would cover them.
        let (wide, narrow): (Vec<&Run>, Vec<&Run>) = runs.iter().partition(|run| self.width(run) >= least);
        for run in wide.into_iter().chain(narrow) {
            svg.path(&line(run), &style(run.state), &self.words(run));
        }
    }

    fn strip(&self, svg: &mut Svg, runs: &[Run]) {
        let [above, below] = self.frame.strip;
        let crowd = runs.len() > CROWD;
        let readings = runs.last().map_or(0, |run| run.last);
        if crowd && self.frame.right - self.frame.left < BIN * readings as f64 {
            self.shares(svg, runs);
            // A line beside a narrower run would take too much of its bins.
            self.dividers(svg, runs, WIDE);
            return;
        }
        let style = format!("stroke-width=\"{}\"", below - above);
        let least = if crowd { 0.0 } else { 2.0 };
        self.by_state(svg, runs, &style, least, |_| (above + below) / 2.0);
        self.dividers(svg, runs, NARROW);
        if crowd {
            return;
        }
        for run in runs {
            let (left, right) = self.ends(run);
            if let Some(content) = self.strip_text(run, right - left) {
                let style = format!(
                    "text-anchor=\"middle\" {} pointer-events=\"none\"",
                    fill(text_on(colours::of_state(run.state)))
                );
                svg.text((left + right) / 2.0, below - 5.5, &style, &content);
            }
        }
    }

    /// The strip of readings too narrow to be drawn one by one: in each bin the states stand below one another, each as high as its share
    /// of the readings there.
    fn shares(&self, svg: &mut Svg, runs: &[Run]) {
        let Frame { left, right, strip, .. } = self.frame;
        let states: Vec<u8> = runs.iter().flat_map(|run| (run.first..=run.last).map(|_| run.state)).collect();
        // A bin holds whole readings, as many as the others or one less: so each reading counts once, and in its place.
        let most = ((right - left) / BIN).min(MOST_BINS) as usize;
        let bins = states.len().div_ceil(states.len().div_ceil(most));
        let edge = |bin: usize| bin * states.len() / bins;
        let tops: Vec<[f64; MOST_STATES]> = (0..bins).map(|bin| tops(&states[edge(bin)..edge(bin + 1)], strip)).collect();
        let foot = format!("V{:.2}", strip[1]);
        for state in 0..MOST_STATES as u8 {
            // It reaches down behind the states below it, so that nothing shines through between them.
            let (mut steps, mut last) = (String::new(), foot.clone());
            for (bin, tops) in tops.iter().enumerate() {
                let step = format!("V{:.2}", tops[usize::from(state)]);
                if step != last {
                    steps += &format!("H{:.2}{step}", self.x.place(edge(bin) as f64));
                    last = step;
                }
            }
            if !steps.is_empty() {
                let path = format!("M{left:.1} {:.1}{steps}H{right:.1}{foot}z", strip[1]);
                let hint = format!("{}, share of readings", self.outline.state(state));
                svg.path(&path, &fill(colours::of_state(state)), &hint);
            }
        }
    }

    /// White lines between neighbours of at least a width: thinner beside narrow runs, and none where they would hide them.
    fn dividers(&self, svg: &mut Svg, runs: &[Run], least_width: f64) {
        let [above, below] = self.frame.strip;
        let room = |pair: &[Run]| {
            // Between runs of one state there is no colour to hide.
            let least = if pair[0].state == pair[1].state && runs.len() <= CROWD {
                NARROW
            } else {
                0.0
            };
            self.width(&pair[0]).min(self.width(&pair[1])).max(least)
        };
        for (stroke, range) in [(2.0, WIDE..f64::INFINITY), (0.6, least_width..WIDE)] {
            let pairs = runs.windows(2).filter(|pair| range.contains(&room(pair)));
            let lines: String = pairs.map(|pair| format!("M{:.1} {above:.1}V{below:.1}", self.ends(&pair[1]).0)).collect();
            svg.path(&lines, &format!("stroke=\"white\" stroke-width=\"{stroke}\" fill=\"none\""), "");
        }
    }

    /// State and level, the state cut where it has to be, or the level alone; nothing where even that has no room.
    fn strip_text(&self, run: &Run, width: f64) -> Option<String> {
        // Fewer letters of a name would not tell it from others.
        const LEAST_NAME: usize = 6;
        let (name, level) = (self.outline.state(run.state), run.level.to_string());
        let cut = fitted(&name, SIZE, width - 8.0 - text_width(&format!(" {level}"), SIZE));
        match () {
            _ if cut == name || cut.chars().count() >= LEAST_NAME => Some(format!("{cut} {level}")),
            _ => Some(level).filter(|level| text_width(level, SIZE) <= width - 3.0),
        }
    }

    fn ends(&self, run: &Run) -> (f64, f64) {
        (self.x.place(run.first as f64 - 1.0), self.x.place(run.last as f64))
    }

    fn width(&self, run: &Run) -> f64 {
        let (left, right) = self.ends(run);
        right - left
    }

    fn words(&self, run: &Run) -> String {
        format!(
            "readings {} to {}: {}, level {}",
            run.first,
            run.last,
            self.outline.state(run.state),
            run.level
        )
    }
}

//! Charts of costs, and the one of a moving window: the cost of a stretch over its first reading.
use crate::colours::{self, INK};
use crate::frame::{axes, fill, heading, upright_ticks, Frame};
use crate::picture::Look;
use crate::scale::Scale;
use crate::stretches::Costs;
use crate::svg::{text_width, Svg, SIZE};

/// Stretches that stand so far apart are points, too: a line alone does not show how many they are.
const APART: f64 = 6.0;
/// What the upright axis needs beside its numbers: its name, and gaps.
const BESIDE: f64 = 36.0;
/// The lowest cost stands so far above the frame: a line of zeros would lie on it and not be seen.
const ABOVE: f64 = 4.0;

/// What a chart of costs shows: so many of them, counted from `first` on, from the least to the greatest.
pub struct Shown<'a> {
    /// The heading, or the line below the user's own one.
    pub summary: &'a str,
    pub costs: [u64; 2],
    pub count: usize,
    pub first: i64,
    /// What is counted.
    pub across: &'a str,
}

/// A chart of costs: the picture with its heading and axes, and where a cost stands.
pub struct Chart {
    pub svg: Svg,
    pub width: f64,
    x: Scale,
    y: Scale,
}

impl Chart {
    pub fn new(shown: &Shown, look: &Look) -> Chart {
        let mut svg = Svg::new(look.width, look.height, look.title.as_deref().unwrap_or(shown.summary));
        let mut frame = Frame::of(look, 0.0);
        heading(&mut svg, &mut frame, look.title.as_deref(), shown.summary);
        let y = Scale::new(range(shown.costs.map(|cost| cost as f64)), [frame.bottom - ABOVE, frame.top]);
        let widest = upright_ticks(&frame, &y)
            .iter()
            .map(|tick| text_width(&tick.to_string(), SIZE))
            .fold(0.0, f64::max);
        frame.left = frame.left.max(widest + BESIDE);
        let x = Scale::new([0.0, shown.count as f64], [frame.left, frame.right]);
        axes(&mut svg, &frame, [&x, &y], shown.first, [shown.across, &name(look)]);
        let width = frame.right - frame.left;
        Chart { svg, width, x, y }
    }

    /// Where the cost with this index, from 0, stands.
    pub fn place(&self, index: usize, cost: u64) -> (f64, f64) {
        (self.x.place(index as f64 + 0.5), self.y.place(cost as f64))
    }

    /// A line through these places.
    pub fn line(&mut self, places: &[(f64, f64)]) {
        let point = |(index, (x, y)): (usize, &(f64, f64))| format!("{}{x:.1} {y:.1}", if index == 0 { "M" } else { "L" });
        let points: String = places.iter().enumerate().map(point).collect();
        let style = format!("{} stroke-width=\"1.2\" stroke-linejoin=\"round\"", style());
        self.svg.path(&points, &style, "");
    }

    /// A dot at each of these places, with a text that a viewer shows under the mouse.
    pub fn dots(&mut self, places: &[(f64, f64)], hint: &str) {
        let dots: String = places.iter().map(|(x, y)| format!("M{x:.1} {y:.1}h0")).collect();
        self.svg.path(&dots, &format!("{} stroke-width=\"5\"", style()), hint);
    }

    /// A mark above a place.
    pub fn mark(&mut self, (x, y): (f64, f64), hint: &str) {
        self.svg.path(&format!("M{x:.1} {:.1}l4 -7h-8z", y - 3.0), &fill(INK), hint);
    }
}

pub fn cost_picture(costs: &Costs, look: &Look) -> String {
    let (cheapest, dearest) = (costs.cheapest(), costs.dearest(1));
    let ends = [cheapest.as_ref(), dearest.first()].map(|stretch| stretch.map_or(0, |stretch| stretch.cost));
    let place = dearest.first().map_or(String::new(), |stretch| {
        format!(", dearest from reading {} to {}", stretch.start, stretch.last)
    });
    let shown = Shown {
        summary: &format!("{}: cost {} to {}{place}", costs.counted(), ends[0], ends[1]),
        costs: ends,
        count: costs.costs.len(),
        first: 1,
        across: "first reading of the stretch",
    };
    let mut chart = Chart::new(&shown, look);
    let places: Vec<(f64, f64)> = costs.costs.iter().enumerate().map(|(index, cost)| chart.place(index, *cost)).collect();
    let kept = kept(&costs.costs, chart.width as usize);
    chart.line(&kept.into_iter().map(|index| places[index]).collect::<Vec<_>>());
    if chart.width >= APART * places.len() as f64 {
        chart.dots(&places, "");
    }
    for stretch in dearest {
        let hint = format!("dearest: reading {} to {}, cost {}", stretch.start, stretch.last, stretch.cost);
        chart.mark(places[stretch.start - 1], &hint);
    }
    chart.svg.finish()
}

/// What the upright axis counts: `cost`, `cost × 100 (A²)`. Costs are squares of readings, and so is what multiplies them.
fn name(look: &Look) -> String {
    let times = look
        .scale
        .filter(|scale| *scale > 1)
        .map_or(String::new(), |scale| format!(" × {}", u64::from(scale).pow(2)));
    let unit = look.unit.as_ref().map_or(String::new(), |unit| format!(" ({unit}²)"));
    format!("cost{times}{unit}")
}

/// The least and the greatest cost with a border, above for a mark. No cost is below zero.
fn range([least, most]: [f64; 2]) -> [f64; 2] {
    let border = ((most - least) * 0.05).max(1.0);
    [(least - border).max(0.0), most + 1.6 * border]
}

/// The stretches that a line is drawn through: of each column of pixels the cheapest and the dearest in their order, so that no peak is lost.
fn kept(costs: &[u64], columns: usize) -> Vec<usize> {
    let size = costs.len().div_ceil(columns.max(1)).max(1);
    let ends = |(column, part): (usize, &[u64])| {
        let least = (0..part.len()).min_by_key(|index| part[*index]).unwrap_or(0);
        let most = (0..part.len()).max_by_key(|index| part[*index]).unwrap_or(0);
        let mut ends = vec![column * size + least.min(most), column * size + least.max(most)];
        ends.dedup();
        ends
    };
    costs.chunks(size).enumerate().flat_map(ends).collect()
}

fn style() -> String {
    format!("stroke=\"{}\" stroke-linecap=\"round\" fill=\"none\"", colours::of_state(0))
}

#[cfg(test)]
mod tests {
    use super::*;

    /// Every peak and every gap of one stretch is drawn, in order, however many stretches share a column.
    #[test]
    fn no_peak_is_lost() {
        for count in [1, 2, 99, 100, 101, 199, 201, 65_535] {
            let costs: Vec<u64> = (0..count).map(|index| 100 + index * 7919 % 13).collect();
            let places = kept(&costs, 100);
            assert!(places.len() <= 200 && places.windows(2).all(|pair| pair[0] < pair[1]), "{count}");
            assert!(places.iter().all(|place| *place < costs.len()), "{count}");
            for at in [0, count / 3, count / 2, count - 1].map(|at| at as usize) {
                for odd in [5, 500] {
                    let mut costs = costs.clone();
                    costs[at] = odd;
                    assert!(kept(&costs, 100).contains(&at), "{odd} at {at} of {count}");
                }
            }
        }
        assert_eq!(kept(&[3, 1, 2], 100), [0, 1, 2]);
    }

    #[test]
    fn no_cost_below_zero() {
        assert_eq!(range([0.0, 0.0]), [0.0, 1.6]);
        assert_eq!(range([0.0, 100.0]), [0.0, 108.0]);
        assert_eq!(range([50.0, 50.0])[0], 49.0);
    }
}

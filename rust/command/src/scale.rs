//! Axes: which values a picture covers, and where numbers stand.
use crate::answer::Run;
use std::cmp::Ordering;

/// From values to places in the picture, which may run either way.
pub struct Scale {
    least: f64,
    most: f64,
    from: f64,
    to: f64,
}

impl Scale {
    pub fn new([least, most]: [f64; 2], [from, to]: [f64; 2]) -> Scale {
        Scale { least, most, from, to }
    }

    /// Values beyond the axis are placed at its end.
    pub fn place(&self, value: f64) -> f64 {
        let value = value.clamp(self.least, self.most);
        self.from + (value - self.least) / (self.most - self.least) * (self.to - self.from)
    }

    /// Below the axis, on it or above it.
    pub fn side(&self, value: f64) -> Ordering {
        match value {
            _ if value < self.least => Ordering::Less,
            _ if value > self.most => Ordering::Greater,
            _ => Ordering::Equal,
        }
    }

    /// Whole numbers on the axis in steps of 1, 2 or 5 times a power of ten, at most `count` of them.
    pub fn ticks(&self, count: usize) -> Vec<i64> {
        let mut steps = (0..18).flat_map(|power| [1, 2, 5].map(|step| step * 10_i64.pow(power)));
        let ends = |step: i64| ((self.least / step as f64).ceil() as i64, (self.most / step as f64).floor() as i64);
        let fits = |step: &i64| {
            let (first, last) = ends(*step);
            last - first < count as i64
        };
        steps.find(fits).map_or(Vec::new(), |step| {
            let (first, last) = ends(step);
            (first..=last).map(|index| index * step).collect()
        })
    }
}

/// The least and the greatest current to draw: all levels, and all readings but lone ones far off, which would flatten the rest.
pub fn current_range(readings: &[i16], runs: &[Run]) -> (f64, f64) {
    let mut sorted: Vec<f64> = readings.iter().map(|reading| f64::from(*reading)).collect();
    sorted.sort_by(f64::total_cmp);
    let spared = if sorted.len() < 20 { 0 } else { (sorted.len() / 100).max(1) };
    let least_of = |values: &[f64]| values.iter().copied().fold(f64::INFINITY, f64::min);
    let most_of = |values: &[f64]| values.iter().copied().fold(f64::NEG_INFINITY, f64::max);
    let mut core: Vec<f64> = runs.iter().map(|run| f64::from(run.level)).collect();
    core.extend(&sorted[spared..sorted.len() - spared]);
    let (low, high) = (least_of(&core), most_of(&core));
    let margin = ((high - low) / 2.0).max(4.0);
    let low = low.min(least_of(&sorted).max(low - margin));
    let high = high.max(most_of(&sorted).min(high + margin));
    let border = ((high - low) * 0.05).max(1.0);
    (low - border, high + border)
}

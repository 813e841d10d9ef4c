//! The picture of a table: the least cost over the number of changes.
use crate::check::counted;
use crate::cost_picture::{Chart, Shown};
use crate::entries::Entries;
use crate::picture::Look;

pub fn table_picture(entries: &Entries, look: &Look) -> String {
    let costs = || entries.costs.iter().flatten().copied();
    let shown = Shown {
        summary: &entries.summary(),
        costs: [costs().min().unwrap_or(0), costs().max().unwrap_or(0)],
        count: entries.costs.len(),
        first: 0,
        across: "changes",
    };
    let mut chart = Chart::new(&shown, look);
    let place = |(changes, cost): (usize, &Option<u64>)| (*cost).map(|cost| chart.place(changes, cost));
    let places: Vec<Option<(f64, f64)>> = entries.costs.iter().enumerate().map(place).collect();
    // A number of changes without a cost leaves a gap, and what stands alone between two gaps is a dot without a line.
    for part in places.split(Option::is_none) {
        let part: Vec<(f64, f64)> = part.iter().flatten().copied().collect();
        if part.len() > 1 {
            chart.line(&part);
        }
    }
    for (changes, (place, cost)) in places.iter().zip(&entries.costs).enumerate() {
        if let (Some(place), Some(cost)) = (place, cost) {
            chart.dots(&[*place], &format!("{}, cost {cost}", counted(changes, "change")));
        }
    }
    if let Some((changes, cost)) = entries.least() {
        let hint = format!("least: {}, cost {cost}", counted(changes, "change"));
        chart.mark(chart.place(changes, cost), &hint);
    }
    chart.svg.finish()
}

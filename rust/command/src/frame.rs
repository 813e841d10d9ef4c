//! What all pictures share: where their parts stand, the heading and the axes.
use crate::colours::{INK, SMALL_TEXT, TEXT};
use crate::picture::Look;
use crate::scale::Scale;
use crate::svg::{text_width, Svg, SIZE, SMALL};

/// Where the parts of a picture stand.
pub struct Frame {
    /// Where title and legend begin; a narrow picture needs the place beside the chart for them.
    pub margin: f64,
    pub left: f64,
    pub right: f64,
    /// The first free place from above, and at last the top of the chart.
    pub top: f64,
    pub bottom: f64,
    /// A strip below the chart. Without one it ends where the chart does.
    pub strip: [f64; 2],
}

impl Frame {
    /// The frame of a picture whose strip, with the gap above it, is so high; 0 for none.
    pub fn of(look: &Look, strip: f64) -> Frame {
        let bottom = look.height - 64.0 - strip;
        Frame {
            margin: if look.width < 700.0 { 12.0 } else { 70.0 },
            left: 70.0,
            right: look.width - 20.0,
            top: 26.0,
            bottom,
            strip: [bottom + strip.min(6.0), bottom + strip],
        }
    }

    pub fn room(&self) -> f64 {
        self.right - self.margin
    }
}

/// The user's title with the summary below it, or the summary alone.
pub fn heading(svg: &mut Svg, frame: &mut Frame, title: Option<&str>, summary: &str) {
    let first = title.unwrap_or(summary);
    // A summary is better small than cut; a title has to stand out from it.
    let fits = title.is_some() || text_width(first, 16.0) <= frame.room();
    let size = if fits { 16.0 } else { 12.0 };
    svg.text_within([frame.margin, frame.top], size, frame.room(), &fill(TEXT), first);
    if title.is_some() {
        frame.top += 18.0;
        svg.text_within([frame.margin, frame.top], 12.0, frame.room(), &fill(SMALL_TEXT), summary);
    }
    frame.top += 22.0;
}

pub fn fill(colour: &str) -> String {
    format!("fill=\"{colour}\"")
}

/// The numbers on the upright axis.
pub fn upright_ticks(frame: &Frame, y: &Scale) -> Vec<i64> {
    y.ticks(((frame.bottom - frame.top) / 40.0).max(3.0) as usize)
}

/// Both axes with their numbers, and what they count. The lower axis counts from `first` on, and its scale from 0: its first number lies between 0
/// and 1 on the scale.
pub fn axes(svg: &mut Svg, frame: &Frame, [x, y]: [&Scale; 2], first: i64, [across, upright]: [&str; 2]) {
    let Frame {
        left, right, top, bottom, ..
    } = *frame;
    let foot = frame.strip[1];
    let style = |anchor: &str| format!("text-anchor=\"{anchor}\" {}", fill(TEXT));
    for value in upright_ticks(frame, y) {
        let y = y.place(value as f64);
        svg.line([left, y, right, y], "stroke=\"#ccc\" stroke-width=\"0.6\"");
        svg.text(left - 8.0, y + 4.5, &style("end"), &value.to_string());
    }
    let at = |number: i64| (number - first) as f64 + 0.5;
    let mut numbers = vec![first];
    let counted = |number: &i64| *number > first && x.side(at(*number)).is_eq();
    numbers.extend(x.ticks(((right - left) / 79.0) as usize).into_iter().filter(counted));
    // A first step of 2 or 5 may stand too near to the first number.
    let near = |number: i64| x.place(at(number)) - x.place(at(first)) < 24.0;
    numbers.retain(|number| *number == first || !near(*number));
    for number in numbers {
        let x = x.place(at(number));
        svg.line([x, foot, x, foot + 5.0], &format!("stroke=\"{INK}\""));
        svg.text(x, foot + 20.0, &style("middle"), &number.to_string());
    }
    svg.rect([left, top, right, bottom], &format!("fill=\"none\" stroke=\"{INK}\""), "");
    svg.text((left + right) / 2.0, foot + 44.0, &style("middle"), across);
    let (middle, room) = ((top + bottom) / 2.0, bottom - top + 20.0);
    let size = if text_width(upright, SIZE) <= room { SIZE } else { SMALL };
    let turned = format!("{} transform=\"rotate(-90 18 {middle:.1})\"", style("middle"));
    svg.text_within([18.0, middle], size, room, &turned, upright);
}

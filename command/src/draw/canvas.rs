//! The text of the picture, and what is taken of its area.

use super::scale::{between, meets, Area, Scale, EDGE};
use std::fmt::{Arguments, Write};

pub struct Canvas {
    pub out: String,
    /// What labels keep clear of.
    pub taken: Vec<Area>,
    /// What labels avoid if they can.
    pub wires: Vec<Area>,
    pub width: f64,
    pub height: f64,
    pub letters: f64,
}

/// Room for the legend, however narrow the net.
const LEAST_WIDTH: f64 = 480.0;

/// Where a label may stand from its point, the best first.
const SIDES: [(f64, f64); 8] = [
    (1.0, -1.0),
    (1.0, 1.0),
    (-1.0, -1.0),
    (-1.0, 1.0),
    (0.0, -1.0),
    (0.0, 1.0),
    (1.0, 0.0),
    (-1.0, 0.0),
];

/// The letters of a small label, as a part of the others.
const SMALL: f64 = 0.8;

/// Between a small label and the border of the area it stands in.
const PAD: f64 = 3.0;

/// Where a small label may stand in its area, as parts of the way across and down, the best first.
const PARTS: [f64; 5] = [0.0, 1.0, 0.5, 0.25, 0.75];

impl Canvas {
    pub fn new(scale: &Scale, taken: Vec<Area>) -> Canvas {
        Canvas {
            out: String::new(),
            taken,
            wires: Vec::new(),
            width: scale.width.max(LEAST_WIDTH) + 2.0 * EDGE,
            height: scale.height + 2.0 * EDGE,
            letters: scale.size.letters,
        }
    }

    pub fn put(&mut self, line: Arguments) {
        let _ = writeln!(self.out, "{line}");
    }

    pub fn line(&mut self, (x1, y1): (f64, f64), (x2, y2): (f64, f64), style: &str) {
        self.put(format_args!(
            "<line x1=\"{x1:.1}\" y1=\"{y1:.1}\" x2=\"{x2:.1}\" y2=\"{y2:.1}\" {style}/>"
        ));
    }

    pub fn rect(&mut self, [left, top, right, bottom]: Area, style: &str) {
        self.put(format_args!(
            "<rect x=\"{left:.1}\" y=\"{top:.1}\" width=\"{:.1}\" height=\"{:.1}\" {style}/>",
            right - left,
            bottom - top
        ));
    }

    /// Writes a label near a point, over no other label or mark if there is such a place, and with a line to the point if it is far.
    pub fn label(&mut self, point: (f64, f64), reach: f64, colour: &str, text: &str) {
        let wide = wide(text, self.letters);
        let mut best: Option<(f64, Area, bool)> = None;
        for away in 0..8 {
            let gap = reach + 0.9 * self.letters * f64::from(away);
            for (k, &side) in SIDES.iter().enumerate() {
                let area = beside(point, gap, side, wide, self.letters);
                let cost = self.cost(&area) + f64::from(away) + 0.05 * k as f64;
                if best.map_or(true, |(least, ..)| cost < least) {
                    best = Some((cost, area, away > 0));
                }
            }
        }
        let Some((_, area, far)) = best else { return };
        if far {
            let near = (
                point.0.clamp(area[0], area[2]),
                point.1.clamp(area[1], area[3]),
            );
            self.line(
                point,
                near,
                &format!("stroke=\"{colour}\" stroke-width=\"0.7\""),
            );
        }
        self.text(area, self.letters, "", colour, text);
    }

    /// Writes a small label in an area, over no other label or mark if there is such a place.
    pub fn small_label(&mut self, area: &Area, colour: &str, text: &str) {
        let letters = SMALL * self.letters;
        let wide = wide(text, letters);
        let parts = PARTS
            .iter()
            .flat_map(|&down| PARTS.map(|across| (across, down)));
        let places = parts.map(|part| within(area, part, wide, letters));
        let Some(place) = places.min_by(|a, b| self.cost(a).total_cmp(&self.cost(b))) else {
            return;
        };
        let size = format!("font-size=\"{letters:.1}\" ");
        self.text(place, letters, &size, colour, text);
    }

    /// A label's text in its area.
    fn text(&mut self, area: Area, letters: f64, size: &str, colour: &str, text: &str) {
        self.put(format_args!(
            "<text x=\"{:.1}\" y=\"{:.1}\" {size}fill=\"{colour}\" stroke=\"white\" stroke-width=\"{:.1}\" paint-order=\"stroke\">{text}</text>",
            area[0],
            area[1] + 0.85 * letters,
            letters / 5.0
        ));
        self.taken.push(area);
    }

    fn cost(&self, area: &Area) -> f64 {
        let page = [0.0, 0.0, self.width, self.height];
        let inside =
            page[0] <= area[0] && page[1] <= area[1] && area[2] <= page[2] && area[3] <= page[3];
        let on = |areas: &[Area]| areas.iter().filter(|other| meets(area, other)).count() as f64;
        1000.0 * f64::from(u8::from(!inside)) + 100.0 * on(&self.taken) + 2.0 * on(&self.wires)
    }

    /// A wire's line is something that labels avoid.
    pub fn wire(&mut self, from: (f64, f64), to: (f64, f64), wide: f64, style: &str) {
        self.line(from, to, style);
        let area = between(from, to);
        let half = wide / 2.0;
        self.wires.push([
            area[0] - half,
            area[1] - half,
            area[2] + half,
            area[3] + half,
        ]);
    }
}

fn wide(text: &str, letters: f64) -> f64 {
    0.64 * letters * text.chars().count() as f64
}

/// The area of a text in another, so far across and down; in the middle of one that is too small.
fn within(area: &Area, (across, down): (f64, f64), wide: f64, high: f64) -> Area {
    let from = |axis: usize, part: f64, extent: f64| {
        let room = area[axis + 2] - area[axis] - extent;
        let inner = (room - 2.0 * PAD).max(0.0);
        area[axis] + (room - inner) / 2.0 + part * inner
    };
    let (left, top) = (from(0, across, wide), from(1, down, high));
    [left, top, left + wide, top + high]
}

/// The area of a text on one side of a point.
fn beside((x, y): (f64, f64), gap: f64, (dx, dy): (f64, f64), wide: f64, high: f64) -> Area {
    let from = |middle: f64, d: f64, extent: f64| {
        let near = if dx * dy == 0.0 { gap } else { 0.8 * gap };
        middle + d * near + (d - 1.0) / 2.0 * extent
    };
    let (left, top) = (from(x, dx, wide), from(y, dy, high));
    [left, top, left + wide, top + high]
}

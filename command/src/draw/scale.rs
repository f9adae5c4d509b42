//! How large things are drawn, and where.

use crate::net::{Net, Node};

/// Measures of a picture: its longer side, the height of letters, and half the width of a gate, half that of a jumper, the width of a
/// wire and of the band round a harmful piece.
pub struct Size {
    pub side: f64,
    pub letters: f64,
    pub gate: f64,
    pub jumper: f64,
    pub wire: f64,
    pub band: f64,
}

/// Two pictures side by side fill the width of a page, and their letters can still be read.
const FEW: Size = Size {
    side: 560.0,
    letters: 19.0,
    gate: 8.0,
    jumper: 8.0,
    wire: 5.0,
    band: 22.0,
};

/// One picture fills the page.
const MANY: Size = Size {
    side: 1000.0,
    letters: 14.0,
    gate: 4.0,
    jumper: 4.5,
    wire: 2.5,
    band: 10.0,
};

/// Up to this number of nodes each has a label.
const FEW_NODES: usize = 40;

pub const EDGE: f64 = 60.0;

/// A rectangle: left, top, right, bottom in the picture; least x and y, greatest x and y in the net.
pub type Area = [f64; 4];

pub fn meets(a: &Area, b: &Area) -> bool {
    a[0] < b[2] && b[0] < a[2] && a[1] < b[3] && b[1] < a[3]
}

/// What two rectangles that meet have in common.
pub fn common(a: &Area, b: &Area) -> Area {
    [
        a[0].max(b[0]),
        a[1].max(b[1]),
        a[2].min(b[2]),
        a[3].min(b[3]),
    ]
}

pub fn square((x, y): (f64, f64), half: f64) -> Area {
    [x - half, y - half, x + half, y + half]
}

/// The area between two points.
pub fn between((x1, y1): (f64, f64), (x2, y2): (f64, f64)) -> Area {
    [x1.min(x2), y1.min(y2), x1.max(x2), y1.max(y2)]
}

/// Coordinates of the net to those of the picture.
pub struct Scale {
    left: f64,
    top: f64,
    /// Of one step.
    pub step: f64,
    pub width: f64,
    pub height: f64,
    pub size: &'static Size,
    pub labels: bool,
}

impl Scale {
    pub fn new(net: &Net) -> Scale {
        let labels = net.nodes.len() <= FEW_NODES;
        let size = if labels { &FEW } else { &MANY };
        let range = |of: fn(&Node) -> u16| {
            let values = || net.nodes.iter().map(of);
            let (low, high) = (values().min(), values().max());
            (f64::from(low.unwrap_or(0)), f64::from(high.unwrap_or(0)))
        };
        let ((x1, x2), (y1, y2)) = (range(|node| node.x), range(|node| node.y));
        let step = size.side / (x2 - x1).max(y2 - y1).max(1.0);
        Scale {
            left: x1,
            top: y2,
            step,
            width: (x2 - x1) * step,
            height: (y2 - y1) * step,
            size,
            labels,
        }
    }

    pub fn node(&self, node: &Node) -> (f64, f64) {
        self.point((node.x.into(), node.y.into()))
    }

    /// y grows upwards in the net, downwards in the picture.
    pub fn point(&self, (x, y): (f64, f64)) -> (f64, f64) {
        (
            EDGE + (x - self.left) * self.step,
            EDGE + (self.top - y) * self.step,
        )
    }
}

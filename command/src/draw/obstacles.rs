//! How large an obstacle and the border that a clearance keeps free round it are drawn: wide enough to be seen under a wire, but over no point of a wire that they do not hold. And which are drawn faint.

use super::scale::{common, Area};
use crate::net::{layered, Net, Obstacle};

/// Less than half a step, so that no other point is reached.
const LEAST: f64 = 0.4;

/// What is drawn of an obstacle, in steps.
pub struct Drawn {
    pub area: Area,
    /// Of what it bars; the area lies in it, and is the same at clearance 0.
    pub border: Area,
}

/// The rectangles to draw; `seen` is the least width that can be seen.
pub fn drawn(net: &Net, clearance: u16, seen: f64) -> Vec<Drawn> {
    let wires: Vec<Area> = (1..net.nodes.len())
        .filter(|&i| net.length(i) > 1)
        .map(|i| inside(net, i))
        .collect();
    let drawn = |obstacle: &Obstacle| {
        let [area, border] =
            [0, clearance].map(|clearance| area(&wires, rectangle(obstacle, clearance), seen));
        Drawn {
            area: common(&area, &border),
            border,
        }
    };
    net.obstacles.iter().map(drawn).collect()
}

fn rectangle(obstacle: &Obstacle, clearance: u16) -> Area {
    obstacle.barred(clearance).map(f64::from)
}

/// An obstacle is faint if it counts for none of the stage's wires of which points lie in what it bars at the clearance; if none lie there, if it counts for no wire of the stage.
pub fn faint(net: &Net, stage: u32, clearance: u16, obstacle: &Obstacle) -> bool {
    let area = rectangle(obstacle, clearance);
    let present = || (1..net.nodes.len()).filter(|&i| net.present(stage, i));
    let held = || present().filter(|&i| holds(net, &area, i));
    let counts = |i| net.counts(obstacle, i);
    let counted = match held().next() {
        Some(_) => held().any(counts),
        None => present().any(counts),
    };
    layered(net.version) && !counted
}

/// Does the area hold a point inside the wire?
fn holds(net: &Net, area: &Area, wire: usize) -> bool {
    if net.length(wire) < 2 {
        return false;
    }
    let points = inside(net, wire);
    let on = |axis: usize| points[axis] <= area[axis + 2] && area[axis] <= points[axis + 2];
    on(0) && on(1)
}

/// The points inside a wire.
fn inside(net: &Net, wire: usize) -> Area {
    let last = (net.length(wire) - 1) as f64;
    let ((x1, y1), (x2, y2)) = (net.at(wire, 1.0), net.at(wire, last));
    [x1.min(x2), y1.min(y2), x1.max(x2), y1.max(y2)]
}

fn area(wires: &[Area], obstacle: Area, seen: f64) -> Area {
    let mut area = obstacle;
    for axis in [0, 1] {
        let width = obstacle[axis + 2] - obstacle[axis];
        let most = ((seen - width) / 2.0).max(LEAST);
        let margins = [false, true].map(|up| margin(wires, &obstacle, &area, axis, up, most));
        area[axis] -= margins[0];
        area[axis + 2] += margins[1];
    }
    area
}

/// How far one side may lie outside the obstacle: at most so far, and short of the next point of a wire.
fn margin(wires: &[Area], obstacle: &Area, area: &Area, axis: usize, up: bool, most: f64) -> f64 {
    let across = 1 - axis;
    let beside = |wire: &&Area| {
        let low = wire[across].max(area[across].ceil());
        low <= wire[across + 2].min(area[across + 2].floor())
    };
    let distance = |wire: &Area| {
        if up {
            let next = wire[axis].max(obstacle[axis + 2] + 1.0);
            (next <= wire[axis + 2]).then_some(next - obstacle[axis + 2])
        } else {
            let next = wire[axis + 2].min(obstacle[axis] - 1.0);
            (next >= wire[axis]).then_some(obstacle[axis] - next)
        }
    };
    let reached = wires.iter().filter(beside).filter_map(distance);
    reached.fold(most, |margin, d| margin.min(d - 1.0 + LEAST))
}

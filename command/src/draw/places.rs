//! Where the crosses of jumpers are drawn: on their points, or beside them where a cross would lie on the mark of a node or on another cross.

use super::marks;
use super::scale::{between, meets, square, Area, Scale};
use crate::case::Case;
use crate::library::{JUMPER_BYTES, REPAIR_MOST};
use crate::net::{Net, Obstacle};

pub struct Place {
    pub wire: usize,
    pub position: usize,
    /// Where the wire is drawn cut.
    pub cut: (f64, f64),
    pub cross: (f64, f64),
}

/// As many as a smallest set can have; of more, each is drawn on its point.
pub const MOST: usize = REPAIR_MOST / JUMPER_BYTES;

/// A place for each jumper, clear of the marks of nodes.
pub fn places(
    case: &Case,
    scale: &Scale,
    jumpers: &[(usize, usize)],
    marks: &[Area],
) -> Vec<Place> {
    let net = &case.net;
    let mut taken = marks.to_vec();
    let mut places = Vec::new();
    for &(wire, position) in jumpers {
        let point = scale.point(net.at(wire, position as f64));
        let mut choices = vec![(point, point)];
        if jumpers.len() <= MOST {
            let near = if 2 * position <= net.length(wire) {
                wire
            } else {
                net.parent(wire)
            };
            let reach = marks::reach(net, case.stage, near, scale.size.gate);
            let clear = reach + scale.size.jumper + 1.0;
            choices.extend(others(case, scale, jumpers, (wire, position), clear));
        }
        let area = |at| square(at, 0.8 * scale.size.jumper);
        let free = |at| !taken.iter().any(|other| meets(&area(at), other));
        let chosen = match &choices[..] {
            [only] => only,
            several => several
                .iter()
                .find(|&&(_, at)| free(at))
                .unwrap_or(&several[0]),
        };
        let &(cut, cross) = chosen;
        taken.push(area(cross));
        places.push(Place {
            wire,
            position,
            cut,
            cross,
        });
    }
    places
}

/// Where the wire may be drawn cut, and the cross, if the jumper's point is taken: the best first, each so far from the end of the wire or from the wire.
fn others(
    case: &Case,
    scale: &Scale,
    jumpers: &[(usize, usize)],
    (wire, position): (usize, usize),
    clear: f64,
) -> Vec<((f64, f64), (f64, f64))> {
    let net = &case.net;
    let point = scale.point(net.at(wire, position as f64));
    let along = along(case, scale, jumpers, (wire, position), clear);
    let along = along.into_iter().map(|at| (at, at));
    along
        .chain(beside(net, wire, point, clear).map(|at| (point, at)))
        .collect()
}

/// A place further along the wire, if the wire is long and neither an obstacle that bars it nor another jumper lies between.
fn along(
    case: &Case,
    scale: &Scale,
    jumpers: &[(usize, usize)],
    (wire, position): (usize, usize),
    clear: f64,
) -> Option<(f64, f64)> {
    let net = &case.net;
    let (length, t) = (net.length(wire) as f64, position as f64);
    let steps = clear / scale.step;
    if 3.0 * steps > length {
        return None;
    }
    let moved = if 2.0 * t <= length {
        steps
    } else {
        length - steps
    };
    let beyond = moved + (moved - t).signum() * scale.size.jumper / scale.step;
    let way = between(net.at(wire, t), net.at(wire, beyond));
    let bars = |obstacle: &Obstacle| {
        let o = obstacle.barred(case.clearance).map(f64::from);
        let held = o[0] <= way[2] && way[0] <= o[2] && o[1] <= way[3] && way[1] <= o[3];
        held && net.counts(obstacle, wire)
    };
    let on_way = |&(other, at): &(usize, usize)| {
        let at = at as f64;
        other == wire && at != t && t.min(beyond) <= at && at <= t.max(beyond)
    };
    let clear = !net.obstacles.iter().any(bars) && !jumpers.iter().any(on_way);
    clear.then(|| scale.point(net.at(wire, moved)))
}

/// Places beside the wire, the nearest first.
fn beside(
    net: &Net,
    wire: usize,
    (x, y): (f64, f64),
    clear: f64,
) -> impl Iterator<Item = (f64, f64)> {
    let (a, b) = (net.nodes[wire], net.nodes[net.parent(wire)]);
    let (dx, dy) = if a.y == b.y { (0.0, 1.0) } else { (1.0, 0.0) };
    [-1.0, 1.0, -1.5, 1.5, -2.0, 2.0, -2.5, 2.5]
        .into_iter()
        .map(move |k| (x + k * clear * dx, y + k * clear * dy))
}

//! A route's wires, parted where another path, a via or a pin meets them.

use super::contacts::{contacts, merged, Stretch};
use super::place::Reason;
use super::route::{Node, Point, Route, Spot, Via};
use super::tracks::{Track, Tracks};

#[derive(Clone, Copy)]
pub struct Wire {
    pub layer: u8,
    pub from: Point,
    pub to: Point,
    /// The place in the text of the point that it was drawn to.
    pub at: usize,
}

pub struct Parted {
    /// In the order of the text; no two overlap.
    pub wires: Vec<Wire>,
    pub vias: Vec<Via>,
}

pub fn parted(route: &Route, pins: &[Node]) -> Result<Parted, Reason> {
    let mut tracks = Tracks::default();
    for (track, _, _) in drawn(route).filter_map(|(layer, a, b)| Track::of(layer, a.point, b.point))
    {
        tracks.open(track);
    }
    for node in nodes(route, pins) {
        tracks.cut(node.layer, node.point);
    }
    for layer in 1..=16 {
        for point in meetings(route, layer)? {
            tracks.cut(layer, point);
        }
    }
    tracks.close();
    Ok(Parted {
        wires: wires(route, &mut tracks),
        vias: route.vias.clone(),
    })
}

/// Each wire as a path has it.
fn drawn(route: &Route) -> impl Iterator<Item = (u8, &Spot, &Spot)> {
    route.paths.iter().flat_map(|path| {
        let pairs = path.spots.windows(2);
        pairs.map(|pair| (path.layer, &pair[0], &pair[1]))
    })
}

/// The points on layers that the paths, the vias and the pins name.
fn nodes<'a>(route: &'a Route, pins: &'a [Node]) -> impl Iterator<Item = Node> + 'a {
    let spots = route.paths.iter().flat_map(|path| {
        let layer = path.layer;
        path.spots.iter().map(move |spot| Node {
            point: spot.point,
            layer,
        })
    });
    let vias = route.vias.iter().flat_map(|via| {
        let point = via.point;
        (via.low..=via.high).map(move |layer| Node { point, layer })
    });
    spots.chain(vias).chain(pins.iter().copied())
}

/// Where wires of a layer along x meet those along y.
fn meetings(route: &Route, layer: u8) -> Result<Vec<Point>, Reason> {
    let mut along: [Vec<Stretch>; 2] = Default::default();
    let mut at = 0;
    for (of, a, b) in drawn(route).filter(|(of, _, _)| *of == layer) {
        if let Some((track, from, to)) = Track::of(of, a.point, b.point) {
            along[usize::from(track.along_y)].push((track.own, from.min(to), from.max(to)));
            at = b.at;
        }
    }
    let [along_x, along_y] = along.map(merged);
    match contacts(&along_x, &along_y) {
        Some(found) => Ok(found.into_iter().map(|(x, y)| Point { x, y }).collect()),
        None => Err(Reason::text(
            at,
            format!("loops: its wires on metal{layer} meet too often for a tree"),
        )),
    }
}

fn wires(route: &Route, tracks: &mut Tracks) -> Vec<Wire> {
    let mut wires = Vec::new();
    for (layer, a, b) in drawn(route) {
        let wire = |(from, to)| Wire {
            layer,
            from,
            to,
            at: b.at,
        };
        match Track::of(layer, a.point, b.point) {
            Some((track, from, to)) => {
                wires.extend(tracks.take(track, from, to).into_iter().map(wire))
            }
            // the library says what it thinks of ends that differ in x and y
            None if a.point != b.point => wires.push(wire((a.point, b.point))),
            None => {}
        }
    }
    wires
}

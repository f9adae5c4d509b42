//! A via moved by one step, along wires of both its layers that leave its point side by side.
//!
//! The library's form cannot say two layer changes at one point that are not joined there. One step beside the point the
//! via joins the same wires: each layer keeps all its steps, no piece changes, and a step has no point for a jumper. That one
//! point ahead, on both wires, is lost to jumpers: the user is told.

use super::joints::Joints;
use super::part::{Parted, Wire};
use super::route::{Node, Point, Via};
use super::tree::Tree;
use std::collections::HashSet;

/// Moves one via of a group that shares its point with others: its place in the text, or none if none can be moved.
pub fn move_via(parted: &mut Parted, tree: &Tree) -> Option<usize> {
    let taken: HashSet<Point> = tree.nodes.iter().map(|node| node.point).collect();
    let crowds = tree.crowds().into_iter();
    for group in crowds.filter(|&group| tree.groups[group].len() == 2) {
        let [low, high] = [0, 1].map(|k| tree.nodes[tree.groups[group][k]]);
        if high.layer > low.layer + 1 {
            continue;
        }
        let pair = [low, high].map(|node| leaving(parted, node));
        for &(ahead, one) in &pair[0] {
            let other = pair[1].iter().find(|(point, _)| *point == ahead);
            if let (Some(&(_, other)), false) = (other, taken.contains(&ahead)) {
                let at = move_to(parted, [low, high], ahead)?;
                part_at(parted, ahead, [one, other]);
                return Some(at);
            }
        }
    }
    None
}

/// The wires at a node, each with the point one step along it.
fn leaving(parted: &Parted, node: Node) -> Vec<(Point, usize)> {
    let toward = |from: Point, to: Point| Point {
        x: from.x + (to.x - from.x).signum(),
        y: from.y + (to.y - from.y).signum(),
    };
    let wires = parted.wires.iter().enumerate();
    let of_layer = wires.filter(|(_, wire)| wire.layer == node.layer);
    let ahead = |(k, wire): (usize, &Wire)| match node.point {
        point if point == wire.from => Some((toward(point, wire.to), k)),
        point if point == wire.to => Some((toward(point, wire.from), k)),
        _ => None,
    };
    of_layer.filter_map(ahead).collect()
}

/// A via that joins two neighbouring layers stands ahead, in place of all that is joined to it at its point.
fn move_to(parted: &mut Parted, [low, high]: [Node; 2], ahead: Point) -> Option<usize> {
    let joint = *Joints::of(&parted.vias).at(low)?;
    let of_joint =
        |via: &Via| via.point == joint.point && joint.low <= via.low && via.high <= joint.high;
    let joins = |via: &&Via| of_joint(via) && via.low <= low.layer && via.high >= high.layer;
    let at = parted.vias.iter().find(joins)?.at;
    parted.vias.retain(|via| !of_joint(via));
    parted.vias.push(Via {
        point: ahead,
        low: low.layer,
        high: high.layer,
        at,
    });
    Some(at)
}

/// Parts two wires at a point inside them.
fn part_at(parted: &mut Parted, point: Point, mut wires: [usize; 2]) {
    wires.sort();
    for k in wires.into_iter().rev() {
        let wire = parted.wires[k];
        let rest = Wire {
            from: point,
            ..wire
        };
        parted.wires[k].to = point;
        parted.wires.insert(k + 1, rest);
    }
}

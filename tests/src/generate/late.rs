//! Nets with jumpers whose pieces change with their last wires: flags, layers or weight that come late.

use super::clearance::clearance;
use super::{net, stage, version, Shape};
use crate::random::Random;
use crate::reference::net::Net;
use crate::reference::report::{free_points, list_of, pieces, Point};

/// What report is called with, but for the buffer.
#[derive(Debug)]
pub struct Case {
    pub net: Net,
    pub stage: u32,
    pub limit: u32,
    pub clearance: u16,
    pub jumpers: Vec<Point>,
}

impl Case {
    /// The case of the first nodes, with the jumpers on their wires.
    pub fn first(&self, nodes: usize) -> Case {
        let jumpers = self.jumpers.iter().copied();
        Case {
            net: self.net.first(nodes),
            jumpers: jumpers.filter(|&(i, _)| i < nodes).collect(),
            ..*self
        }
    }

    pub fn list(&self) -> Vec<u8> {
        list_of(&self.jumpers)
    }

    pub fn present(&self, i: usize) -> bool {
        self.net.present(self.stage, i)
    }

    /// The jumpers on wire i.
    pub fn on(&self, i: usize) -> &[Point] {
        let end = |last| self.jumpers.partition_point(|&(wire, _)| wire <= last);
        &self.jumpers[end(i - 1)..end(i)]
    }

    /// The lowest node of node i's piece.
    pub fn lowest(&self, mut i: usize) -> usize {
        while i > 0 && self.present(i) && self.on(i).is_empty() {
            i = self.net.parent(i);
        }
        i
    }
}

/// Flags of the first nodes and of the last ones.
fn change_flags(random: &mut Random, net: &mut Net) {
    let (first, last) = random.pick(&[(1, 2), (1, 3), (0, 1), (0, 2)]);
    let few = random.range(1, 3) as usize;
    let count = net.nodes.len();
    for (i, node) in net.nodes.iter_mut().enumerate() {
        node.flags = if i + few < count { first } else { last };
        node.flags &= random.pick(&[0, 3]);
    }
}

/// One wire in three has jumpers: one, some or at all points where they may stand.
fn jumpers(random: &mut Random, net: &Net, stage: u32, clearance: u16) -> Vec<Point> {
    let mut jumpers = Vec::new();
    for of_wire in free_points(net, stage, clearance).chunk_by(|a, b| a.0 == b.0) {
        if random.chance(1, 3) {
            let few = random.range(1, of_wire.len() as u64);
            let every = random.pick(&[1, few, of_wire.len() as u64]) as usize;
            let skipped = random.below(every as u64) as usize;
            jumpers.extend(of_wire.iter().skip(skipped).step_by(every));
        }
    }
    jumpers
}

/// Most are small, with wires long enough for a hundred jumpers in one of four.
pub fn late_shape(random: &mut Random) -> Shape {
    let large = random.chance(1, 40);
    Shape {
        version: version(random),
        nodes: if large { 60 } else { random.range(2, 14) } as usize,
        longest: random.pick(&[2, 5, 20, 300]),
        obstacles: random.below(4) as usize,
    }
}

/// The limit is the weight of a piece of the first nodes, or one less.
pub fn late_case(random: &mut Random, shape: Shape) -> Case {
    let mut net = net(random, shape);
    if random.chance(3, 4) {
        change_flags(random, &mut net);
    }
    let stage = stage(random, &net);
    let clearance = clearance(random, &net);
    let mut case = Case {
        jumpers: jumpers(random, &net, stage, clearance),
        net,
        stage,
        limit: 0,
        clearance,
    };
    let first = case.first(random.range(1, shape.nodes as u64) as usize);
    let pieces = pieces(&first.net, stage, &first.jumpers);
    let weight = pieces[random.below(pieces.len() as u64) as usize].weight as u32;
    case.limit = weight.saturating_sub(random.below(2) as u32);
    case
}

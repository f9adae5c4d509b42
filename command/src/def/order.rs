//! An order of a tree's wires in which the library makes that tree of them.
//!
//! A path of the library's form begins at a known point. If the point is not known on the path's layer, the library hangs a
//! new node by a via on the point's lowest-numbered node, and the via is made at the higher stage of the two. So
//! - of the groups of one point, one with several layers is reached before the others, or its vias would lead to those;
//! - a group of three layers or more is reached on one of its two lowest, or these would be joined too late.

use super::route::Point;
use super::tree::{Tree, Wire};
use std::cmp::Reverse;
use std::collections::{BinaryHeap, HashMap};

/// Each wire from a node that is known: in the order nearest to that of the text, from its first node from which there is one.
pub fn order(tree: &Tree) -> Option<Vec<Wire>> {
    let before = before(tree)?;
    (0..tree.nodes.len()).find_map(|root| Walk::of(tree, &before).from(root))
}

/// The order of the text, if the library reads it so: then every path begins at a known point, and its via is the tree's.
pub fn as_written(tree: &Tree) -> Option<Vec<Wire>> {
    let mut known = vec![false; tree.nodes.len()];
    let mut first: HashMap<Point, usize> = HashMap::new();
    for (k, wire) in tree.wires.iter().enumerate() {
        let begins_at = first.get(&tree.nodes[wire.from].point);
        let hangs = begins_at.is_some_and(|&node| tree.group[node] == tree.group[wire.from]);
        if known[wire.to] || !(known[wire.from] || hangs || k == 0) {
            return None;
        }
        for node in [wire.from, wire.to] {
            known[node] = true;
            first.entry(tree.nodes[node].point).or_insert(node);
        }
    }
    Some(tree.wires.clone())
}

/// For each group the one that must be reached before it; none at all if two groups of a point must each be first.
fn before(tree: &Tree) -> Option<Vec<Option<usize>>> {
    let mut before = vec![None; tree.groups.len()];
    for groups in tree.points.values() {
        let mut several = groups.iter().filter(|&&group| tree.groups[group].len() > 1);
        let Some(&first) = several.next() else {
            continue;
        };
        if several.next().is_some() {
            return None;
        }
        for &group in groups.iter().filter(|&&group| group != first) {
            before[group] = Some(first);
        }
    }
    Some(before)
}

struct Walk<'a> {
    tree: &'a Tree,
    before: &'a [Option<usize>],
    reached: Vec<bool>,
    done: Vec<bool>,
    /// The wires that can be next, the first of the text on top.
    ready: BinaryHeap<Reverse<usize>>,
    /// The wires that wait for a group to be reached.
    waiting: Vec<Vec<usize>>,
    ordered: Vec<Wire>,
}

impl<'a> Walk<'a> {
    fn of(tree: &'a Tree, before: &'a [Option<usize>]) -> Walk<'a> {
        Walk {
            tree,
            before,
            reached: vec![false; tree.groups.len()],
            done: vec![false; tree.wires.len()],
            ready: BinaryHeap::new(),
            waiting: vec![Vec::new(); tree.groups.len()],
            ordered: Vec::new(),
        }
    }

    fn from(mut self, root: usize) -> Option<Vec<Wire>> {
        if self.before[self.tree.group[root]].is_some() {
            return None;
        }
        self.reach(root)?;
        // the first path begins on the root's own layer
        let mut own = self.tree.wires_at[root].iter();
        let first = *own.find(|&&wire| self.blocked(wire).is_none())?;
        self.take(first)?;
        while let Some(Reverse(wire)) = self.ready.pop() {
            if self.done[wire] {
                continue;
            }
            match self.blocked(wire) {
                Some(group) => self.waiting[group].push(wire),
                None => self.take(wire)?,
            }
        }
        (self.ordered.len() == self.tree.wires.len()).then_some(self.ordered)
    }

    /// The ends of a wire, the one that is reached first.
    fn ends(&self, wire: usize) -> (usize, usize) {
        let wire = self.tree.wires[wire];
        match self.reached[self.tree.group[wire.from]] {
            true => (wire.from, wire.to),
            false => (wire.to, wire.from),
        }
    }

    /// The group that must be reached before the one that the wire leads to.
    fn blocked(&self, wire: usize) -> Option<usize> {
        let (_, to) = self.ends(wire);
        self.before[self.tree.group[to]].filter(|&group| !self.reached[group])
    }

    fn take(&mut self, wire: usize) -> Option<()> {
        let (from, to) = self.ends(wire);
        let at = self.tree.wires[wire].at;
        self.done[wire] = true;
        self.ordered.push(Wire { from, to, at });
        self.reach(to)
    }

    /// None if its group cannot be reached on its layer.
    fn reach(&mut self, node: usize) -> Option<()> {
        let group = self.tree.group[node];
        let nodes = &self.tree.groups[group];
        if nodes.len() > 2 && !nodes[..2].contains(&node) {
            return None;
        }
        self.reached[group] = true;
        for &node in nodes {
            self.ready
                .extend(self.tree.wires_at[node].iter().map(|&wire| Reverse(wire)));
        }
        let waiting = std::mem::take(&mut self.waiting[group]);
        self.ready.extend(waiting.into_iter().map(Reverse));
        Some(())
    }
}

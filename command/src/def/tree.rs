//! A parted route as a tree of groups: nodes of one point that vias join are a group, wires lead from group to group.

use super::joints::Joints;
use super::part::Parted;
use super::place::Reason;
use super::route::{Node, Point, Via};
use crate::words::count;
use std::cmp::Reverse;
use std::collections::{BTreeMap, HashMap};

/// A wire between two nodes, by their numbers.
#[derive(Clone, Copy)]
pub struct Wire {
    pub from: usize,
    pub to: usize,
    /// Its place in the text.
    pub at: usize,
}

pub struct Tree {
    /// As the wires first reach them.
    pub nodes: Vec<Node>,
    numbers: HashMap<Node, usize>,
    pub wires: Vec<Wire>,
    /// The wires of each node, rising.
    pub wires_at: Vec<Vec<usize>>,
    /// The group of each node.
    pub group: Vec<usize>,
    /// The nodes of each group, by rising layer.
    pub groups: Vec<Vec<usize>>,
    /// The groups of each point.
    pub points: BTreeMap<Point, Vec<usize>>,
}

impl Tree {
    /// Refused if it is no tree: it has no wire, a loop, or several parts.
    pub fn of(parted: &Parted, net_at: usize) -> Result<Tree, Reason> {
        let mut tree = Tree {
            nodes: Vec::new(),
            numbers: HashMap::new(),
            wires: Vec::new(),
            wires_at: Vec::new(),
            group: Vec::new(),
            groups: Vec::new(),
            points: BTreeMap::new(),
        };
        for (k, wire) in parted.wires.iter().enumerate() {
            let layer = wire.layer;
            let [from, to] = [wire.from, wire.to].map(|point| tree.number(Node { point, layer }));
            let at = wire.at;
            tree.wires.push(Wire { from, to, at });
            tree.wires_at[from].push(k);
            tree.wires_at[to].push(k);
        }
        if tree.wires.is_empty() {
            return Err(Reason::text(net_at, "it has no wire".into()));
        }
        let joints = Joints::of(&parted.vias);
        tree.gather(&joints);
        tree.joined(&joints)?;
        Ok(tree)
    }

    fn number(&mut self, node: Node) -> usize {
        *self.numbers.entry(node).or_insert_with(|| {
            self.nodes.push(node);
            self.wires_at.push(Vec::new());
            self.nodes.len() - 1
        })
    }

    pub fn has(&self, node: Node) -> bool {
        self.numbers.contains_key(&node)
    }

    /// Makes the groups: nodes of one point that a via joins.
    fn gather(&mut self, joints: &Joints) {
        let mut sorted: Vec<(Node, usize)> = self.nodes.iter().copied().zip(0..).collect();
        sorted.sort();
        self.group = vec![0; self.nodes.len()];
        let mut last = None;
        for (node, k) in sorted {
            let joint = joints.at(node).map(|via| (via.point, via.low));
            if joint.is_none() || joint != last {
                let groups = self.points.entry(node.point).or_default();
                groups.push(self.groups.len());
                self.groups.push(Vec::new());
            }
            last = joint;
            self.group[k] = self.groups.len() - 1;
            self.groups[self.group[k]].push(k);
        }
    }

    /// Does a via touch no wire?
    fn lone(&self, via: &Via) -> bool {
        let point = via.point;
        !(via.low..=via.high).any(|layer| self.has(Node { point, layer }))
    }

    /// Does it hang together, without a loop?
    fn joined(&self, joints: &Joints) -> Result<(), Reason> {
        let mut sets = Sets((0..self.groups.len()).collect());
        let mut parts = self.groups.len();
        for wire in &self.wires {
            if !sets.join(self.group[wire.from], self.group[wire.to]) {
                let message = "a loop: this wire joins what is joined already";
                return Err(Reason::text(wire.at, message.into()));
            }
            parts -= 1;
        }
        let first = sets.of(self.group[0]);
        let mut wires = self.wires.iter();
        let apart = wires.find(|wire| sets.of(self.group[wire.from]) != first);
        let lone: Vec<&Via> = joints.all().filter(|via| self.lone(via)).collect();
        let lone_at = lone.iter().map(|via| via.at).min();
        match apart.map(|wire| wire.at).or(lone_at) {
            None => Ok(()),
            Some(at) => {
                let parts = count(parts + lone.len(), "part");
                let message = format!("in {parts}: only a cell can join this one to the first");
                Err(Reason::text(at, message))
            }
        }
    }

    /// Groups of several layers that share their point with other groups, those first that share it with such groups.
    pub fn crowds(&self) -> Vec<usize> {
        let several = |group: &usize| self.groups[*group].len() > 1;
        let shared = self.points.values().filter(|groups| groups.len() > 1);
        let mut crowds: Vec<Vec<usize>> = shared
            .map(|groups| groups.iter().copied().filter(several).collect())
            .collect();
        crowds.sort_by_key(|groups| Reverse(groups.len()));
        crowds.concat()
    }

    /// A wire at the first group that is hard to order.
    pub fn crowded(&self) -> Option<usize> {
        let many = |group: &usize| self.groups[*group].len() > 2;
        let crowds = self.crowds();
        let group = crowds.first().copied();
        let group = group.or((0..self.groups.len()).find(many))?;
        self.wires_at[self.groups[group][0]].first().copied()
    }
}

/// Sets that are joined, each named by one of its members.
struct Sets(Vec<usize>);

impl Sets {
    fn of(&mut self, mut k: usize) -> usize {
        while self.0[k] != k {
            self.0[k] = self.0[self.0[k]];
            k = self.0[k];
        }
        k
    }

    /// False if both are in one set already.
    fn join(&mut self, a: usize, b: usize) -> bool {
        let (a, b) = (self.of(a), self.of(b));
        self.0[a] = b;
        a != b
    }
}

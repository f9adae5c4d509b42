//! The vias of a net, where those of one point that share a layer are one.

use super::route::{Node, Point, Via};
use std::collections::HashMap;

pub struct Joints(HashMap<Point, Vec<Via>>);

impl Joints {
    pub fn of(vias: &[Via]) -> Joints {
        let mut joints: HashMap<Point, Vec<Via>> = HashMap::new();
        for via in vias {
            joints.entry(via.point).or_default().push(*via);
        }
        for vias in joints.values_mut() {
            vias.sort_by_key(|via| (via.low, via.high));
            vias.dedup_by(|next, via| {
                let shared = next.low <= via.high;
                if shared {
                    via.high = via.high.max(next.high);
                    via.at = via.at.min(next.at);
                }
                shared
            });
        }
        Joints(joints)
    }

    /// What joins a node to other layers of its point.
    pub fn at(&self, node: Node) -> Option<&Via> {
        let mut vias = self.0.get(&node.point)?.iter();
        vias.find(|via| (via.low..=via.high).contains(&node.layer))
    }

    pub fn all(&self) -> impl Iterator<Item = &Via> {
        self.0.values().flatten()
    }
}

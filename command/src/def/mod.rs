//! Nets of a DEF file, rewritten into the form that the library reads.

pub mod bar;
mod beside;
mod contacts;
pub mod described;
pub mod file;
pub mod folder;
mod joints;
mod layers;
mod obstacles;
mod order;
mod part;
mod pins;
pub mod place;
pub mod read;
mod route;
mod scale;
mod scan;
mod tracks;
mod tree;
mod write;

use joints::Joints;
use part::Parted;
use pins::Pins;
use place::Reason;
use route::{Node, Point, Route};
use tree::Tree;
use write::Written;

/// The most nodes of a net file.
const MOST: usize = 256;

/// A route in the library's form, and where a pin of each layer and point belongs.
pub struct Rewritten {
    written: Written,
    tree: Tree,
    /// The vias as the file has them.
    joints: Joints,
    /// The places of vias that stand one step beside their points, rising.
    pub beside: Vec<usize>,
}

impl Rewritten {
    /// A route in steps, with a node wherever a pin meets a wire of its layer.
    pub fn of(route: Route, pins: &Pins, net_at: usize) -> Result<Rewritten, Reason> {
        let mut parted = part::parted(&route, &pins.nodes())?;
        let mut beside = Vec::new();
        loop {
            let tree = tree_of(&parted, net_at)?;
            let as_written = route.own_form.then(|| order::as_written(&tree)).flatten();
            if let Some(wires) = as_written.or_else(|| order::order(&tree)) {
                let written = write::text(&tree, &wires);
                beside.sort();
                return Ok(Rewritten {
                    written,
                    tree,
                    joints: Joints::of(&route.vias),
                    beside,
                });
            }
            let Some(via) = beside::move_via(&mut parted, &tree) else {
                let at = tree.wires[tree.crowded().unwrap_or(0)].at;
                let message =
                    "layers change at a point in a way that the library's form cannot say";
                return Err(Reason::text(at, message.into()));
            };
            beside.push(via);
        }
    }

    /// The ends of each wire.
    pub fn wires(&self) -> Vec<(Point, Point)> {
        let point = |node: usize| self.tree.nodes[node].point;
        let wires = self.tree.wires.iter();
        wires
            .map(|wire| (point(wire.from), point(wire.to)))
            .collect()
    }

    /// The node of a pin: its own, or the lowest that vias at its point join it to. One on a lower layer than the pin's is there
    /// at stages that do not have the pin yet.
    pub fn node_of(&self, pin: Node) -> Node {
        if self.tree.has(pin) {
            return pin;
        }
        let Some(via) = self.joints.at(pin) else {
            return pin;
        };
        (via.low..=via.high)
            .map(|layer| Node { layer, ..pin })
            .find(|node| self.tree.has(*node))
            .unwrap_or(pin)
    }
}

/// The tree of a route, if a net file has room for it.
fn tree_of(parted: &Parted, net_at: usize) -> Result<Tree, Reason> {
    let tree = Tree::of(parted, net_at)?;
    let nodes = tree.nodes.len();
    if nodes > MOST {
        let message = format!("it has {nodes} nodes, and a net file at most {MOST}");
        return Err(Reason::text(net_at, message));
    }
    Ok(tree)
}

//! The text of an ordered tree in the library's form.

use super::route::Node;
use super::tree::{Tree, Wire};
use std::fmt::Write;

pub struct Written {
    pub text: String,
    /// Where each point begins in this text, and its place in the file.
    points: Vec<(usize, usize)>,
    /// The place in the file of each node, as the library numbers them.
    nodes: Vec<usize>,
}

impl Written {
    /// The place in the file of what stands at a place of this text.
    pub fn source(&self, place: usize) -> Option<usize> {
        let k = self.points.partition_point(|(begin, _)| *begin <= place);
        let (_, at) = self.points.get(k.checked_sub(1)?)?;
        Some(*at)
    }

    /// The place in the file of a node, or of the wire that has its number.
    pub fn node(&self, number: usize) -> Option<usize> {
        self.nodes.get(number).copied()
    }
}

/// Each wire goes on in the path before if it begins where that ends, on the same layer.
pub fn text(tree: &Tree, wires: &[Wire]) -> Written {
    let mut written = Written {
        text: "+ ROUTED".into(),
        points: Vec::new(),
        nodes: Vec::new(),
    };
    let mut known = vec![false; tree.nodes.len()];
    let mut last = None;
    for wire in wires {
        let (from, to) = (tree.nodes[wire.from], tree.nodes[wire.to]);
        if last != Some(wire.from) {
            let new = if last.is_some() { "\n  NEW" } else { "" };
            let _ = write!(written.text, "{new} metal{}", from.layer);
            point(&mut written, None, from, wire.at);
        }
        point(&mut written, Some(from), to, wire.at);
        for node in [wire.from, wire.to] {
            if !std::mem::replace(&mut known[node], true) {
                written.nodes.push(wire.at);
            }
        }
        last = Some(wire.to);
    }
    written.text.push_str(" ;\n");
    written
}

/// A point, with '*' where it repeats the one before.
fn point(written: &mut Written, before: Option<Node>, node: Node, at: usize) {
    let (x, y) = (node.point.x, node.point.y);
    let same = |is: bool, value: i64| match is {
        true => "*".into(),
        false => value.to_string(),
    };
    let x_same = before.is_some_and(|before| before.point.x == x);
    let y_same = before.is_some_and(|before| before.point.y == y);
    written.points.push((written.text.len() + 1, at));
    let (x, y) = (same(x_same, x), same(y_same, y));
    let _ = write!(written.text, " ( {x} {y} )");
}

//! The labels of a picture: layers of obstacles, weights of harmful pieces, jumpers; nodes and factors if there are few.

use super::{marks, places, Line, Picture};
use crate::net::{layered, Node};

impl Picture<'_> {
    pub fn draw_labels(&mut self) {
        if layered(self.net.version) {
            self.label_obstacles();
        }
        self.label_weights();
        self.label_jumpers();
        if self.scale.labels {
            self.label_nodes();
            self.label_factors();
        }
    }

    /// Each with its layer.
    fn label_obstacles(&mut self) {
        for shape in &self.obstacles {
            let colour = marks::obstacle_label(shape.faint);
            let text = marks::layer_name(shape.layer);
            self.canvas.small_label(&shape.area, colour, &text);
        }
    }

    /// Each at the middle of its longest line.
    fn label_weights(&mut self) {
        let length = |&(_, from, to): &Line| (from.0 - to.0).abs() + (from.1 - to.1).abs();
        for (piece, lines) in self.pieces.iter().zip(&self.lines) {
            let longest = lines.iter().max_by(|a, b| length(a).total_cmp(&length(b)));
            let Some((_, from, to)) = longest.filter(|_| piece.harmful) else {
                continue;
            };
            let middle = ((from.0 + to.0) / 2.0, (from.1 + to.1) / 2.0);
            let weight = if self.scale.labels { "weight " } else { "" };
            let text = format!("{weight}{}", piece.weight);
            let reach = self.scale.size.band / 2.0;
            self.canvas.label(middle, reach, marks::HARM, &text);
        }
    }

    fn label_jumpers(&mut self) {
        if !self.jumpers_have_labels() {
            return;
        }
        for place in &self.places {
            let text = format!("{}:{}", place.wire, place.position);
            let reach = 1.3 * self.scale.size.jumper;
            self.canvas.label(place.cross, reach, marks::JUMPER, &text);
        }
    }

    /// None has one if there are more than a smallest set can have.
    pub fn jumpers_have_labels(&self) -> bool {
        self.places.len() <= places::MOST
    }

    /// Nodes at one point, as a via joins them, share a label.
    fn label_nodes(&mut self) {
        let nodes = &self.net.nodes;
        for (i, node) in nodes.iter().enumerate() {
            let here = |other: &Node| (other.x, other.y) == (node.x, node.y);
            if nodes[..i].iter().any(here) {
                continue;
            }
            let names = (i..nodes.len()).filter(|&k| here(&nodes[k]));
            let names: Vec<String> = names.map(|k| k.to_string()).collect();
            let reach = marks::reach(self.net, self.stage, i, self.scale.size.gate) + 2.0;
            self.canvas
                .label(self.scale.node(node), reach, marks::NODE, &names.join(", "));
        }
    }

    /// Each at the middle of its wire.
    fn label_factors(&mut self) {
        for i in 1..self.net.nodes.len() {
            if !self.has_factor(i) {
                continue;
            }
            let middle = self.net.at(i, self.net.length(i) as f64 / 2.0);
            let colour = marks::layer(self.net.layer(i));
            let text = format!("×{}", self.net.wires[i - 1].factor);
            self.canvas.label(
                self.scale.point(middle),
                self.scale.size.wire,
                colour,
                &text,
            );
        }
    }

    /// Does the factor of a wire have a label?
    pub fn has_factor(&self, wire: usize) -> bool {
        let drawn = self.net.present(self.stage, wire) && !self.net.is_via(wire);
        self.scale.labels && drawn && self.net.wires[wire - 1].factor > 1
    }
}

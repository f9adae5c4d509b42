//! A net in a line.

use crate::net::Net;
use crate::options::Options;
use crate::words::count;
use std::fmt::Write;

/// What it has: gates, sources and obstacles where the user gave some.
pub fn described(net: &Net, options: &Options) -> String {
    let wires = 1..=net.wires.len();
    let vias = wires.clone().filter(|&wire| net.is_via(wire)).count();
    let length: usize = wires.clone().map(|wire| net.length(wire)).sum();
    let mut layers: Vec<u8> = wires.map(|wire| net.layer(wire)).collect();
    layers.sort();
    layers.dedup();
    let layers: Vec<String> = layers.iter().map(|layer| layer.to_string()).collect();
    let mut line = format!(
        "{}, {}, {}, length {length}, layers {}",
        count(net.nodes.len(), "node"),
        count(net.wires.len() - vias, "wire"),
        count(vias, "via"),
        layers.join(",")
    );
    if options.pins.is_some() {
        let gates = net.nodes.iter().filter(|node| node.gate).count();
        let sources = net.nodes.iter().filter(|node| node.source).count();
        let _ = write!(
            line,
            ", {}, {}",
            count(gates, "gate"),
            count(sources, "source")
        );
    }
    if options.obstacles.is_some() {
        let _ = write!(line, ", {}", count(net.obstacles.len(), "obstacle"));
    }
    line
}

//! Piece records, as the report writes them, and how they are printed.

use crate::library::{FLAG_GATE, FLAG_HARMFUL, FLAG_SOURCE};
use std::fmt::Write;

pub struct Piece {
    pub number: usize,
    pub position: usize,
    pub weight: u32,
    pub gate: bool,
    pub source: bool,
    pub harmful: bool,
    layers: u16,
}

impl Piece {
    pub fn of_record(r: &[u8]) -> Piece {
        Piece {
            number: r[0] as usize,
            position: r[1] as usize + 256 * r[2] as usize,
            weight: u32::from_le_bytes([r[3], r[4], r[5], r[6]]),
            gate: r[7] & FLAG_GATE != 0,
            source: r[7] & FLAG_SOURCE != 0,
            harmful: r[7] & FLAG_HARMFUL != 0,
            layers: u16::from_le_bytes([r[8], r[9]]),
        }
    }

    /// The layers in it, from the lowest on.
    pub fn layers(&self) -> Vec<u8> {
        (1..=16).filter(|&n| self.has_layer(n)).collect()
    }

    pub fn has_layer(&self, layer: u8) -> bool {
        self.layers >> (layer - 1) & 1 == 1
    }

    /// The layers in it with something between them.
    pub fn layers_joined(&self, between: &str) -> String {
        let layers = self.layers().into_iter().map(|n| n.to_string());
        layers.collect::<Vec<_>>().join(between)
    }

    pub fn name(&self) -> String {
        if self.position == 0 {
            format!("node {}", self.number)
        } else {
            format!("wire {} from {}", self.number, self.position)
        }
    }
}

pub fn table(pieces: &[Piece]) -> String {
    let mut text = format!(
        "{:<20} {:>10}  {:<4} {:<6} {:<7} layers\n",
        "piece", "weight", "gate", "source", "harmful"
    );
    for piece in pieces {
        let mark = |is: bool| if is { "yes" } else { "-" };
        let layers = piece.layers_joined(",");
        let _ = writeln!(
            text,
            "{:<20} {:>10}  {:<4} {:<6} {:<7} {}",
            piece.name(),
            piece.weight,
            mark(piece.gate),
            mark(piece.source),
            if piece.harmful { "YES" } else { "-" },
            if layers.is_empty() { "-" } else { &layers }
        );
    }
    text
}

pub fn json(pieces: &[Piece]) -> String {
    let pieces = pieces.iter().map(|p| {
        format!(
            "{{\"number\": {}, \"position\": {}, \"weight\": {}, \"gate\": {}, \"source\": {}, \"harmful\": {}, \"layers\": [{}]}}",
            p.number, p.position, p.weight, p.gate, p.source, p.harmful, p.layers_joined(", ")
        )
    });
    format!("\"pieces\": [{}]", pieces.collect::<Vec<_>>().join(", "))
}

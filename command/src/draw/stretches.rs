//! The stretches of wire that a picture has, each with the record of its piece.

use crate::net::Net;
use crate::pieces::Piece;
use std::collections::HashMap;

/// A stretch of a present wire between two of its ends and jumpers.
pub struct Stretch {
    pub wire: usize,
    pub from: usize,
    pub to: usize,
    /// Which record is its piece's.
    pub piece: usize,
}

/// Every stretch, wire by wire from the wire's node to its parent. Every piece that is drawn has a record, and its layers are those of the record.
pub fn stretches(
    net: &Net,
    stage: u32,
    jumpers: &[(usize, usize)],
    pieces: &[Piece],
) -> Result<Vec<Stretch>, String> {
    let names = pieces.iter().map(|piece| (piece.number, piece.position));
    let records: HashMap<(usize, usize), usize> = names.zip(0..).collect();
    let record = |number: usize, position: usize| match records.get(&(number, position)) {
        Some(&record) => Ok(record),
        None => Err(format!("the report has no piece {number} {position}")),
    };
    let nodes = lowest(net, stage, jumpers).into_iter();
    let nodes: Vec<usize> = nodes.map(|i| record(i, 0)).collect::<Result<_, _>>()?;
    let mut found = Vec::new();
    for wire in (1..net.nodes.len()).filter(|&i| net.present(stage, i)) {
        let end = net.length(wire);
        let on = jumpers.iter().filter(|&&(on, _)| on == wire);
        let mut from = 0;
        for to in on.map(|&(_, t)| t).chain([end]) {
            let piece = if from == 0 {
                nodes[wire]
            } else if to == end {
                nodes[net.parent(wire)]
            } else {
                record(wire, from)?
            };
            let layer = net.layer(wire);
            if from < to && !pieces[piece].has_layer(layer) {
                let name = pieces[piece].name();
                return Err(format!("the report has no layer {layer} in piece {name}"));
            }
            found.push(Stretch {
                wire,
                from,
                to,
                piece,
            });
            from = to;
        }
    }
    Ok(found)
}

/// For each node the lowest node of its piece.
fn lowest(net: &Net, stage: u32, jumpers: &[(usize, usize)]) -> Vec<usize> {
    let mut cut = vec![false; net.nodes.len()];
    for &(wire, _) in jumpers {
        cut[wire] = true;
    }
    let mut lowest = vec![0];
    for i in 1..net.nodes.len() {
        let joined = net.present(stage, i) && !cut[i];
        lowest.push(if joined { lowest[net.parent(i)] } else { i });
    }
    lowest
}

//! "Pieces": every piece, found by joining nodes and single steps; the jumper list (refusals 12 to 14) and the report (1 to 14 and 20, 16).

use super::net::{net_of, Net};
use crate::Answer;

/// A point: a wire with a position.
pub type Point = (usize, usize);

#[derive(Clone, Debug, PartialEq, Eq, PartialOrd, Ord)]
pub struct Piece {
    /// Its lowest node and 0, or its wire and the lower of its two jumper positions.
    pub name: Point,
    pub weight: u64,
    pub gate: bool,
    pub source: bool,
    pub layers: u16,
}

impl Piece {
    pub fn harmful(&self, limit: u32) -> bool {
        self.gate && !self.source && self.weight > u64::from(limit)
    }

    pub fn record(&self, limit: u32) -> [u8; 12] {
        let mut record = [0; 12];
        let flags =
            u8::from(self.gate) + 2 * u8::from(self.source) + 4 * u8::from(self.harmful(limit));
        let in_it: Vec<u8> = (1..=16)
            .filter(|n| self.layers >> (n - 1) & 1 == 1)
            .collect();
        record[0] = self.name.0 as u8;
        record[1..3].copy_from_slice(&(self.name.1 as u16).to_le_bytes());
        record[3..7].copy_from_slice(&(self.weight as u32).to_le_bytes());
        record[7] = flags;
        record[8..10].copy_from_slice(&self.layers.to_le_bytes());
        record[10] = in_it.len() as u8;
        record[11] = in_it.first().copied().unwrap_or(0);
        record
    }
}

/// Groups of elements, joined two by two.
#[derive(Clone)]
pub struct Groups {
    parent: Vec<u32>,
}

impl Groups {
    pub fn new(count: usize) -> Groups {
        Groups {
            parent: (0..count as u32).collect(),
        }
    }

    pub fn find(&mut self, mut i: usize) -> usize {
        while self.parent[i] as usize != i {
            let above = self.parent[self.parent[i] as usize];
            self.parent[i] = above;
            i = above as usize;
        }
        i
    }

    pub fn join(&mut self, i: usize, j: usize) {
        let (i, j) = (self.find(i), self.find(j));
        self.parent[i.max(j)] = i.min(j) as u32;
    }
}

/// The elements of a stage: all nodes, then the steps of present wires.
pub struct Elements {
    pub nodes: usize,
    /// Where the first step of wire i stands; of no use for an absent wire.
    pub first: Vec<usize>,
    pub count: usize,
}

impl Elements {
    pub fn new(net: &Net, stage: u32) -> Elements {
        let nodes = net.nodes.len();
        let mut count = nodes;
        let mut first = vec![0];
        for i in 1..nodes {
            first.push(count);
            if net.present(stage, i) {
                count += net.length(i);
            }
        }
        Elements {
            nodes,
            first,
            count,
        }
    }

    /// Step t of wire i lies between positions t - 1 and t.
    pub fn step(&self, i: usize, t: usize) -> usize {
        self.first[i] + t - 1
    }
}

/// Nodes and steps of the stage joined where they touch: along a wire but where it is cut, at nodes, and by vias.
pub fn joined(net: &Net, stage: u32, elements: &Elements, cut: impl Fn(Point) -> bool) -> Groups {
    let mut groups = Groups::new(elements.count);
    for i in 1..elements.nodes {
        if !net.present(stage, i) {
            continue;
        }
        let (length, parent) = (net.length(i), net.parent(i));
        if length == 0 {
            groups.join(i, parent);
            continue;
        }
        groups.join(i, elements.step(i, 1));
        groups.join(parent, elements.step(i, length));
        for t in 1..length {
            if !cut((i, t)) {
                groups.join(elements.step(i, t), elements.step(i, t + 1));
            }
        }
    }
    groups
}

/// Every piece of the stage with jumpers at the points, in the order of their names.
pub fn pieces(net: &Net, stage: u32, jumpers: &[Point]) -> Vec<Piece> {
    let elements = Elements::new(net, stage);
    let mut at = vec![false; elements.count];
    for &(i, t) in jumpers {
        at[elements.step(i, t)] = true;
    }
    let mut groups = joined(net, stage, &elements, |(i, t)| at[elements.step(i, t)]);
    let mut found: Vec<Option<Piece>> = vec![None; elements.count];
    let empty = Piece {
        name: (0, 0),
        weight: 0,
        gate: false,
        source: false,
        layers: 0,
    };
    for i in 0..elements.nodes {
        let g = groups.find(i);
        // nodes come in rising order: the first met is the lowest
        let piece = found[g].get_or_insert(Piece {
            name: (i, 0),
            ..empty.clone()
        });
        piece.gate |= net.gate(i);
        piece.source |= net.source(i);
    }
    for i in 1..elements.nodes {
        if !net.present(stage, i) {
            continue;
        }
        for t in 1..=net.length(i) {
            let g = groups.find(elements.step(i, t));
            // its lowest step comes first, and begins at its lower jumper
            let piece = found[g].get_or_insert(Piece {
                name: (i, t - 1),
                ..empty.clone()
            });
            piece.weight += net.factor(i);
            piece.layers |= 1 << (net.wire(i).layer - 1);
        }
    }
    let mut pieces: Vec<Piece> = found.into_iter().flatten().collect();
    pieces.sort();
    pieces
}

/// The points of a jumper list, after refusals 12 to 14.
pub fn jumper_list(
    net: &Net,
    stage: u32,
    clearance: u16,
    list: &[u8],
) -> Result<Vec<Point>, Answer> {
    if list.len() % 3 != 0 {
        return Err(Answer::refused(12, 0));
    }
    let mut points: Vec<Point> = Vec::new();
    for (k, b) in list.chunks(3).enumerate() {
        let point = (b[0] as usize, b[1] as usize + 256 * b[2] as usize);
        let (i, t) = point;
        if k > 0 && points[k - 1] >= point {
            return Err(Answer::refused(12, k));
        }
        let inside =
            i >= 1 && i < net.nodes.len() && net.present(stage, i) && t >= 1 && t < net.length(i);
        if !inside {
            return Err(Answer::refused(13, k));
        }
        if net.barred(i, t, clearance) {
            return Err(Answer::refused(14, k));
        }
        points.push(point);
    }
    Ok(points)
}

/// The list of points as bytes.
pub fn list_of(points: &[Point]) -> Vec<u8> {
    let mut bytes = Vec::new();
    for &(i, t) in points {
        bytes.push(i as u8);
        bytes.extend((t as u16).to_le_bytes());
    }
    bytes
}

/// The net at a stage, after refusals 1 to 11 and 20.
pub fn net_at(stage: u32, file: &[u8]) -> Result<Net, Answer> {
    if !(1..=16).contains(&stage) {
        return Err(Answer::refused(1, 0));
    }
    net_of(file)
}

fn try_report(
    stage: u32,
    limit: u32,
    clearance: u16,
    file: &[u8],
    list: &[u8],
    out: &mut [u8],
) -> Result<usize, Answer> {
    let net = net_at(stage, file)?;
    let jumpers = jumper_list(&net, stage, clearance, list)?;
    let pieces = pieces(&net, stage, &jumpers);
    let needed = 12 * pieces.len();
    if needed > out.len() {
        return Err(Answer::refused(16, needed));
    }
    for (record, piece) in out.chunks_mut(12).zip(&pieces) {
        record.copy_from_slice(&piece.record(limit));
    }
    Ok(pieces.len())
}

/// The report; the count is that of the records.
pub fn report(
    stage: u32,
    limit: u32,
    clearance: u16,
    file: &[u8],
    list: &[u8],
    out: &mut [u8],
) -> Answer {
    match try_report(stage, limit, clearance, file, list, out) {
        Ok(count) => Answer::done(count),
        Err(refusal) => refusal,
    }
}

/// A jumper set is legal: its points are distinct, none is barred, all lie on present wires, and no piece is harmful.
pub fn legal(net: &Net, stage: u32, limit: u32, clearance: u16, jumpers: &[Point]) -> bool {
    let distinct = (1..jumpers.len()).all(|k| !jumpers[..k].contains(&jumpers[k]));
    distinct
        && jumpers
            .iter()
            .all(|&(i, t)| free(net, stage, clearance, i, t))
        && pieces(net, stage, jumpers)
            .iter()
            .all(|p| !p.harmful(limit))
}

/// A jumper may stand at position t of wire i.
pub fn free(net: &Net, stage: u32, clearance: u16, i: usize, t: usize) -> bool {
    i >= 1
        && i < net.nodes.len()
        && net.present(stage, i)
        && t >= 1
        && t < net.length(i)
        && !net.barred(i, t, clearance)
}

/// All points where a jumper may stand, rising.
pub fn free_points(net: &Net, stage: u32, clearance: u16) -> Vec<Point> {
    let mut points = Vec::new();
    for i in 1..net.nodes.len() {
        if net.present(stage, i) {
            points.extend(
                (1..net.length(i))
                    .filter(|&t| !net.barred(i, t, clearance))
                    .map(|t| (i, t)),
            );
        }
    }
    points
}

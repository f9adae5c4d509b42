//! Reader, writer, points and obstacles on the bytes of the file.

use crate::Answer;

/// The records of a net that is accepted, where they stand in the file. An obstacle has `WIDTH` bytes: eight, or nine with its layer.
#[derive(Clone, Copy)]
pub struct Net<'a, const WIDTH: usize> {
    pub nodes: &'a [[u8; 5]],
    pub wires: &'a [[u8; 3]],
    pub obstacles: &'a [[u8; WIDTH]],
}

/// A net of either version.
pub enum Versioned<'a> {
    One(Net<'a, 8>),
    Two(Net<'a, 9>),
}

/// A wire: its record, and the line from its node to its parent.
#[derive(Clone, Copy)]
pub struct Wire {
    pub parent: usize,
    pub layer: u8,
    pub factor: u8,
    pub length: u32,
    x: i32,
    y: i32,
    dx: i32,
    dy: i32,
}

fn place(&[x0, x1, y0, y1, _]: &[u8; 5]) -> (u16, u16) {
    (u16::from_le_bytes([x0, x1]), u16::from_le_bytes([y0, y1]))
}

/// How far the parent lies across and up; one of them is 0.
fn towards(node: &[u8; 5], parent: &[u8; 5]) -> (i32, i32) {
    let ((x, y), (px, py)) = (place(node), place(parent));
    let difference = |to, from| i32::from(to) - i32::from(from);
    (difference(px, x), difference(py, y))
}

/// The length of the wire from a node to its parent.
pub fn length(node: &[u8; 5], parent: &[u8; 5]) -> u32 {
    let (across, up) = towards(node, parent);
    (across + up).unsigned_abs()
}

impl Wire {
    fn place(&self, t: u32) -> (u16, u16) {
        let along = |from, step| (from + step * t as i32) as u16;
        (along(self.x, self.dx), along(self.y, self.dy))
    }
}

fn corners<const WIDTH: usize>(obstacle: &[u8; WIDTH]) -> [u16; 4] {
    [0, 2, 4, 6].map(|k| u16::from_le_bytes([obstacle[k], obstacle[k + 1]]))
}

/// The layer, if the obstacle has one.
fn layer<const WIDTH: usize>(obstacle: &[u8; WIDTH]) -> Option<u8> {
    obstacle.get(8).copied()
}

/// The obstacle with its layer, grown on all sides up to the ends of the coordinates.
fn grown<const WIDTH: usize>(obstacle: &[u8; WIDTH], clearance: u16) -> [u8; 9] {
    let [x1, y1, x2, y2] = corners(obstacle);
    let [a, b] = [x1, y1].map(|low| low.saturating_sub(clearance).to_le_bytes());
    let [c, d] = [x2, y2].map(|high| high.saturating_add(clearance).to_le_bytes());
    let layer = layer(obstacle).unwrap_or(16);
    [a[0], a[1], b[0], b[1], c[0], c[1], d[0], d[1], layer]
}

impl<'a, const WIDTH: usize> Net<'a, WIDTH> {
    /// The net with its obstacles grown, which fill the front of the table.
    pub fn grown(self, clearance: u16, table: &'a mut [[u8; 9]]) -> Net<'a, 9> {
        let table = &mut table[..self.obstacles.len()];
        for (place, obstacle) in table.iter_mut().zip(self.obstacles) {
            *place = grown(obstacle, clearance);
        }
        Net {
            nodes: self.nodes,
            wires: self.wires,
            obstacles: table,
        }
    }
}

impl<const WIDTH: usize> Net<'_, WIDTH> {
    pub fn count(&self) -> usize {
        self.nodes.len()
    }

    pub fn flags(&self, i: usize) -> u8 {
        self.nodes[i][4]
    }

    pub fn layer(&self, i: usize) -> u8 {
        self.wires[i - 1][1]
    }

    pub fn wire(&self, i: usize) -> Wire {
        let [parent, layer, factor] = self.wires[i - 1];
        let (node, above) = (&self.nodes[i], &self.nodes[usize::from(parent)]);
        let (x, y) = place(node);
        let (across, up) = towards(node, above);
        Wire {
            parent: parent.into(),
            layer,
            factor,
            length: length(node, above),
            x: x.into(),
            y: y.into(),
            dx: across.signum(),
            dy: up.signum(),
        }
    }

    /// An obstacle that counts for the wire is at most the clearance from position t, across and up.
    pub fn barred(&self, wire: &Wire, t: u32, clearance: u16) -> bool {
        let clearance = i32::from(clearance);
        let (across, up) = (wire.dx * t as i32, wire.dy * t as i32);
        // t comes last: a loop over a wire's points adds the clearance once
        let (west, east) = (wire.x - clearance + across, wire.x + clearance + across);
        let (south, north) = (wire.y - clearance + up, wire.y + clearance + up);
        self.obstacles.iter().any(|obstacle| {
            let [x1, y1, x2, y2] = corners(obstacle).map(i32::from);
            let counts = layer(obstacle).is_none_or(|layer| wire.layer <= layer);
            x1 <= east && west <= x2 && y1 <= north && south <= y2 && counts
        })
    }
}

/// The points of wires where the obstacles have been grown.
impl Net<'_, 9> {
    /// The first obstacle that holds position t of a wire and counts for it.
    fn holding(&self, wire: &Wire, t: u32) -> Option<[u16; 4]> {
        let (x, y) = wire.place(t);
        let holds = |obstacle: &&[u8; 9]| {
            let [x1, y1, x2, y2] = corners(obstacle);
            x1 <= x && x <= x2 && y1 <= y && y <= y2 && wire.layer <= obstacle[8]
        };
        self.obstacles.iter().find(holds).map(corners)
    }

    /// The highest position at or below t that is not barred, or 0.
    pub fn highest(&self, wire: &Wire, mut t: u32) -> u32 {
        while t > 0 {
            let Some([x1, y1, x2, y2]) = self.holding(wire, t) else {
                return t;
            };
            // the last position below the obstacle
            let below = match (wire.dx, wire.dy) {
                (1, _) => i32::from(x1) - wire.x,
                (-1, _) => wire.x - i32::from(x2),
                (_, 1) => i32::from(y1) - wire.y,
                _ => wire.y - i32::from(y2),
            };
            t = (below - 1).max(0) as u32;
        }
        0
    }

    /// The lowest position from 1 on and below the length that is not barred, or 0.
    pub fn lowest(&self, wire: &Wire) -> u32 {
        let mut t = 1;
        while t < wire.length {
            let Some([x1, y1, x2, y2]) = self.holding(wire, t) else {
                return t;
            };
            // the first position above the obstacle
            let above = match (wire.dx, wire.dy) {
                (1, _) => i32::from(x2) - wire.x,
                (-1, _) => wire.x - i32::from(x1),
                (_, 1) => i32::from(y2) - wire.y,
                _ => wire.y - i32::from(y1),
            };
            t = (above + 1) as u32;
        }
        0
    }
}

/// The version and the three sections, after refusals 2 and 3.
fn sections(file: &[u8]) -> Result<(u8, [&[u8]; 3]), Answer> {
    let Some((head, rest)) = file.split_first_chunk::<28>() else {
        return Err(Answer::refused(2, 0));
    };
    let [version @ (1 | 2), 0, 3, 0, ..] = *head else {
        return Err(Answer::refused(2, 0));
    };
    let (numbers, _) = head[4..].as_chunks::<4>();
    let number = |k: usize| u64::from(u32::from_le_bytes(numbers[k]));
    let (nodes, wires, obstacles) = (number(1), number(3), number(5));
    if number(0) != 28
        || number(2) != 28 + nodes
        || number(4) != 28 + nodes + wires
        || nodes + wires + obstacles != rest.len() as u64
    {
        return Err(Answer::refused(3, 0));
    }
    let (nodes, rest) = rest.split_at(nodes as usize);
    let (wires, obstacles) = rest.split_at(wires as usize);
    Ok((version, [nodes, wires, obstacles]))
}

/// Refusals 7 to 10.
fn check_tree(nodes: &[[u8; 5]], wires: &[[u8; 3]]) -> Result<(), Answer> {
    if let Some(i) = nodes.iter().position(|node| node[4] > 3) {
        return Err(Answer::refused(7, i));
    }
    for i in 1..nodes.len() {
        let [parent, layer, factor] = wires[i - 1];
        let Some(above) = nodes[..i].get(usize::from(parent)) else {
            return Err(Answer::refused(8, i));
        };
        if layer == 0 || layer > 16 || factor == 0 {
            return Err(Answer::refused(9, i));
        }
        let ((x, y), (px, py)) = (place(&nodes[i]), place(above));
        if x != px && y != py {
            return Err(Answer::refused(10, i));
        }
    }
    Ok(())
}

/// Refusals 11 and 20.
fn check_obstacles<const WIDTH: usize>(obstacles: &[[u8; WIDTH]]) -> Result<(), Answer> {
    for (k, obstacle) in obstacles.iter().enumerate() {
        let [x1, y1, x2, y2] = corners(obstacle);
        if x1 > x2 || y1 > y2 {
            return Err(Answer::refused(11, k));
        }
        if layer(obstacle).is_some_and(|layer| layer == 0 || layer > 16) {
            return Err(Answer::refused(20, k));
        }
    }
    Ok(())
}

/// The net of three sections, after refusals 4 to 11 and 20.
fn net_of_sections<const WIDTH: usize>(
    [nodes, wires, obstacles]: [&[u8]; 3],
) -> Result<Net<'_, WIDTH>, Answer> {
    let (nodes, rest) = nodes.as_chunks::<5>();
    if !rest.is_empty() || nodes.is_empty() || nodes.len() > 256 {
        return Err(Answer::refused(4, 0));
    }
    let (wires, rest) = wires.as_chunks::<3>();
    if !rest.is_empty() || wires.len() != nodes.len() - 1 {
        return Err(Answer::refused(5, 0));
    }
    let (obstacles, rest) = obstacles.as_chunks::<WIDTH>();
    if !rest.is_empty() || obstacles.len() > 256 {
        return Err(Answer::refused(6, 0));
    }
    check_tree(nodes, wires)?;
    check_obstacles(obstacles)?;
    Ok(Net {
        nodes,
        wires,
        obstacles,
    })
}

pub fn net_of(file: &[u8]) -> Result<Versioned<'_>, Answer> {
    let (version, sections) = sections(file)?;
    net_of_version(version, sections)
}

fn net_of_version(version: u8, sections: [&[u8]; 3]) -> Result<Versioned<'_>, Answer> {
    match version {
        1 => net_of_sections(sections).map(Versioned::One),
        _ => net_of_sections(sections).map(Versioned::Two),
    }
}

pub fn read(file: &[u8]) -> Answer {
    match net_of(file) {
        Ok(Versioned::One(net)) => Answer::done(net.count()),
        Ok(Versioned::Two(net)) => Answer::done(net.count()),
        Err(refusal) => refusal,
    }
}

pub fn write(version: u32, nodes: &[u8], wires: &[u8], obstacles: &[u8], out: &mut [u8]) -> Answer {
    if version != 1 && version != 2 {
        return Answer::refused(2, 0);
    }
    let version = version as u8;
    let sections = [nodes, wires, obstacles];
    if let Err(refusal) = net_of_version(version, sections) {
        return refusal;
    }
    let needed = 28 + nodes.len() + wires.len() + obstacles.len();
    let Some(out) = out.get_mut(..needed) else {
        return Answer::refused(16, needed);
    };
    let (head, mut rest) = out.split_at_mut(28);
    head[..4].copy_from_slice(&[version, 0, 3, 0]);
    let (pairs, _) = head[4..].as_chunks_mut::<8>();
    let mut offset = 28;
    for (pair, section) in pairs.iter_mut().zip(sections) {
        pair[..4].copy_from_slice(&(offset as u32).to_le_bytes());
        pair[4..].copy_from_slice(&(section.len() as u32).to_le_bytes());
        offset += section.len();
        let (to, behind) = rest.split_at_mut(section.len());
        to.copy_from_slice(section);
        rest = behind;
    }
    Answer::done(needed)
}

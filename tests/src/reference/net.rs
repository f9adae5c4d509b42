//! "The net" and "Files", and obstacles with a layer: the net, its reader (refusals 2 to 11 and 20), its writer (2, 4 to 11 and 20, 16).

use crate::Answer;

#[derive(Clone, Copy, Debug, PartialEq, Eq)]
pub struct Node {
    pub x: u16,
    pub y: u16,
    pub flags: u8,
}

#[derive(Clone, Copy, Debug, PartialEq, Eq)]
pub struct Wire {
    pub parent: u8,
    pub layer: u8,
    pub factor: u8,
}

#[derive(Clone, Copy, Debug, PartialEq, Eq)]
pub struct Obstacle {
    pub x1: u16,
    pub y1: u16,
    pub x2: u16,
    pub y2: u16,
    pub layer: u8,
}

/// How far a coordinate lies outside a stretch; 0 inside it.
pub fn outside(low: u16, high: u16, at: u16) -> i32 {
    let [low, high, at] = [low, high, at].map(i32::from);
    (low - at).max(at - high).max(0)
}

/// The records of a net; they need not make an accepted one.
#[derive(Clone, Debug, PartialEq, Eq)]
pub struct Net {
    pub version: u32,
    pub nodes: Vec<Node>,
    /// Wire i stands at i - 1.
    pub wires: Vec<Wire>,
    /// Each of layer 16 in version 1.
    pub obstacles: Vec<Obstacle>,
}

impl Net {
    pub fn wire(&self, i: usize) -> Wire {
        self.wires[i - 1]
    }

    pub fn parent(&self, i: usize) -> usize {
        self.wire(i).parent as usize
    }

    pub fn gate(&self, i: usize) -> bool {
        self.nodes[i].flags & 1 != 0
    }

    pub fn source(&self, i: usize) -> bool {
        self.nodes[i].flags & 2 != 0
    }

    /// The distance between the ends of wire i in steps.
    pub fn length(&self, i: usize) -> usize {
        let (a, b) = (self.nodes[i], self.nodes[self.parent(i)]);
        a.x.abs_diff(b.x) as usize + a.y.abs_diff(b.y) as usize
    }

    pub fn factor(&self, i: usize) -> u64 {
        self.wire(i).factor as u64
    }

    pub fn weight(&self, i: usize) -> u64 {
        self.length(i) as u64 * self.factor(i)
    }

    /// The weight of all wire.
    pub fn total_weight(&self) -> u64 {
        (1..self.nodes.len()).map(|i| self.weight(i)).sum()
    }

    /// Wire i is there at the stage.
    pub fn present(&self, stage: u32, i: usize) -> bool {
        self.wire(i).layer as u32 <= stage
    }

    /// The point t steps from node i towards its parent.
    pub fn point(&self, i: usize, t: usize) -> (u16, u16) {
        let (a, b) = (self.nodes[i], self.nodes[self.parent(i)]);
        let along = |from: u16, to: u16| -> u16 {
            if to > from {
                from + t as u16
            } else if to < from {
                from - t as u16
            } else {
                from
            }
        };
        (along(a.x, b.x), along(a.y, b.y))
    }

    /// The point lies at most the clearance outside some obstacle in x, and at most that far outside it in y, and the wire's layer is at
    /// most the obstacle's.
    pub fn barred(&self, i: usize, t: usize, clearance: u16) -> bool {
        let (x, y) = self.point(i, t);
        let most = i32::from(clearance);
        let near = |o: &Obstacle| outside(o.x1, o.x2, x) <= most && outside(o.y1, o.y2, y) <= most;
        let mut obstacles = self.obstacles.iter();
        obstacles.any(|o| near(o) && self.wire(i).layer <= o.layer)
    }

    /// The net of its first nodes, with their wires and all obstacles.
    pub fn first(&self, nodes: usize) -> Net {
        Net {
            nodes: self.nodes[..nodes].to_vec(),
            wires: self.wires[..nodes - 1].to_vec(),
            ..self.clone()
        }
    }

    pub fn node_section(&self) -> Vec<u8> {
        let mut bytes = Vec::new();
        for node in &self.nodes {
            bytes.extend(node.x.to_le_bytes());
            bytes.extend(node.y.to_le_bytes());
            bytes.push(node.flags);
        }
        bytes
    }

    pub fn wire_section(&self) -> Vec<u8> {
        let mut bytes = Vec::new();
        for wire in &self.wires {
            bytes.extend([wire.parent, wire.layer, wire.factor]);
        }
        bytes
    }

    pub fn obstacle_section(&self) -> Vec<u8> {
        let mut bytes = Vec::new();
        for o in &self.obstacles {
            for corner in [o.x1, o.y1, o.x2, o.y2] {
                bytes.extend(corner.to_le_bytes());
            }
            if self.version == 2 {
                bytes.push(o.layer);
            }
        }
        bytes
    }

    pub fn sections(&self) -> [Vec<u8>; 3] {
        [
            self.node_section(),
            self.wire_section(),
            self.obstacle_section(),
        ]
    }

    pub fn file(&self) -> Vec<u8> {
        let [nodes, wires, obstacles] = self.sections();
        file(self.version, &nodes, &wires, &obstacles)
    }
}

/// The file of three sections, whatever they hold; of the version 16 bits.
pub fn file(version: u32, nodes: &[u8], wires: &[u8], obstacles: &[u8]) -> Vec<u8> {
    let [low, high, ..] = version.to_le_bytes();
    let mut bytes = vec![low, high, 3, 0];
    let mut offset = 28;
    for section in [nodes, wires, obstacles] {
        bytes.extend((offset as u32).to_le_bytes());
        bytes.extend((section.len() as u32).to_le_bytes());
        offset += section.len();
    }
    for section in [nodes, wires, obstacles] {
        bytes.extend(section);
    }
    bytes
}

fn number16(bytes: &[u8], at: usize) -> u16 {
    u16::from_le_bytes([bytes[at], bytes[at + 1]])
}

fn number32(bytes: &[u8], at: usize) -> u64 {
    u64::from(number16(bytes, at)) + 65536 * u64::from(number16(bytes, at + 2))
}

/// Files have version 1 or 2.
fn known(version: u32) -> bool {
    [1, 2].contains(&version)
}

/// The version and the three sections, after refusals 2 and 3.
pub fn sections(file: &[u8]) -> Result<(u32, [&[u8]; 3]), Answer> {
    if file.len() < 28 || !known(number16(file, 0).into()) || number16(file, 2) != 3 {
        return Err(Answer::refused(2, 0));
    }
    let mut end = 28u64;
    let mut parts: [&[u8]; 3] = [&[]; 3];
    let mut stretches = [(0, 0); 3];
    for (k, stretch) in stretches.iter_mut().enumerate() {
        let offset = number32(file, 4 + 8 * k);
        let length = number32(file, 8 + 8 * k);
        if offset != end {
            return Err(Answer::refused(3, 0));
        }
        end = offset + length;
        *stretch = (offset, end);
    }
    if end != file.len() as u64 {
        return Err(Answer::refused(3, 0));
    }
    for (part, (from, to)) in parts.iter_mut().zip(stretches) {
        *part = &file[from as usize..to as usize];
    }
    Ok((number16(file, 0).into(), parts))
}

/// The net of three sections of version 1 or 2, after refusals 4 to 11 and 20.
pub fn check(version: u32, nodes: &[u8], wires: &[u8], obstacles: &[u8]) -> Result<Net, Answer> {
    let count = nodes.len() / 5;
    if nodes.len() % 5 != 0 || !(1..=256).contains(&count) {
        return Err(Answer::refused(4, 0));
    }
    if wires.len() != 3 * (count - 1) {
        return Err(Answer::refused(5, 0));
    }
    let width = if version == 1 { 8 } else { 9 };
    if obstacles.len() % width != 0 || obstacles.len() / width > 256 {
        return Err(Answer::refused(6, 0));
    }
    let net = Net {
        version,
        nodes: nodes
            .chunks(5)
            .map(|b| Node {
                x: number16(b, 0),
                y: number16(b, 2),
                flags: b[4],
            })
            .collect(),
        wires: wires
            .chunks(3)
            .map(|b| Wire {
                parent: b[0],
                layer: b[1],
                factor: b[2],
            })
            .collect(),
        obstacles: obstacles
            .chunks(width)
            .map(|b| Obstacle {
                x1: number16(b, 0),
                y1: number16(b, 2),
                x2: number16(b, 4),
                y2: number16(b, 6),
                layer: if version == 1 { 16 } else { b[8] },
            })
            .collect(),
    };
    for (i, node) in net.nodes.iter().enumerate() {
        if node.flags > 3 {
            return Err(Answer::refused(7, i));
        }
    }
    for i in 1..count {
        let wire = net.wire(i);
        if net.parent(i) >= i {
            return Err(Answer::refused(8, i));
        }
        if !(1..=16).contains(&wire.layer) || wire.factor == 0 {
            return Err(Answer::refused(9, i));
        }
        let (a, b) = (net.nodes[i], net.nodes[net.parent(i)]);
        if a.x != b.x && a.y != b.y {
            return Err(Answer::refused(10, i));
        }
    }
    for (k, o) in net.obstacles.iter().enumerate() {
        if o.x1 > o.x2 || o.y1 > o.y2 {
            return Err(Answer::refused(11, k));
        }
        if !(1..=16).contains(&o.layer) {
            return Err(Answer::refused(20, k));
        }
    }
    Ok(net)
}

/// The net of a file, after refusals 2 to 11 and 20.
pub fn net_of(file: &[u8]) -> Result<Net, Answer> {
    let (version, [nodes, wires, obstacles]) = sections(file)?;
    check(version, nodes, wires, obstacles)
}

/// Reading a net alone; the count is that of the nodes.
pub fn read(file: &[u8]) -> Answer {
    match net_of(file) {
        Ok(net) => Answer::done(net.nodes.len()),
        Err(refusal) => refusal,
    }
}

/// The writer; the count is that of the bytes written.
pub fn write(version: u32, nodes: &[u8], wires: &[u8], obstacles: &[u8], out: &mut [u8]) -> Answer {
    if !known(version) {
        return Answer::refused(2, 0);
    }
    if let Err(refusal) = check(version, nodes, wires, obstacles) {
        return refusal;
    }
    let bytes = file(version, nodes, wires, obstacles);
    if bytes.len() > out.len() {
        return Answer::refused(16, bytes.len());
    }
    out[..bytes.len()].copy_from_slice(&bytes);
    Answer::done(bytes.len())
}

//! A net that the library has accepted.

use crate::library::{FLAG_GATE, FLAG_SOURCE};
use crate::words::Refusal;
use crate::{files, library, text};

#[derive(Clone, Copy)]
pub struct Node {
    pub x: u16,
    pub y: u16,
    pub gate: bool,
    pub source: bool,
}

#[derive(Clone, Copy)]
pub struct Wire {
    pub parent: usize,
    pub layer: u8,
    pub factor: u8,
}

#[derive(Clone, Copy)]
pub struct Obstacle {
    pub corners: [u16; 4],
    /// Of version 1 it is the highest.
    pub layer: u8,
}

impl Obstacle {
    /// The rectangle of the points that it bars of a wire that it counts for. No point lies outside 0 to 65,535.
    pub fn barred(&self, clearance: u16) -> [u16; 4] {
        let [x1, y1, x2, y2] = self.corners;
        let [x1, y1] = [x1, y1].map(|low| low.saturating_sub(clearance));
        let [x2, y2] = [x2, y2].map(|high| high.saturating_add(clearance));
        [x1, y1, x2, y2]
    }
}

pub struct Net {
    pub file: Vec<u8>,
    pub version: u32,
    pub nodes: Vec<Node>,
    /// Wire i stands at i - 1.
    pub wires: Vec<Wire>,
    pub obstacles: Vec<Obstacle>,
}

/// The highest layer.
const HIGHEST: u8 = 16;

/// Do obstacles have layers in this version of net files?
pub fn layered(version: u32) -> bool {
    version > 1
}

/// The version and the sections of a net in text form, with the lines of the version and of each record.
pub struct Sections {
    pub version: u32,
    pub version_line: Option<usize>,
    pub bytes: [Vec<u8>; 3],
    pub lines: [Vec<usize>; 3],
}

impl Net {
    /// A net file, or a net in text form.
    pub fn load(name: &str) -> Result<Net, Refusal> {
        let bytes = files::load(name)?;
        match std::str::from_utf8(&bytes) {
            Ok(text) if !bytes.contains(&0) => {
                let sections = text::sections(name, text)?;
                Net::of_file(name, Net::write(name, &sections)?)
            }
            _ => Net::of_file(name, bytes),
        }
    }

    pub fn parent(&self, wire: usize) -> usize {
        self.wires[wire - 1].parent
    }

    pub fn layer(&self, wire: usize) -> u8 {
        self.wires[wire - 1].layer
    }

    /// Is the wire made by the stage?
    pub fn present(&self, stage: u32, wire: usize) -> bool {
        u32::from(self.layer(wire)) <= stage
    }

    /// Does the obstacle bar points of the wire?
    pub fn counts(&self, obstacle: &Obstacle, wire: usize) -> bool {
        self.layer(wire) <= obstacle.layer
    }

    pub fn length(&self, wire: usize) -> usize {
        let (a, b) = (self.nodes[wire], self.nodes[self.parent(wire)]);
        usize::from(a.x.abs_diff(b.x)) + usize::from(a.y.abs_diff(b.y))
    }

    pub fn is_via(&self, wire: usize) -> bool {
        self.length(wire) == 0
    }

    /// x and y of what lies so many steps from the wire's own node towards its parent.
    pub fn at(&self, wire: usize, steps: f64) -> (f64, f64) {
        let (a, b) = (self.nodes[wire], self.nodes[self.parent(wire)]);
        let toward = |from: u16, to: u16| {
            let direction = f64::from((i32::from(to) - i32::from(from)).signum());
            f64::from(from) + direction * steps
        };
        (toward(a.x, b.x), toward(a.y, b.y))
    }

    /// The net file of the sections; a refusal names the line.
    fn write(name: &str, sections: &Sections) -> Result<Vec<u8>, Refusal> {
        let [nodes, wires, obstacles] = &sections.bytes;
        let write = |out: &mut [u8]| library::write(sections.version, nodes, wires, obstacles, out);
        let mut file = vec![0; write(&mut []).place as usize];
        let answer = write(&mut file);
        if answer.number == library::DONE {
            return Ok(file);
        }
        let place = answer.place as usize;
        let line = match answer.number {
            library::REFUSED_HEAD => sections.version_line.as_ref(),
            library::REFUSED_NODE_FLAGS => sections.lines[0].get(place),
            library::REFUSED_WIRE_PARENT..=library::REFUSED_WIRE_ENDS => {
                sections.lines[1].get(place - 1)
            }
            library::REFUSED_OBSTACLE_CORNERS | library::REFUSED_OBSTACLE_LAYER => {
                sections.lines[2].get(place)
            }
            _ => None,
        };
        Err(match line {
            Some(line) => Refusal::at(&format!("{name}:{line}"), answer),
            None => Refusal::at(name, answer),
        })
    }

    pub fn of_file(name: &str, file: Vec<u8>) -> Result<Net, Refusal> {
        let answer = library::read(&file);
        if answer.number != library::DONE {
            return Err(Refusal::at(name, answer));
        }
        let number = |at: usize| u16::from_le_bytes([file[at], file[at + 1]]);
        let version = u32::from(number(0));
        let wires_at = 28 + 5 * answer.count as usize;
        let obstacles_at = wires_at + 3 * (answer.count as usize - 1);
        let nodes = (28..wires_at)
            .step_by(5)
            .map(|at| Node {
                x: number(at),
                y: number(at + 2),
                gate: file[at + 4] & FLAG_GATE != 0,
                source: file[at + 4] & FLAG_SOURCE != 0,
            })
            .collect();
        let wires = (wires_at..obstacles_at)
            .step_by(3)
            .map(|at| Wire {
                parent: file[at] as usize,
                layer: file[at + 1],
                factor: file[at + 2],
            })
            .collect();
        let layered = layered(version);
        let obstacles = (obstacles_at..file.len())
            .step_by(if layered { 9 } else { 8 })
            .map(|at| Obstacle {
                corners: [0, 2, 4, 6].map(|k| number(at + k)),
                layer: if layered { file[at + 8] } else { HIGHEST },
            })
            .collect();
        Ok(Net {
            version,
            nodes,
            wires,
            obstacles,
            file,
        })
    }
}

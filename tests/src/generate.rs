//! Random nets, jumper lists and damaged files.

pub mod clearance;
pub mod def;
pub mod late;
pub mod obstacle;

use crate::random::Random;
use crate::reference::net::{file, Net, Node, Wire};
use crate::reference::report::{free_points, legal, list_of, Point};
use clearance::clearance;
use obstacle::{damage_obstacle, obstacle, on_layers};

/// How a random net is made.
#[derive(Clone, Copy)]
pub struct Shape {
    pub version: u32,
    pub nodes: usize,
    pub longest: u64,
    pub obstacles: usize,
}

/// Either version.
pub fn version(random: &mut Random) -> u32 {
    random.range(1, 2) as u32
}

/// A net that is accepted.
pub fn net(random: &mut Random, shape: Shape) -> Net {
    let layers = match shape.version {
        1 => random.pick(&[1, 1, 2, 3, 16]),
        _ => random.pick(&[1, 3, 3, 4, 16]),
    };
    let mut factors = random.pick(&[1, 1, 2, 3, 5, 255]);
    if random.chance(1, 20) {
        factors = 255;
    }
    let via = random.pick(&[0, 0, 1, 2, 5]);
    let gates = random.pick(&[0, 1, 2, 4, 8, 10]);
    let sources = random.pick(&[0, 0, 0, 0, 0, 1, 3]);
    let tree = random.below(5);
    let middle = random.pick(&[0, 1, 1000, 1000, 30000, 65535]);
    let span = 1 + shape.longest * 3;
    let mut nodes: Vec<Node> = Vec::new();
    let mut wires: Vec<Wire> = Vec::new();
    for i in 0..shape.nodes as u64 {
        let flags = u8::from(random.chance(gates, 10)) + 2 * u8::from(random.chance(sources, 10));
        if i == 0 {
            let near = |random: &mut Random| -> u16 {
                (middle as i64 + random.below(span) as i64 - (span / 2) as i64).clamp(0, 65535)
                    as u16
            };
            let (x, y) = (near(random), near(random));
            nodes.push(Node { x, y, flags });
            continue;
        }
        let parent = match tree {
            0 => i - 1,
            1 => 0,
            2 => i - 1 - random.below(i.min(3)),
            3 => (i - 1) / 2,
            _ => random.below(i),
        };
        let length = if random.chance(via, 10) {
            0
        } else if random.chance(1, 4) {
            shape.longest as i64
        } else {
            random.range(0, shape.longest) as i64
        };
        let from = nodes[parent as usize];
        let (mut x, mut y) = (from.x as i64, from.y as i64);
        match random.below(4) {
            0 => {
                x = if x + length > 65535 {
                    x - length
                } else {
                    x + length
                }
            }
            1 => x = if x < length { x + length } else { x - length },
            2 => {
                y = if y + length > 65535 {
                    y - length
                } else {
                    y + length
                }
            }
            _ => y = if y < length { y + length } else { y - length },
        }
        nodes.push(Node {
            x: x as u16,
            y: y as u16,
            flags,
        });
        wires.push(Wire {
            parent: parent as u8,
            layer: random.range(1, layers) as u8,
            factor: random.range(1, factors) as u8,
        });
    }
    let mut net = Net {
        version: shape.version,
        nodes,
        wires,
        obstacles: Vec::new(),
    };
    for _ in 0..shape.obstacles {
        let o = obstacle(random, &net);
        net.obstacles.push(o);
    }
    net
}

/// A limit near the weights of the net, or any.
pub fn limit(random: &mut Random, net: &Net) -> u32 {
    let count = net.nodes.len();
    let total = net.total_weight();
    let near = |random: &mut Random, weight: u64| -> u32 {
        (weight as i64 + random.below(5) as i64 - 2).clamp(0, u32::MAX as i64) as u32
    };
    let heaviest = (1..count).map(|i| net.weight(i)).max().unwrap_or(0);
    match random.below(16) {
        0 => 0,
        1 => 1,
        2 => near(random, total),
        9..=11 => {
            let weight = heaviest * random.range(1, 8) / random.range(1, 4);
            near(random, weight)
        }
        12..=13 => {
            let weight = heaviest * random.range(1, 3) / 2;
            near(random, weight)
        }
        3 | 4 if count > 1 => {
            let i = random.range(1, count as u64 - 1) as usize;
            near(random, net.weight(i))
        }
        5 if count > 2 => {
            let i = random.range(1, count as u64 - 1) as usize;
            let j = random.range(1, count as u64 - 1) as usize;
            near(random, net.weight(i) + net.weight(j))
        }
        6 => random.next() as u32,
        7 => u32::MAX,
        8 => random.range(0, total / 10 + 1).min(u32::MAX as u64) as u32,
        _ => random.range(0, total + 1).min(u32::MAX as u64) as u32,
    }
}

/// Some free point is as near to an obstacle as one that is barred; the obstacle does not count for its wire.
fn near_and_free(net: &Net, stage: u32, clearance: u16) -> bool {
    free_points(&on_layers(net, |_| 16), stage, clearance) != free_points(net, stage, clearance)
}

/// A net, a stage, a limit and a clearance with at most `most` points where a jumper may stand; more often one that needs jumpers, and in version 2 one
/// where an obstacle's layer decides.
pub fn small_case(random: &mut Random, most: usize) -> (Net, u32, u32, u16) {
    let version = version(random);
    loop {
        let nodes = random.range(1, 8) as usize;
        let shape = Shape {
            version,
            nodes,
            longest: match nodes {
                1..=3 => random.range(2, 14),
                4..=5 => random.range(2, 6),
                _ => random.range(2, 4),
            },
            obstacles: match version {
                1 => random.pick(&[0, 0, 0, 1, 2, 4]),
                _ => random.pick(&[0, 1, 2, 3, 4, 8]),
            },
        };
        let mut net = net(random, shape);
        let stage = stage(random, &net);
        let clearance = clearance(random, &net);
        if version == 2 && random.chance(2, 3) && !near_and_free(&net, stage, clearance) {
            continue;
        }
        for _ in 0..10 {
            if free_points(&net, stage, clearance).len() <= most {
                let limit = limit(random, &net);
                if random.chance(2, 3) && legal(&net, stage, limit, clearance, &[]) {
                    break;
                }
                return (net, stage, limit, clearance);
            }
            let o = obstacle(random, &net);
            net.obstacles.push(o);
        }
    }
}

/// A stage at which some or all wires are there.
pub fn stage(random: &mut Random, net: &Net) -> u32 {
    let highest = net.wires.iter().map(|w| w.layer).max().unwrap_or(1) as u32;
    if random.chance(1, 3) {
        random.range(1, 16) as u32
    } else if random.chance(1, 2) {
        highest
    } else {
        random.range(1, highest as u64) as u32
    }
}

/// A net of 100 to 256 nodes, a stage, a limit and a clearance; more often one that needs jumpers.
pub fn large_case(random: &mut Random) -> (Net, u32, u32, u16) {
    loop {
        let shape = Shape {
            version: version(random),
            nodes: random.range(100, 256) as usize,
            longest: random.pick(&[3, 8, 8, 30, 30]),
            obstacles: random.pick(&[0, 0, 2, 10, 40, 256]),
        };
        let net = net(random, shape);
        let stage = stage(random, &net);
        let total = net.total_weight();
        let limit = if random.chance(2, 3) {
            (total / random.range(2, 60)) as u32
        } else {
            limit(random, &net)
        };
        let clearance = clearance(random, &net);
        if random.chance(1, 4) || !legal(&net, stage, limit, clearance, &[]) {
            return (net, stage, limit, clearance);
        }
    }
}

/// A net of any number of nodes and obstacles; most are small. Nine obstacles of version 1 have as many bytes as eight of version 2.
pub fn any_net(random: &mut Random) -> Net {
    let version = version(random);
    let shape = Shape {
        version,
        nodes: if random.chance(1, 20) {
            random.range(200, 256)
        } else {
            random.range(1, 12)
        } as usize,
        longest: random.pick(&[2, 5, 20, 300]),
        obstacles: if random.chance(1, 30) {
            random.range(200, 256)
        } else if random.chance(1, 30) {
            u64::from(10 - version)
        } else {
            random.below(6)
        } as usize,
    };
    net(random, shape)
}

/// One record is made wrong, or two obstacles are, by refusals 7 to 11 and 20 or nearly so.
pub fn damage_record(random: &mut Random, net: &mut Net) {
    let any = random.next();
    let node = random.below(net.nodes.len() as u64) as usize;
    let kind = random.below(if net.version == 1 { 8 } else { 10 });
    if kind == 0 || net.wires.is_empty() && kind < 6 {
        net.nodes[node].flags = random.pick(&[4, 5, 8, 255, 3]);
        return;
    }
    if kind >= 6 {
        return damage_obstacle(random, net);
    }
    let i = random.below(net.wires.len() as u64) as usize;
    let wire = &mut net.wires[i];
    match kind {
        1 => wire.parent = (i + 1 + random.below(3) as usize).min(255) as u8,
        2 => wire.parent = any as u8,
        3 => wire.layer = random.pick(&[0, 17, 16, 255]),
        4 => wire.factor = 0,
        _ => {
            net.nodes[node].x ^= random.range(1, 3) as u16;
            net.nodes[node].y ^= random.range(0, 3) as u16;
        }
    }
}

/// A section has the wrong length, or nearly so.
fn damage_length(random: &mut Random, section: &mut Vec<u8>, width: usize) {
    match random.below(6) {
        0 => section.truncate(section.len().saturating_sub(random.range(1, 9) as usize)),
        1 => section.truncate(section.len().saturating_sub(width)),
        2 => section.resize(section.len() + random.range(1, 9) as usize, 1),
        3 => section.resize(section.len() + width, 0),
        4 => section.clear(),
        _ => section.resize(width * random.range(255, 258) as usize, 0),
    }
}

/// A version that is not the one given: the other one, or none that there is.
fn wrong_version(random: &mut Random, version: u32) -> u32 {
    let any = random.next() as u32;
    let near = [0, 3, 256, 257, 258, 65_536, 65_537, 65_538, 1 << 31];
    match random.below(4) {
        0 | 1 => 3 - version,
        2 => random.pick(&near),
        _ => random.pick(&[any, u32::MAX]),
    }
}

/// The version and the sections of a net; some have damaged records, some the wrong length, some the wrong version.
pub fn damaged_sections(random: &mut Random) -> (u32, [Vec<u8>; 3]) {
    let mut net = any_net(random);
    for _ in 0..random.pick(&[0, 0, 1, 1, 2, 4]) {
        damage_record(random, &mut net);
    }
    let mut sections = net.sections();
    if random.chance(1, 4) {
        let obstacle = random.pick(&[8, 9]);
        let width = [5, 3, obstacle];
        let k = random.below(3) as usize;
        damage_length(random, &mut sections[k], width[k]);
        if k == 0 && random.chance(1, 2) {
            sections[1].resize((sections[0].len() / 5).saturating_sub(1) * 3, 0);
        }
    }
    if random.chance(1, 12) {
        net.version = wrong_version(random, net.version);
    }
    (net.version, sections)
}

/// A file with something wrong in it, or nearly so.
pub fn damage_file(random: &mut Random, file: &mut Vec<u8>) {
    let put = |file: &mut Vec<u8>, at: usize, value: u32| {
        if file.len() >= at + 4 {
            file[at..at + 4].copy_from_slice(&value.to_le_bytes());
        }
    };
    let get = |file: &[u8], at: usize| -> u32 {
        match file.get(at..at + 4) {
            Some(b) => u32::from_le_bytes([b[0], b[1], b[2], b[3]]),
            None => 0,
        }
    };
    let by = random.pick(&[1, 3, 5, 8, 9, 28, 1 << 16, 1 << 31]);
    match random.below(10) {
        0 => file.truncate(random.below(file.len() as u64 + 1) as usize),
        1 => file.extend(vec![0; random.range(1, 30) as usize]),
        2 => {
            let at = random.below(4.min(file.len() as u64)) as usize;
            file[at] = random.next() as u8;
        }
        3 | 4 => {
            let at = 4 + 4 * random.below(6) as usize;
            let value = get(file, at);
            let value = if random.chance(1, 2) {
                value.wrapping_add(by)
            } else {
                value.wrapping_sub(by)
            };
            put(file, at, value);
        }
        5 | 6 => {
            // the border between two sections moves
            let k = 8 * random.below(2) as usize;
            let (length, offset, next) = (get(file, 8 + k), get(file, 12 + k), get(file, 16 + k));
            let by = if random.chance(1, 2) {
                by
            } else {
                by.wrapping_neg()
            };
            put(file, 8 + k, length.wrapping_add(by));
            put(file, 12 + k, offset.wrapping_add(by));
            put(file, 16 + k, next.wrapping_sub(by));
        }
        7 => {
            for at in (4..28).step_by(4) {
                put(
                    file,
                    at,
                    random.pick(&[0, 5, 28, 33, u32::MAX, u32::MAX - 27, 1 << 31]),
                );
            }
        }
        _ => {
            let at = random.below(file.len() as u64) as usize;
            file[at] = random.next() as u8;
        }
    }
}

/// A file, good or damaged.
pub fn any_file(random: &mut Random) -> Vec<u8> {
    let (version, [nodes, wires, obstacles]) = damaged_sections(random);
    let mut file = file(version, &nodes, &wires, &obstacles);
    for _ in 0..random.pick(&[0, 0, 0, 1, 1, 2]) {
        if !file.is_empty() {
            damage_file(random, &mut file);
        }
    }
    file
}

/// Some of the points where a jumper may stand, rising.
pub fn jumpers(random: &mut Random, net: &Net, stage: u32, clearance: u16) -> Vec<Point> {
    let points = free_points(net, stage, clearance);
    let one = random.pick(&[0, 1, 3, 10]);
    points
        .into_iter()
        .filter(|_| random.chance(one, 10))
        .collect()
}

/// One point more, in its place; once if it is there.
fn insert(points: &mut Vec<Point>, point: Point) {
    points.push(point);
    points.sort();
    points.dedup();
}

/// A jumper list, good or damaged.
pub fn jumper_list(random: &mut Random, net: &Net, stage: u32, clearance: u16) -> Vec<u8> {
    let mut points = jumpers(random, net, stage, clearance);
    for _ in 0..random.pick(&[0, 0, 0, 1, 1, 2]) {
        let count = points.len() as u64;
        let at = random.below(count + 1) as usize;
        match random.below(7) {
            0 if count > 0 => {
                let at = random.below(count) as usize;
                points.insert(at, points[at]);
            }
            1 if count > 1 => {
                let at = random.below(count - 1) as usize;
                points.swap(at, at + 1);
            }
            2 if random.chance(1, 4) => {
                points.insert(at, (random.below(256) as usize, random.below(70) as usize));
                points.sort();
            }
            3 if !net.wires.is_empty() => {
                // at or near an end of any wire
                let i = random.range(1, net.wires.len() as u64) as usize;
                let length = net.length(i) as u64;
                let t = random.pick(&[0, 1, length.saturating_sub(1), length, length + 1]);
                insert(&mut points, (i, t.min(65535) as usize));
            }
            4 | 5 if !net.wires.is_empty() => {
                // inside a wire, barred or not
                let i = random.range(1, net.wires.len() as u64) as usize;
                let length = net.length(i) as u64;
                if length > 1 {
                    insert(&mut points, (i, random.range(1, length - 1) as usize));
                }
            }
            6 if clearance > 0 => {
                // barred, but not without the clearance
                let mut near = free_points(net, stage, 0);
                near.retain(|&(i, t)| net.barred(i, t, clearance));
                if !near.is_empty() {
                    insert(&mut points, random.pick(&near));
                }
            }
            _ => {}
        }
    }
    let mut list = list_of(&points);
    if random.chance(1, 20) {
        list.extend(vec![0; random.range(1, 2) as usize]);
    }
    list
}

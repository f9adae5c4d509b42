//! Random routings that meet no refusal of their points.

use crate::random::Random;
use std::collections::HashSet;

/// One path of a routing.
#[derive(Clone, Debug)]
pub struct Path {
    pub layer: u8,
    pub points: Vec<(u16, u16)>,
}

/// How a random routing is made.
#[derive(Clone, Copy)]
pub struct Shape {
    pub paths: u64,
    /// Of a path, at most; at least 2.
    pub points: u64,
    /// Of a wire, at most.
    pub longest: u64,
    pub layers: u64,
}

/// The points of a routing, each with its layer.
pub fn points(paths: &[Path]) -> Vec<(u16, u16, u8)> {
    let mut points = Vec::new();
    for path in paths {
        points.extend(path.points.iter().map(|&(x, y)| (x, y, path.layer)));
    }
    points
}

/// A point at most so many steps from another, upright or level.
fn step(random: &mut Random, (x, y): (u16, u16), longest: u64) -> (u16, u16) {
    let length = random.range(1, longest) as u16;
    match random.below(4) {
        0 => (x.saturating_add(length), y),
        1 => (x.saturating_sub(length), y),
        2 => (x, y.saturating_add(length)),
        _ => (x, y.saturating_sub(length)),
    }
}

/// Each path begins at a point that is known, and every later point is new on its layer. A path that finds none is left out.
pub fn route(random: &mut Random, shape: Shape) -> Vec<Path> {
    let middle = random.pick(&[0, 5, 100, 1000, 30000, 65535]);
    let mut known = vec![step(random, (middle, middle), shape.longest)];
    let mut reached = HashSet::new();
    let mut paths: Vec<Path> = Vec::new();
    for _ in 0..shape.paths {
        let layer = random.range(1, shape.layers) as u8;
        let start = random.pick(&known);
        let mut points = vec![start];
        let mut at = start;
        for _ in 0..random.range(1, shape.points - 1) {
            let tried = [0; 4].map(|_| step(random, at, shape.longest));
            let new = |&p: &(u16, u16)| p != start && !reached.contains(&(p, layer));
            let Some(next) = tried.into_iter().find(new) else {
                break;
            };
            reached.insert((next, layer));
            points.push(next);
            at = next;
        }
        if points.len() > 1 {
            reached.insert((start, layer));
            known.extend(&points);
            paths.push(Path { layer, points });
        }
    }
    paths
}

/// A routing of so many nodes, at least 2.
pub fn route_of(random: &mut Random, nodes: usize) -> Vec<Path> {
    loop {
        let shape = Shape {
            paths: random.range(1, 1 + nodes as u64 / 3),
            points: random.range(2, 10),
            longest: random.pick(&[10, 100, 1000]),
            layers: random.pick(&[1, 2, 6]),
        };
        let paths = route(random, shape);
        let reached: HashSet<_> = points(&paths).into_iter().collect();
        if reached.len() == nodes {
            return paths;
        }
    }
}

/// A small routing, or now and then one near the most nodes of a file.
pub fn any_route(random: &mut Random) -> Vec<Path> {
    let large = random.chance(1, 100);
    let shape = Shape {
        paths: if large { 40 } else { random.range(1, 6) },
        points: if large {
            random.range(8, 20)
        } else {
            random.pick(&[2, 3, 4, 9])
        },
        longest: if large {
            random.pick(&[100, 3000])
        } else {
            random.pick(&[2, 5, 40, 9000])
        },
        layers: random.pick(&[1, 2, 3, 16]),
    };
    loop {
        let paths = route(random, shape);
        if !paths.is_empty() {
            return paths;
        }
    }
}

//! Calls with DEF texts, good and damaged, their pins and obstacles.

pub mod damage;
pub mod route;
pub mod text;

use crate::random::Random;
use damage::{damage_byte, damage_route, damage_words};
use route::{any_route, points, Path};
use text::{joined, text, words};

/// What a call takes, but for its buffer.
#[derive(Clone, Debug)]
pub struct Case {
    pub text: Vec<u8>,
    pub place: usize,
    pub pins: Vec<u8>,
    pub obstacles: Vec<u8>,
}

/// A pin's bytes.
pub fn pin((x, y, layer): (u16, u16, u8), flags: u8) -> [u8; 6] {
    let ([x0, x1], [y0, y1]) = (x.to_le_bytes(), y.to_le_bytes());
    [x0, x1, y0, y1, layer, flags]
}

/// Pins on points of the routing.
fn good_pins(random: &mut Random, paths: &[Path]) -> Vec<u8> {
    let nodes = points(paths);
    let mut pins = Vec::new();
    for _ in 0..random.pick(&[0, 0, 1, 2, 3, 10]) {
        pins.extend(pin(random.pick(&nodes), random.below(4) as u8));
    }
    pins
}

/// A byte of the pins is changed, or the last one is cut, or one is on a layer that no node has.
fn damage_pins(random: &mut Random, pins: &mut Vec<u8>) {
    if pins.is_empty() {
        pins.resize(random.range(1, 6) as usize, 0);
        return;
    }
    let k = 6 * random.below(pins.len() as u64 / 6) as usize;
    match random.below(6) {
        0 => pins.truncate(pins.len() - random.range(1, 5) as usize),
        1 => pins[k + random.below(4) as usize] ^= 1,
        2 => pins[k + 4] = random.pick(&[0, 1, 2, 16, 17, 255]),
        3 => pins[k + 4] = random.next() as u8,
        4 => pins[k + 5] = random.next() as u8,
        _ => pins[k + 5] = random.pick(&[4, 8, 128]),
    }
}

/// An obstacle section.
fn good_obstacles(random: &mut Random) -> Vec<u8> {
    let mut section = Vec::new();
    for _ in 0..random.pick(&[0, 0, 1, 2, 5]) {
        let [a, b, c, d] = [0; 4].map(|_| random.next() as u16);
        for corner in [a.min(c), b.min(d), a.max(c), b.max(d)] {
            section.extend(corner.to_le_bytes());
        }
    }
    section
}

/// The section has a wrong length or width, or corners in a wrong order, or nearly so.
fn damage_obstacles(random: &mut Random, section: &mut Vec<u8>) {
    match random.below(6) {
        0 => section.push(0),
        1 => section.truncate(section.len().saturating_sub(3)),
        2 => section.resize(8 * random.range(255, 258) as usize, 0),
        // nines, as in version 2
        3 => {
            let nines = section.chunks(8).flat_map(|o| [o, &[16]].concat());
            *section = nines.collect();
        }
        _ if !section.is_empty() => {
            let k = 8 * random.below(section.len() as u64 / 8) as usize;
            section[k..k + 8].reverse();
        }
        _ => {}
    }
}

/// A net with other text before and behind it, and a place to read from, which is now and then not the net's.
fn surrounded(random: &mut Random, net: &[u8]) -> (Vec<u8>, usize) {
    let another = " + ROUTED metal1 ( 1 1 ) ( 2 1 ) ;";
    let before = random.pick(&[
        "",
        "",
        "",
        "\n",
        " \t\r\n ",
        "- a ( b c )\n ",
        "- n",
        another,
    ]);
    let mut behind = random.pick(&["", "", "", " ", "\n\n\t", "\n+ USE ;", another, " ;"]);
    if random.chance(1, 40) {
        behind = "x";
    }
    let text = [before.as_bytes(), net, behind.as_bytes()].concat();
    let place = match random.below(60) {
        0 => text.len() + random.pick(&[0, 1, 7]),
        1 => usize::MAX - random.below(2) as usize,
        2 => random.below(text.len() as u64 + 1) as usize,
        3..=6 => random.below(before.len() as u64 + 1) as usize,
        _ => before.len(),
    };
    (text, place)
}

/// A call that is done if the buffer is large enough and the net has at most 256 nodes.
pub fn good_case(random: &mut Random) -> Case {
    let paths = any_route(random);
    Case {
        text: text(random, &paths),
        place: 0,
        pins: good_pins(random, &paths),
        obstacles: good_obstacles(random),
    }
}

/// A call that is good, or damaged in one way or several.
pub fn any_case(random: &mut Random) -> Case {
    let mut paths = any_route(random);
    let mut pins = good_pins(random, &paths);
    let mut obstacles = good_obstacles(random);
    let damage = random.below(14);
    if damage < 4 {
        for _ in 0..random.range(1, 2) {
            damage_route(random, &mut paths);
        }
    }
    let stars = random.pick(&[0, 5, 10]);
    let mut words = words(random, &paths, stars);
    if damage == 4 || damage == 5 {
        damage_words(random, &mut words);
    }
    let mut net = joined(random, &words);
    if damage == 6 || damage == 7 {
        damage_byte(random, &mut net);
    }
    let (mut text, place) = surrounded(random, &net);
    if damage == 8 {
        text.truncate(random.below(text.len() as u64 + 1) as usize);
    }
    if random.chance(1, 5) {
        damage_pins(random, &mut pins);
    }
    if random.chance(1, 8) {
        damage_obstacles(random, &mut obstacles);
    }
    Case {
        text,
        place,
        pins,
        obstacles,
    }
}

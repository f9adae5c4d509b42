//! What can be wrong with a routing, its words and its bytes.

use super::route::{points, Path};
use crate::random::Random;

/// A point becomes a wrong one, or nearly so: known already, slanted off the one before, unknown where a path begins.
pub fn damage_route(random: &mut Random, paths: &mut [Path]) {
    let (x, y, _) = random.pick(&points(paths));
    let p = random.below(paths.len() as u64) as usize;
    let path = &mut paths[p];
    let k = random.below(path.points.len() as u64) as usize;
    let (here_x, here_y) = path.points[k];
    match random.below(8) {
        0 => path.points[k] = (x, y),
        1 => path.points.insert(k + 1, (x, y)),
        2 => path.points[k] = (here_x ^ 1, here_y ^ 1),
        3 => path.points.push((here_x, here_y)),
        4 => path.points[0] = (here_x.wrapping_add(7), here_y),
        5 => path.points.insert(k, (here_x, here_y)),
        6 => path
            .points
            .push((random.next() as u16, random.next() as u16)),
        _ => path.layer = random.range(1, 16) as u8,
    }
}

/// Words at the borders of those that are right.
const BORDERS: &str = "
    0 7 65534 65535 65536 70000 99999 00012 000012 00000 000000 065535 100000 4294967297 -1 1.5
    metal0 metal1 metal01 metal9 metal10 metal16 metal17 metal20 metal26 metal metal1x metal111 metal: Metal1 METAL1
    + +ROUTED ROUTED ROUTE ROUTEDX routed ; ;x ;; x; ( (10 (( () ) 10) * ** *1 NEW NEW; new";

fn border(random: &mut Random) -> Vec<u8> {
    let words: Vec<&str> = BORDERS.split_whitespace().collect();
    random.pick(&words).into()
}

/// A few words are dropped, doubled, swapped, joined, cut or replaced.
pub fn damage_words(random: &mut Random, words: &mut Vec<Vec<u8>>) {
    for _ in 0..random.pick(&[1, 1, 1, 2]) {
        if words.len() < 2 {
            return;
        }
        let at = random.below(words.len() as u64 - 1) as usize;
        match random.below(9) {
            0 => drop(words.remove(at)),
            1 => words.insert(at, words[at].clone()),
            2 => words.swap(at, at + 1),
            3 => {
                let next = words.remove(at + 1);
                words[at].extend(next);
            }
            4 => drop(words[at].pop()),
            5 => words.insert(at, border(random)),
            6 => {
                let middle = words[at].len() / 2;
                let rest = words[at].split_off(middle);
                words.insert(at + 1, rest);
            }
            _ => words[at] = border(random),
        }
    }
}

/// A byte near those that mean something, or any.
pub fn byte(random: &mut Random) -> u8 {
    let near = b"\x08\t\n\x0b\x0c\r\x0e\x1f !()*+;09/:mN\0\xff";
    if random.chance(1, 3) {
        random.next() as u8
    } else {
        random.pick(near)
    }
}

/// A byte is changed, put in or taken out.
pub fn damage_byte(random: &mut Random, text: &mut Vec<u8>) {
    if text.is_empty() {
        return;
    }
    let at = random.below(text.len() as u64) as usize;
    let byte = byte(random);
    match random.below(4) {
        0 => text.insert(at, byte),
        1 => drop(text.remove(at)),
        _ => text[at] = byte,
    }
}

//! Random clearances.

use crate::random::Random;
use crate::reference::net::{outside, Net};

/// The least clearance with which an obstacle bars a point of a wire, if it counts for the wire; one less, or one more.
fn deciding(random: &mut Random, net: &Net) -> Option<u16> {
    let i = random.below(net.nodes.len() as u64) as usize;
    if i == 0 || net.obstacles.is_empty() {
        return None;
    }
    let (x, y) = net.point(i, random.range(0, net.length(i) as u64) as usize);
    let o = net.obstacles[random.below(net.obstacles.len() as u64) as usize];
    let least = outside(o.x1, o.x2, x).max(outside(o.y1, o.y2, y));
    let near = least + random.range(0, 2) as i32 - 1;
    Some(near.clamp(0, 65535) as u16)
}

/// Mostly 0 or small, or one that decides of a point; now and then the largest, or any.
pub fn clearance(random: &mut Random, net: &Net) -> u16 {
    match random.below(16) {
        0..=6 => 0,
        7..=10 => random.range(1, 4) as u16,
        11..=13 => deciding(random, net).unwrap_or(1),
        14 => random.pick(&[65535, 65535, 65534, 32768, 256, 255]),
        _ => random.next() as u16,
    }
}

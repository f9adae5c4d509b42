//! Random obstacles, good and damaged.

use crate::random::Random;
use crate::reference::net::{Net, Obstacle};

/// Two points of a wire, or one near it.
fn ends(random: &mut Random, net: &Net, i: usize) -> [(u16, u16); 2] {
    let length = net.length(i) as u64;
    let any = |random: &mut Random| net.point(i, random.range(0, length) as usize);
    let (first, last) = (net.point(i, 0), net.point(i, length as usize));
    match random.below(6) {
        0 => [first, last],
        1 => [first, any(random)],
        2 => [any(random), last],
        3 => [any(random); 2],
        4 => [any(random), any(random)],
        _ => {
            let j = random.below(net.nodes.len() as u64) as usize;
            let n = net.nodes[j];
            [net.point(i, length as usize / 2), (n.x, n.y)]
        }
    }
}

/// A layer at or near that of a wire, or any.
fn layer_near(random: &mut Random, layer: u8) -> u8 {
    match random.below(8) {
        0 | 1 => layer,
        2 | 3 => layer.saturating_sub(1).max(1),
        4 => (layer + 1).min(16),
        5 => 16,
        _ => random.range(1, 16) as u8,
    }
}

/// The obstacle moved a few steps, held inside the coordinates.
fn move_aside(random: &mut Random, o: &mut Obstacle) {
    let by = random.range(1, 5) as u16;
    match random.below(4) {
        0 => (o.x1, o.x2) = (o.x1.saturating_sub(by), o.x2.saturating_sub(by)),
        1 => (o.x1, o.x2) = (o.x1.saturating_add(by), o.x2.saturating_add(by)),
        2 => (o.y1, o.y2) = (o.y1.saturating_sub(by), o.y2.saturating_sub(by)),
        _ => (o.y1, o.y2) = (o.y1.saturating_add(by), o.y2.saturating_add(by)),
    }
}

/// The obstacle stretched to an end of the coordinates, or moved there.
fn move_to_an_end(random: &mut Random, o: &mut Obstacle) {
    let (low, high) = match random.below(2) {
        0 => (&mut o.x1, &mut o.x2),
        _ => (&mut o.y1, &mut o.y2),
    };
    match random.below(4) {
        0 => *low = 0,
        1 => *high = 65535,
        2 => (*low, *high) = (0, 0),
        _ => (*low, *high) = (65535, 65535),
    }
}

/// An obstacle over an end, the middle or the whole of a wire, or somewhere near, or at an end of the coordinates; in version 2 its
/// layer is often at the border of that wire's.
pub fn obstacle(random: &mut Random, net: &Net) -> Obstacle {
    let count = net.nodes.len() as u64;
    let (over, [a, b]) = if count > 1 {
        let i = random.range(1, count - 1) as usize;
        (net.wire(i).layer, ends(random, net, i))
    } else {
        let n = net.nodes[0];
        (1, [(n.x, n.y); 2])
    };
    let wider = if random.chance(1, 4) {
        random.below(3) as u16
    } else {
        0
    };
    let mut obstacle = Obstacle {
        x1: a.0.min(b.0).saturating_sub(wider),
        y1: a.1.min(b.1).saturating_sub(wider),
        x2: a.0.max(b.0).saturating_add(wider),
        y2: a.1.max(b.1).saturating_add(wider),
        layer: match net.version {
            1 => 16,
            _ => layer_near(random, over),
        },
    };
    match random.below(20) {
        0..=2 => move_aside(random, &mut obstacle),
        3 => move_to_an_end(random, &mut obstacle),
        _ => {}
    }
    obstacle
}

/// The net with each obstacle on another layer; on layer 0 it bars no point.
pub fn on_layers(net: &Net, layer: impl Fn(u8) -> u8) -> Net {
    let mut net = net.clone();
    for obstacle in &mut net.obstacles {
        obstacle.layer = layer(obstacle.layer);
    }
    net
}

/// Corners reversed, or nearly so.
fn reverse(random: &mut Random, o: &mut Obstacle) {
    if random.chance(1, 2) {
        std::mem::swap(&mut o.x1, &mut o.x2);
    } else {
        (o.y1, o.y2) = (o.y2.saturating_add(1), o.y1);
    }
}

/// A layer out of range, or nearly so.
fn move_layer(random: &mut Random, o: &mut Obstacle) {
    o.layer = random.pick(&[0, 0, 17, 17, 255, 1, 16]);
}

/// An obstacle meets 11 or 20 or both, or two neighbours one each, in either order.
pub fn damage_obstacle(random: &mut Random, net: &mut Net) {
    let obstacles = &mut net.obstacles;
    if obstacles.is_empty() {
        return;
    }
    let k = random.below(obstacles.len() as u64) as usize;
    let next = (k + 1).min(obstacles.len() - 1);
    let kinds = if net.version == 1 { 2 } else { 8 };
    match random.below(kinds) {
        0 | 1 => reverse(random, &mut obstacles[k]),
        2..=4 => move_layer(random, &mut obstacles[k]),
        5 => {
            reverse(random, &mut obstacles[k]);
            move_layer(random, &mut obstacles[k]);
        }
        6 => {
            reverse(random, &mut obstacles[k]);
            move_layer(random, &mut obstacles[next]);
        }
        _ => {
            move_layer(random, &mut obstacles[k]);
            reverse(random, &mut obstacles[next]);
        }
    }
}

//! Random pins on a net, and what each meets there.

use super::metal::{At, Metal};
use antenna_tests::random::Random;

pub struct Pin {
    /// In steps.
    pub at: At,
    pub flags: u8,
    pub meets: Meets,
}

/// What a pin meets on its layer.
#[derive(Clone, Copy, PartialEq, Eq, PartialOrd, Ord, Debug)]
pub enum Meets {
    Node,
    Middle,
    /// Only a via, and all wires that it leads to are above.
    ViaDown,
    /// Only a via, and it leads to a wire below.
    ViaUp,
    Nothing,
}

impl Meets {
    fn of(metal: &Metal, (layer, x, y): At) -> Meets {
        let end = |layer: u8| metal.points.get(&(layer, x, y)).copied();
        let has_wire = |layer: u8| {
            let mut steps = metal.steps.iter();
            steps.any(|&(_, a, b)| [Some(a), Some(b)].contains(&end(layer)))
        };
        let has_via = |low: u8| {
            let mut vias = metal.vias.iter();
            vias.any(|&(_, a, b)| (Some(a), Some(b)) == (end(low), end(low + 1)))
        };
        let mut below = (1..layer).rev().take_while(|&low| has_via(low));
        if metal.plain().contains_key(&(layer, x, y)) {
            Meets::Middle
        } else if has_wire(layer) {
            Meets::Node
        } else if below.any(has_wire) {
            Meets::ViaUp
        } else if end(layer).is_some() {
            Meets::ViaDown
        } else {
            Meets::Nothing
        }
    }
}

/// Pins at points of a net on their layers, half of them at vias, and a few elsewhere.
pub fn pins(random: &mut Random, metal: &Metal) -> Vec<Pin> {
    let all: Vec<At> = metal.points.keys().copied().collect();
    let is_via = |end: usize| metal.vias.iter().any(|&(_, a, b)| a == end || b == end);
    let mut vias = all.clone();
    vias.retain(|at| is_via(metal.points[at]));
    let mut pin = || {
        let at = match random.below(50) {
            0 => (
                random.range(1, 6) as u8,
                random.range(0, 20) as i64,
                random.range(0, 20) as i64,
            ),
            1..=25 if !vias.is_empty() => random.pick(&vias),
            _ => random.pick(&all),
        };
        Pin {
            at,
            flags: random.below(4) as u8,
            meets: Meets::of(metal, at),
        }
    };
    (0..4).map(|_| pin()).collect()
}

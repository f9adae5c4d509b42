//! Routes from DEF: texts of nets of each size, and the worst texts.

use crate::libraries;
use crate::race::{race, Contenders};
use crate::{print, SIZES};
use antenna_tests::generate::def::pin;
use antenna_tests::generate::def::route::{points, route_of};
use antenna_tests::generate::def::text::text;
use antenna_tests::random::Random;
use antenna_tests::suite::def::long::chain;
use antenna_tests::suite::def::ENOUGH;
use std::hint::black_box;

/// Texts of nets of one size, each with pins on a fourth of its nodes, or on one.
fn texts(nodes: usize, count: usize) -> Vec<(Vec<u8>, Vec<u8>)> {
    let mut random = Random::new(nodes as u64);
    let mut texts = Vec::new();
    for _ in 0..count {
        let paths = route_of(&mut random, nodes);
        let reached = points(&paths);
        let mut pins = Vec::new();
        for _ in 0..nodes.div_ceil(4) {
            pins.extend(pin(random.pick(&reached), random.below(4) as u8));
        }
        texts.push((text(&mut random, &paths), pins));
    }
    texts
}

/// Past the first 256 nodes each point, and each pin, has the text read again.
fn worst(contenders: &Contenders<libraries::Def>) {
    const POINTS: usize = 10_000;
    let text = chain(POINTS) + " ;";
    let mut out = vec![0; ENOUGH];
    for (what, count) in [("", 0), (", 1,000 pins", 1000)] {
        // on the last nodes, so that each is found late
        let pins = (0..count).map(|k| pin(((POINTS - 1 - k) as u16, 0, 1), 1));
        let pins: Vec<u8> = pins.flatten().collect();
        let fastest = race(contenders, |call| {
            let answer = call(black_box(text.as_bytes()), 0, &pins, &[], &mut out);
            assert_eq!(answer.number, 4);
        });
        print(&format!("def, 10,000 points{what}"), 1, POINTS, fastest);
    }
}

pub fn def() {
    let contenders = Contenders::<libraries::Def>::new(1, 0, libraries::def);
    let mut out = vec![0; ENOUGH];
    for nodes in SIZES {
        let texts = texts(nodes, 50);
        let fastest = race(&contenders, |call| {
            for (text, pins) in &texts {
                assert_eq!(call(black_box(text), 0, pins, &[], &mut out).number, 0);
            }
        });
        print(&format!("def, {nodes} nodes"), texts.len(), nodes, fastest);
    }
    worst(&contenders);
}

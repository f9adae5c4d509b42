//! Random pins and obstacles on random nets: the gates and sources of each piece, and the points that are barred.

use super::case::Case;
use super::meets::{Meets, Pin};
use super::metal::{At, Metal};
use super::notes::{lost_as_noted, notes};
use super::random::{is_crowded, is_no_tree, reason};
use antenna_tests::random::Random;
use antenna_tests::reference::net::{net_of, Net};
use std::collections::{BTreeMap, BTreeSet};
use std::fs;

#[test]
fn pins_and_obstacles() {
    let mut met: BTreeMap<Meets, usize> = BTreeMap::new();
    let mut points = [0; 2];
    for seed in 0..30 {
        let case = Case::run(&mut Random::new(1000 + seed), "random-pins", None);
        for (k, (metal, pins)) in case.nets.iter().enumerate() {
            let name = format!("n{k}");
            let what = format!("{seed}: {name}");
            let file = fs::read(case.folder.join(format!("{name}.net")));
            let why = reason(&case.ran.errors, &name);
            assert_eq!(file.is_ok(), why.is_none(), "{what}");
            let wrong = why.map(|why| refused(&case, k, &why));
            for pin in pins {
                let counts = wrong.is_none() || wrong == Some(Some(pin.meets));
                *met.entry(pin.meets).or_default() += usize::from(counts);
            }
            if let Ok(file) = file {
                assert!(pins.iter().all(|pin| pin.meets < Meets::ViaUp), "{what}");
                let net = net_of(&file).unwrap();
                as_pinned(metal, pins, &net, &what);
                nodes_at_pins(&case, k, &net, &what);
                for (barred, count) in as_barred(&case, &net, &what).into_iter().enumerate() {
                    points[barred] += count;
                }
            }
        }
    }
    println!("pins {met:?}, points free and barred {points:?}");
    assert_eq!(met.len(), 5);
    assert!(met.values().all(|&count| count > 100), "{met:?}");
    assert!(points.iter().all(|&count| count > 3000), "{points:?}");
}

/// The reason fits the net, or the first pin of a kind that has none; that kind.
fn refused(case: &Case, k: usize, why: &str) -> Option<Meets> {
    let (metal, pins) = &case.nets[k];
    if !metal.is_tree() {
        assert!(is_no_tree(metal, why), "{why}");
        return None;
    }
    if is_crowded(why) {
        return None;
    }
    let first = |kind| pins.iter().position(|pin| pin.meets == kind);
    let (kind, pin, told) = match (first(Meets::ViaUp), first(Meets::Nothing)) {
        (Some(pin), _) => {
            let layer = pins[pin].at.0;
            let told = format!(
                "no wire of metal{layer} is at this pin, only a via up from a lower layer "
            );
            (Meets::ViaUp, pin, told)
        }
        (None, Some(pin)) => (Meets::Nothing, pin, format!("refused 19 {pin}: ")),
        (None, None) => panic!("{why}"),
    };
    let line = 4 * k + pin + 1;
    let told = format!("pins:{line}: net 'n{k}': {told}");
    assert!(case.ran.errors.contains(&told), "{told}");
    Some(kind)
}

/// At each stage, uncut and cut at any point, each piece has the gates and sources of the pins on it.
fn as_pinned(metal: &Metal, pins: &[Pin], net: &Net, what: &str) {
    let (written, inside) = Metal::of_net(net);
    assert_eq!(written.steps(), metal.steps(), "{what}");
    let given: Vec<(usize, u8)> = pins
        .iter()
        .map(|pin| (metal.points[&pin.at], pin.flags))
        .collect();
    let nodes = net.nodes.iter().map(|node| node.flags);
    let nodes: Vec<(usize, u8)> = nodes.enumerate().collect();
    for stage in 1..=7 {
        let ends = inside
            .iter()
            .map(|point| (point.end, metal.points[&point.at]));
        let cuts = ends.map(|(a, b)| (Some(a), Some(b)));
        for (of_net, of_metal) in cuts.chain([(None, None)]) {
            assert_eq!(
                written.flags(stage, of_net, &nodes),
                metal.flags(stage, of_metal, &given),
                "{what} at {stage}"
            );
        }
    }
}

/// A pin in the middle of a wire has a node there, and no other point is lost to jumpers.
fn nodes_at_pins(case: &Case, k: usize, net: &Net, what: &str) {
    let (metal, pins) = &case.nets[k];
    let mut points: BTreeSet<At> = metal.plain().into_keys().collect();
    points.retain(|at| pins.iter().all(|pin| pin.at != *at));
    let mut notes = notes(&case.ran.errors, &format!("n{k}"), &case.text);
    for (_, x, y) in &mut notes {
        (*x, *y) = case.grid.steps((*x, *y));
    }
    let (_, inside) = Metal::of_net(net);
    lost_as_noted(points, &inside, &notes, what);
}

/// A point is barred in the net file if and only if it is by the obstacles of the text; how many are free, how many barred.
pub fn as_barred(case: &Case, net: &Net, what: &str) -> [usize; 2] {
    let mut counts = [0; 2];
    for i in 1..net.nodes.len() {
        for t in 1..net.length(i) {
            let (x, y) = net.point(i, t);
            let barred = net.barred(i, t, 0);
            assert_eq!(barred, case.barred(x, y), "{what}: {x} {y}");
            counts[usize::from(barred)] += 1;
        }
    }
    counts
}

//! The report of a net's first nodes with the jumpers on their wires, for every number of nodes: what each wire adds, and to which record.

use super::repair::chain;
use super::report::{compare_report, needed};
use crate::generate::late::{late_case, late_shape, Case};
use crate::generate::Shape;
use crate::random::Random;
use crate::reference::report::{pieces, Piece};
use crate::Report;

type Record = [u8; 12];

/// Weight, flags without bit 2, and layers.
fn fields(record: &Record) -> (u64, u8, u16) {
    let weight = u32::from_le_bytes([record[3], record[4], record[5], record[6]]);
    let layers = u16::from_le_bytes([record[8], record[9]]);
    (weight.into(), record[7] & 3, layers)
}

/// What wire i adds to the piece of its parent: the steps above its last jumper, and its node if it has no jumper.
fn added(case: &Case, i: usize) -> (u64, u8, u16) {
    let (wire, last) = (case.net.wire(i), case.on(i).last());
    let steps = case.net.length(i) - last.map_or(0, |&(_, t)| t);
    let flags = match last {
        None => case.net.nodes[i].flags,
        Some(_) => 0,
    };
    let layers = u16::from(steps > 0) << (wire.layer - 1);
    (steps as u64 * case.net.factor(i), flags, layers)
}

/// The records of the report, in a buffer of just their length, of one byte less and of some more.
fn records(report: Report, case: &Case) -> Vec<Record> {
    let (file, list) = (case.net.file(), case.list());
    let needed = needed(case.stage, case.clearance, &file, &list);
    for (lent, number) in [(needed, 0), (needed - 1, 16), (needed + 17, 0)] {
        let answer = compare_report(
            report,
            case.stage,
            case.limit,
            case.clearance,
            &file,
            &list,
            lent,
        );
        assert_eq!(answer.number, number);
    }
    let mut out = vec![0; needed];
    report(
        case.stage,
        case.limit,
        case.clearance,
        &file,
        &list,
        &mut out,
    );
    out.as_chunks().0.to_vec()
}

/// Each record of the first nodes is that of the whole net with the same name, less what later wires add to its piece.
fn compare_with_whole(case: &Case, nodes: usize, first: &[Record], whole: &[Record]) {
    let whole = whole.iter().filter(|record| usize::from(record[0]) < nodes);
    let told = || format!("the first {nodes} nodes of {case:?}");
    assert_eq!(whole.clone().count(), first.len(), "{}", told());
    for (record, whole) in first.iter().zip(whole) {
        assert_eq!(record[..3], whole[..3], "{}", told());
        if record[1..3] != [0, 0] {
            assert_eq!(record, whole, "{}", told());
            continue;
        }
        let name = usize::from(record[0]);
        let (mut weight, mut flags, mut layers) = fields(record);
        for i in nodes..case.net.nodes.len() {
            if case.present(i) && case.lowest(case.net.parent(i)) == name {
                let (more, joined, layer) = added(case, i);
                weight += more;
                flags |= joined;
                layers |= layer;
            }
        }
        assert_eq!((weight, flags, layers), fields(whole), "{}", told());
    }
}

fn every_number_of_nodes(report: Report, case: &Case) {
    let whole = records(report, case);
    for nodes in 1..case.net.nodes.len() {
        let first = records(report, &case.first(nodes));
        compare_with_whole(case, nodes, &first, &whole);
    }
}

/// What wire i can do to the piece of its parent that is easy to get wrong.
const CHANGES: [&str; 13] = [
    "a source joins a harmful piece",
    "steps join a piece over the limit, with gate and source",
    "a gate makes a piece harmful",
    "a wire makes a piece harmful",
    "steps above a jumper make a piece harmful",
    "a via's layer is not in the piece",
    "a layer below the lowest",
    "a layer above the lowest",
    "a cut wire, its parent's piece named by another node",
    "a cut wire, its parent's piece a hundred records back",
    "a wire, its parent's piece a hundred records back",
    "the piece is that of a node whose wire is cut",
    "a hundred jumpers",
];

fn changes(case: &Case, i: usize) -> [bool; CHANGES.len()] {
    let Case { net, limit, .. } = case;
    let (parent, jumpers) = (net.parent(i), case.on(i));
    let lowest = case.lowest(parent);
    let first = case.first(i);
    let pieces = pieces(&first.net, case.stage, &first.jumpers);
    let place = pieces.iter().position(|piece| piece.name == (lowest, 0));
    let (before, back) = (&pieces[place.unwrap()], pieces.len() - place.unwrap());
    let (weight, flags, layers) = added(case, i);
    let after = Piece {
        weight: before.weight + weight,
        gate: before.gate || flags & 1 != 0,
        source: before.source || flags & 2 != 0,
        ..*before
    };
    let cut = !jumpers.is_empty();
    let becomes = !before.harmful(*limit) && after.harmful(*limit);
    let lowest_layer = before.layers & before.layers.wrapping_neg();
    let of_via = 1 << (net.wire(i).layer - 1);
    [
        before.harmful(*limit) && after.source,
        weight > 0 && before.gate && before.source && before.weight > u64::from(*limit),
        becomes && !before.gate,
        becomes && before.gate && !cut,
        becomes && cut,
        net.length(i) == 0 && before.layers & of_via == 0,
        layers != 0 && layers < lowest_layer,
        lowest_layer != 0 && before.layers & layers == 0 && layers > lowest_layer,
        cut && lowest < parent,
        cut && back > 100,
        !cut && back > 100,
        lowest > 0 && case.present(lowest),
        jumpers.len() >= 100,
    ]
}

/// Random nets; each of the changes is met often in it.
pub fn random_nets(report: Report, cases: usize) {
    let mut random = Random::new(23);
    let mut met = [0; CHANGES.len()];
    for _ in 0..cases {
        let shape = late_shape(&mut random);
        let case = late_case(&mut random, shape);
        every_number_of_nodes(report, &case);
        for i in 1..case.net.nodes.len() {
            if case.present(i) {
                for (met, change) in met.iter_mut().zip(changes(&case, i)) {
                    *met += usize::from(change);
                }
            }
        }
    }
    for (change, met) in CHANGES.iter().zip(met) {
        println!("{change}: {met}");
        assert!(met * 50 > cases, "{change}: {met} times");
    }
}

/// A wire of 65,535 steps with jumpers at all its points, and behind it wires that join pieces before its records and behind them.
pub fn longest_list(report: Report) {
    let mut net = chain(
        &[0, 65535, 65000, 64950, 64900, 64900, 40, 65530, 64890],
        &[0, 0, 0, 1, 0, 2, 1, 1, 0],
        &[],
    );
    let wires = [
        (0, 3, 1),
        (1, 2, 255),
        (2, 5, 3),
        (3, 4, 2),
        (4, 16, 1),
        (0, 1, 7),
        (1, 4, 2),
        (5, 1, 9),
    ];
    for (wire, of_wire) in net.wires.iter_mut().zip(wires) {
        (wire.parent, wire.layer, wire.factor) = of_wire;
    }
    let mut jumpers: Vec<_> = (1..65_535).map(|t| (1, t)).collect();
    jumpers.extend((1..=300).map(|t| (2, t)));
    jumpers.extend([(3, 2), (3, 49), (6, 39)]);
    // node 3's piece weighs 6, with wire 4 106, and its source comes with wire 5
    for limit in [0, 5, 6, 105, 106, u32::MAX] {
        let case = Case {
            net: net.clone(),
            stage: 16,
            limit,
            // without an obstacle none bars a point
            clearance: 65535,
            jumpers: jumpers.clone(),
        };
        every_number_of_nodes(report, &case);
    }
}

/// Thousands of jumpers on some wires of a net, none on the others.
pub fn long_lists(report: Report) {
    let mut random = Random::new(24);
    for version in [1, 2] {
        let shape = Shape {
            version,
            nodes: 60,
            longest: 1000,
            obstacles: 2,
        };
        let mut cases = std::iter::repeat_with(|| late_case(&mut random, shape));
        let case = cases.find(|case| case.jumpers.len() > 2000).unwrap();
        every_number_of_nodes(report, &case);
    }
}

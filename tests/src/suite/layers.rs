//! Versions and obstacles with a layer, by hand: what is easy to get wrong.

use super::net::{compare_read, compare_write};
use super::repair::{call as call_repair, compare as compare_repair, net_a, of_layer};
use super::report::compare_report;
use crate::generate::{jumper_list, large_case, limit, small_case};
use crate::library::REPAIR_MOST;
use crate::random::Random;
use crate::reference::net::{file, Net, Node, Wire};
use crate::reference::report::list_of;
use crate::{Answer, Read, Repair, Report, Write};

/// The calls that take a net.
#[derive(Clone, Copy)]
pub struct Calls {
    pub read: Read,
    pub write: Write,
    pub report: Report,
    pub repair: Repair,
}

/// Enough for every report of these nets.
pub const ENOUGH: usize = 12 * 64;

/// Net A in version 2, its wire and obstacles on these layers.
fn net_a_on(layer: u8, obstacles: &[(u8, [u16; 4])]) -> Net {
    let mut net = net_a(&[]);
    net.version = 2;
    net.wires[0].layer = layer;
    net.obstacles = obstacles
        .iter()
        .map(|&(layer, corners)| of_layer(layer, corners))
        .collect();
    net
}

/// The number of report's answer to one jumper, whose place is always 0.
fn jumper_at(report: Report, net: &Net, stage: u32, wire: usize, position: usize) -> u32 {
    let (file, list) = (net.file(), list_of(&[(wire, position)]));
    let answer = compare_report(report, stage, 0, 0, &file, &list, ENOUGH);
    assert_eq!(answer.place, 0);
    answer.number
}

/// The points of net A from 6 to 7 are barred or not, for report and for repair, at every stage that has the wire.
fn middle_of_a(report: Report, repair: Repair, net: &Net, barred: bool) {
    for stage in u32::from(net.wires[0].layer)..=16 {
        for position in 1..13 {
            let expected = if barred && [6, 7].contains(&position) {
                14
            } else {
                0
            };
            let number = jumper_at(report, net, stage, 1, position);
            assert_eq!(number, expected, "{net:?} stage {stage} at {position}");
        }
        let count = if barred { 2 } else { 1 };
        compare_repair(repair, net, stage, 7, 0, Some(count), true);
    }
}

/// An obstacle counts for wires whose layer is at most its own: all pairs of layers. The stage does not matter.
pub fn every_two_layers(report: Report, repair: Repair) {
    for wire in 1..=16 {
        for obstacle in 1..=16 {
            let barred = wire <= obstacle;
            let net = net_a_on(wire, &[(obstacle, [6, 0, 7, 0])]);
            middle_of_a(report, repair, &net, barred);
            // all points barred, or none
            let net = net_a_on(wire, &[(obstacle, [1, 0, 12, 0])]);
            let least = if barred { None } else { Some(1) };
            compare_repair(repair, &net, wire.into(), 12, 0, least, true);
        }
    }
}

/// A version 1 obstacle is of layer 16: it counts for every wire.
pub fn version_1_counts_for_every_wire(report: Report, repair: Repair) {
    for wire in 1..=16 {
        let mut net = net_a(&[[6, 0, 7, 0]]);
        net.wires[0].layer = wire;
        middle_of_a(report, repair, &net, true);
        let mut net = net_a(&[[1, 0, 12, 0]]);
        net.wires[0].layer = wire;
        compare_repair(repair, &net, wire.into(), 12, 0, None, true);
    }
}

/// Of several obstacles over a point one that counts is enough, wherever it stands among them.
pub fn several_over_a_point(report: Report, repair: Repair) {
    let (wide, narrow) = ([0, 0, 13, 0], [6, 0, 7, 0]);
    for (layers, barred) in [
        ([4, 4, 4], false),
        ([5, 4, 4], true),
        ([4, 5, 4], true),
        ([4, 4, 5], true),
        ([1, 16, 3], true),
    ] {
        let narrow = layers.map(|layer| (layer, narrow));
        middle_of_a(report, repair, &net_a_on(5, &narrow), barred);
        // a wider one that does not count, before them and behind
        let before = [&[(4, wide)], &narrow[..]].concat();
        middle_of_a(report, repair, &net_a_on(5, &before), barred);
        let behind = [&narrow[..], &[(4, wide)]].concat();
        middle_of_a(report, repair, &net_a_on(5, &behind), barred);
    }
}

/// Two wires that cross: the point is barred for the lower one and not for the higher.
pub fn crossing_wires(report: Report, repair: Repair) {
    let places = [(10, 0), (10, 20), (0, 0), (0, 10), (20, 10)];
    let node = |&(x, y): &(u16, u16)| Node { x, y, flags: 0 };
    let wire = |&(parent, layer): &(u8, u8)| Wire {
        parent,
        layer,
        factor: 1,
    };
    let mut net = Net {
        version: 2,
        nodes: places.iter().map(node).collect(),
        wires: [(0, 2), (0, 1), (2, 1), (3, 3)].iter().map(wire).collect(),
        obstacles: Vec::new(),
    };
    for (layer, upright, level) in [(1, 0, 0), (2, 14, 0), (3, 14, 14)] {
        net.obstacles = vec![of_layer(layer, [10, 10, 10, 10])];
        assert_eq!(jumper_at(report, &net, 16, 1, 10), upright);
        assert_eq!(jumper_at(report, &net, 16, 4, 10), level);
    }
    // gates at the crossing wires' far ends: each wire can only be cut where they cross
    net.nodes[1].flags = 1;
    net.nodes[4].flags = 1;
    for (layer, least) in [(1, Some(2)), (2, None), (3, None)] {
        net.obstacles = vec![
            of_layer(16, [10, 0, 10, 9]),
            of_layer(16, [10, 11, 10, 20]),
            of_layer(16, [0, 10, 9, 10]),
            of_layer(16, [11, 10, 20, 10]),
            of_layer(layer, [10, 10, 10, 10]),
        ];
        compare_repair(repair, &net, 16, 10, 0, least, true);
    }
    // the lower wire is absent from stage 1, the higher one from stage 2
    net.obstacles = vec![of_layer(2, [0, 0, 20, 20])];
    for (stage, upright, level) in [(1, 13, 13), (2, 14, 13), (3, 14, 0)] {
        assert_eq!(jumper_at(report, &net, stage, 1, 10), upright);
        assert_eq!(jumper_at(report, &net, stage, 4, 10), level);
    }
}

/// A version 1 net and the version 2 net of the same obstacles on layer 16 have the same report, and the same answer of repair.
pub fn all_on_layer_16(report: Report, repair: Repair, cases: usize) {
    let mut random = Random::new(41);
    let (mut met, mut made) = ([0usize; 17], 0);
    while made < cases {
        let (one, stage, _, clearance) = match made % 20 {
            0 => large_case(&mut random),
            _ => small_case(&mut random, 40),
        };
        if one.version != 1 {
            continue;
        }
        let limit = limit(&mut random, &one);
        let list = jumper_list(&mut random, &one, stage, clearance);
        let two = Net {
            version: 2,
            ..one.clone()
        };
        let files = [one.file(), two.file()];
        let reports = files.each_ref().map(|file| {
            let mut out = vec![0x5a; 12 * 2048];
            (report(stage, limit, clearance, file, &list, &mut out), out)
        });
        let told = || format!("{one:?} {stage} {limit} {clearance} {list:?}");
        assert!(reports[0] == reports[1], "{}", told());
        met[reports[0].0.number as usize] += 1;
        let repairs = files
            .each_ref()
            .map(|file| call_repair(repair, stage, limit, clearance, file, REPAIR_MOST).0);
        assert_eq!(repairs[0], repairs[1], "{}", told());
        met[repairs[0].number as usize] += 1;
        made += 1;
    }
    println!("all on layer 16, answers by number: {met:?}");
    assert!([0, 14, 15].iter().all(|&number| met[number] * 50 > cases));
}

/// Report and repair agree on what is barred: a set that repair writes is accepted by report, and leaves no piece harmful.
pub fn repaired_is_reported(report: Report, repair: Repair, cases: usize) {
    let mut random = Random::new(42);
    let (mut with_jumpers, mut with_clearance) = ([0usize; 2], 0);
    for case in 0..cases {
        let (net, stage, limit, clearance) = match case % 10 {
            0 => large_case(&mut random),
            _ => small_case(&mut random, 40),
        };
        let file = net.file();
        let (answer, set) = call_repair(repair, stage, limit, clearance, &file, REPAIR_MOST);
        if answer.number != 0 {
            continue;
        }
        let mut out = vec![0; 12 * 1024];
        let reported = report(stage, limit, clearance, &file, &list_of(&set), &mut out);
        let told =
            || format!("{net:?} stage {stage} limit {limit} clearance {clearance} set {set:?}");
        assert_eq!(reported.number, 0, "{}", told());
        let mut records = out.chunks(12).take(reported.count as usize);
        assert!(records.all(|record| record[7] < 4), "{}", told());
        with_jumpers[net.version as usize - 1] += usize::from(!set.is_empty());
        with_clearance += usize::from(!set.is_empty() && clearance > 0);
    }
    println!("sets with jumpers by version: {with_jumpers:?}, with a clearance: {with_clearance}");
    assert!(with_clearance * 20 > cases);
    assert!(with_jumpers.iter().all(|&met| met * 20 > cases));
}

/// A net of two nodes with these obstacle bytes, as sections.
fn with_obstacles(obstacles: Vec<u8>) -> [Vec<u8>; 3] {
    let net = net_a(&[]);
    [net.node_section(), net.wire_section(), obstacles]
}

/// All four calls refuse these obstacles of version 2, before anything that they try later.
fn all_refuse(calls: Calls, obstacles: Vec<u8>, number: u32, place: usize) {
    let expected = Answer::refused(number, place);
    let sections = with_obstacles(obstacles);
    let [nodes, wires, obstacles] = &sections;
    let file = file(2, nodes, wires, obstacles);
    assert_eq!(compare_read(calls.read, &file), expected);
    for lent in [0, file.len()] {
        assert_eq!(compare_write(calls.write, 2, &sections, lent), expected);
        // a list cut short, of no wire, and none
        for list in [&[1][..], &[9, 9, 9], &[]] {
            let answer = compare_report(calls.report, 1, 0, 0, &file, list, lent);
            assert_eq!(answer, expected);
        }
        // no legal set, and one of no jumper
        for limit in [0, 13] {
            let (answer, _) = call_repair(calls.repair, 1, limit, 0, &file, lent);
            assert_eq!(answer, expected);
        }
    }
}

/// A record's 11 comes before its 20, and its 20 before the next record's 11: all cases of three records.
pub fn corners_and_layers_in_order(calls: Calls) {
    let kinds = |k: usize| (k & 1 == 1, k & 2 == 2);
    for all in 1..64 {
        let mut bytes = Vec::new();
        let mut first = None;
        for k in 0..3 {
            let (reversed, out) = kinds(all >> (2 * k));
            let corners = if reversed {
                [0, 0, 7, 0, 9, 0, 6, 0]
            } else {
                [0, 0, 7, 0, 9, 0, 7, 0]
            };
            bytes.extend(corners);
            bytes.push(if out { 17 } else { 16 });
            if reversed || out {
                first = first.or(Some((if reversed { 11 } else { 20 }, k)));
            }
        }
        let (number, place) = first.unwrap();
        all_refuse(calls, bytes, number, place);
    }
}

/// Layers 1 to 16 are taken, all others refused by 20 at the obstacle, the last of 256 too.
pub fn layers_in_range(calls: Calls) {
    for (count, place) in [(1, 0), (2, 0), (2, 1), (256, 0), (256, 255)] {
        for layer in 0..=255 {
            let mut obstacles = [0, 0, 0, 0, 0, 0, 0, 0, 1].repeat(count);
            obstacles[9 * place + 8] = layer;
            if (1..=16).contains(&layer) {
                let sections = with_obstacles(obstacles);
                let [nodes, wires, obstacles] = &sections;
                let file = file(2, nodes, wires, obstacles);
                assert_eq!(compare_read(calls.read, &file), Answer::done(2));
                let answer = compare_write(calls.write, 2, &sections, file.len());
                assert_eq!(answer, Answer::done(file.len()));
            } else {
                all_refuse(calls, obstacles, 20, place);
            }
        }
    }
}

/// 6: eights in version 1, nines in version 2, at most 256. Bytes of 1 make good obstacles in either.
pub fn section_lengths(read: Read, write: Write) {
    let near = |end: usize| end.saturating_sub(20)..end + 20;
    let lengths = (0..200).chain(near(8 * 256)).chain(near(9 * 256));
    for length in lengths {
        let sections = with_obstacles(vec![1; length]);
        let [nodes, wires, obstacles] = &sections;
        for (version, width) in [(1, 8), (2, 9)] {
            let good = length % width == 0 && length <= 256 * width;
            let number = if good { 0 } else { 6 };
            let file = file(version, nodes, wires, obstacles);
            assert_eq!(compare_read(read, &file).number, number);
            let answer = compare_write(write, version, &sections, file.len());
            assert_eq!((answer.number, answer.place), (number, 0), "{length}");
        }
    }
}

/// The writer tries 2 on all 32 bits of the version, before the sections and the buffer.
pub fn versions_of_the_writer(write: Write) {
    let empty = [Vec::new(), Vec::new(), Vec::new()];
    let sections = [
        with_obstacles(vec![1; 8]),
        with_obstacles(vec![1; 9]),
        with_obstacles(vec![1; 72]),
        with_obstacles(Vec::new()),
        empty,
    ];
    let high = (2..32).flat_map(|bit| [0, 1, 2].map(|version| version + (1 << bit)));
    let wrong = [0, 3, 65_537, 65_538, u32::MAX, u32::MAX - 1];
    for version in wrong.into_iter().chain(high) {
        for sections in &sections {
            for lent in [0, 200] {
                let answer = compare_write(write, version, sections, lent);
                assert_eq!(answer, Answer::refused(2, 0), "version {version}");
            }
        }
    }
}

/// The reader takes versions 1 and 2, of all that 16 bits can name, and tries them with the pair count.
pub fn versions_of_the_reader(read: Read) {
    let [nodes, wires, obstacles] = &with_obstacles(vec![1; 72]);
    for version in 0..=u32::from(u16::MAX) {
        let mut file = file(version, nodes, wires, obstacles);
        let number = if [1, 2].contains(&version) { 0 } else { 2 };
        assert_eq!(compare_read(read, &file).number, number, "{version}");
        file[2] = 2;
        assert_eq!(compare_read(read, &file).number, 2, "{version}");
    }
}

/// Two files byte by byte: the same net without obstacles has another file in each version, and an obstacle ends with its layer.
pub fn whole_files(read: Read, write: Write) {
    let nodes = [0, 0, 0, 0, 1, 13, 0, 0, 0, 1];
    let wires = [0, 5, 1];
    for version in [1, 2] {
        let empty = [
            version, 0, 3, 0, // version, three pairs
            28, 0, 0, 0, 10, 0, 0, 0, // two nodes
            38, 0, 0, 0, 3, 0, 0, 0, // a wire
            41, 0, 0, 0, 0, 0, 0, 0, // no obstacle
            0, 0, 0, 0, 1, 13, 0, 0, 0, 1, //
            0, 5, 1, //
        ];
        let mut out = [0xee; 41];
        let answer = write(version.into(), &nodes, &wires, &[], &mut out);
        assert_eq!(answer, Answer::done(41));
        assert_eq!(out, empty);
        assert_eq!(compare_read(read, &out), Answer::done(2));
    }
    let layered = [
        2, 0, 3, 0, // version 2, three pairs
        28, 0, 0, 0, 10, 0, 0, 0, // two nodes
        38, 0, 0, 0, 3, 0, 0, 0, // a wire
        41, 0, 0, 0, 18, 0, 0, 0, // two obstacles
        0, 0, 0, 0, 1, 13, 0, 0, 0, 1, //
        0, 5, 1, //
        6, 0, 0, 0, 7, 0, 0, 0, 4, // below the wire
        1, 0, 0, 0, 44, 1, 0, 0, 5, // on its layer
        0xee, 0xee, // as they were
    ];
    let mut out = [0xee; 61];
    let answer = write(2, &nodes, &wires, &layered[41..59], &mut out);
    assert_eq!(answer, Answer::done(59));
    assert_eq!(out, layered);
    assert_eq!(compare_read(read, &out[..59]), Answer::done(2));
}

/// A power strap below a wire does not hinder a jumper, and one above does: a chain of wires on rising layers under one strap.
pub fn straps(report: Report, repair: Repair) {
    let node = |i: u16| Node {
        x: 10 * i,
        y: 0,
        flags: u8::from(i == 0 || i == 16),
    };
    let wire = |i: u8| Wire {
        parent: i - 1,
        layer: i,
        factor: 1,
    };
    for layer in 1..=16u8 {
        let net = Net {
            version: 2,
            nodes: (0..=16).map(node).collect(),
            wires: (1..=16).map(wire).collect(),
            obstacles: vec![of_layer(layer, [0, 0, 160, 0])],
        };
        for i in 1..=16 {
            let expected = if i <= usize::from(layer) { 14 } else { 0 };
            assert_eq!(jumper_at(report, &net, 16, i, 5), expected);
        }
        // the piece of node 0 has the wires under the strap, and a step more
        let least = match layer {
            1..=7 => [None, Some(2), Some(1)],
            8..=15 => [None, Some(1), Some(1)],
            _ => [Some(0), Some(0), None],
        };
        let under = 10 * u32::from(layer);
        for (limit, least) in [under, under + 1, 159].into_iter().zip(least) {
            compare_repair(repair, &net, 16, limit, 0, least, true);
        }
    }
}

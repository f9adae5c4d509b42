//! Repair: refusals 1 to 11 and 20, 15, 16; a smallest legal set, every byte behind it untouched.

use super::met::{version_of, Met};
use crate::generate::obstacle::on_layers;
use crate::generate::{any_file, large_case, net, small_case, Shape};
use crate::library::REPAIR_MOST;
use crate::random::Random;
use crate::reference::net::{read as expected_read, Net, Node, Obstacle, Wire};
use crate::reference::report::{legal, Point};
use crate::reference::{repair as every_set, table};
use crate::{Answer, Repair};

/// A call with this many bytes lent: its answer, and its set where it has one. Every byte that is not the list is untouched.
pub fn call(
    repair: Repair,
    stage: u32,
    limit: u32,
    clearance: u16,
    file: &[u8],
    lent: usize,
) -> (Answer, Vec<Point>) {
    let before: Vec<u8> = (0..lent).map(|k| (k * 13 + 3) as u8).collect();
    let mut out = before.clone();
    let answer = repair(stage, limit, clearance, file, &mut out);
    let end = 3 * answer.count as usize;
    assert!(end <= lent, "{answer:?} with {lent} bytes lent");
    assert!(out[end..] == before[end..], "bytes behind the list changed");
    let set = out[..end]
        .chunks(3)
        .map(|b| (b[0] as usize, b[1] as usize + 256 * b[2] as usize))
        .collect();
    (answer, set)
}

/// A net whose least count is known: the answer, with every length of buffer up to the need if `every`.
pub fn compare(
    repair: Repair,
    net: &Net,
    stage: u32,
    limit: u32,
    clearance: u16,
    least: Option<usize>,
    every: bool,
) {
    let file = net.file();
    let told = || format!("{net:?} stage {stage} limit {limit} clearance {clearance}");
    let Some(count) = least else {
        for lent in [0, 1, 3, REPAIR_MOST] {
            let (answer, _) = call(repair, stage, limit, clearance, &file, lent);
            assert_eq!(answer, Answer::refused(15, 0), "{}", told());
        }
        return;
    };
    let needed = 3 * count;
    let short = if every { 0 } else { needed.saturating_sub(1) };
    for lent in short..needed {
        let (answer, _) = call(repair, stage, limit, clearance, &file, lent);
        assert_eq!(answer, Answer::refused(16, needed), "{}", told());
    }
    for lent in [needed, needed + 4] {
        let (answer, set) = call(repair, stage, limit, clearance, &file, lent);
        assert_eq!(answer, Answer::done(count), "{}", told());
        assert!(
            set.windows(2).all(|w| w[0] < w[1]),
            "{set:?} does not rise: {}",
            told()
        );
        assert!(
            legal(net, stage, limit, clearance, &set),
            "{set:?} is not legal: {}",
            told()
        );
    }
}

/// Small nets against every set. The least count often is another without the clearance; in version 2 it often is if layers are ignored,
/// and if an equal layer does not count.
pub fn small_nets(repair: Repair, cases: usize) {
    let mut random = Random::new(30);
    let mut counts = [[0usize; 16]; 2];
    let mut refused = [0; 2];
    let (mut by_clearance, mut by_layer, mut by_equal) = (0, 0, 0);
    for _ in 0..cases {
        let (net, stage, limit, clearance) = small_case(&mut random, 11);
        let least = every_set::least(&net, stage, limit, clearance);
        compare(repair, &net, stage, limit, clearance, least, true);
        let version = net.version as usize - 1;
        match least {
            None => refused[version] += 1,
            Some(count) => counts[version][count] += 1,
        }
        by_clearance += usize::from(table::least(&net, stage, limit, 0) != least);
        if version == 1 {
            let least_of = |net: Net| table::least(&net, stage, limit, clearance);
            by_layer += usize::from(least_of(on_layers(&net, |_| 16)) != least);
            by_equal += usize::from(least_of(on_layers(&net, |layer| layer - 1)) != least);
        }
    }
    println!("refused {refused:?}, by count {counts:?}");
    println!(
        "another by clearance {by_clearance}, by layer {by_layer}, by an equal layer {by_equal}"
    );
    for (refused, counts) in refused.into_iter().zip(counts) {
        assert!(refused * 20 > cases && counts[0] * 20 > cases && counts[1] * 40 > cases);
        assert!(counts[2] * 200 > cases && counts[3] * 2000 > cases);
    }
    let another = [by_clearance, by_layer, by_equal];
    assert!(another.iter().all(|met| met * 100 > cases));
}

/// Nets of 100 to 256 nodes against the table over node and jumper count.
pub fn large_nets(repair: Repair, cases: usize) {
    let mut random = Random::new(31);
    let mut refused = 0;
    let mut some = 0;
    let mut most = 0;
    for _ in 0..cases {
        let (net, stage, limit, clearance) = large_case(&mut random);
        let least = table::least(&net, stage, limit, clearance);
        compare(repair, &net, stage, limit, clearance, least, false);
        match least {
            None => refused += 1,
            Some(count) => {
                some += usize::from(count > 0);
                most = most.max(count);
            }
        }
    }
    println!("refused {refused}, with jumpers {some}, most {most}");
    assert!(refused * 10 > cases && some * 10 > cases && most > 150);
}

/// Stages outside 1 to 16 and damaged files: the first refusal, as reading has it.
pub fn refusals_in_order(repair: Repair, cases: usize) {
    let mut random = Random::new(32);
    let mut met = Met::default();
    for _ in 0..cases {
        let file = any_file(&mut random);
        let stage = random.pick(&[0, 1, 2, 3, 16, 17, 256, 257, u32::MAX]);
        let limit = random.next() as u32 >> random.pick(&[0, 22, 25, 28]);
        let clearance = random.pick(&[0, 0, 1, 300, 65535]);
        let lent = random.pick(&[0, 0, 1, 2, 20]);
        let (answer, _) = call(repair, stage, limit, clearance, &file, lent);
        let read = expected_read(&file);
        if !(1..=16).contains(&stage) {
            assert_eq!(answer, Answer::refused(1, 0));
        } else if read.number != 0 {
            assert_eq!(answer, read);
        } else {
            assert!([0, 15, 16].contains(&answer.number));
        }
        met.add(version_of(&file), answer.number);
    }
    println!("repair answers by number: {met:?}");
    let mut numbers: Vec<usize> = (0..=11).chain([15, 16]).collect();
    met.often(0, &[1, 2], 10_000, cases);
    met.often(1, &numbers, 2000, cases);
    numbers.push(20);
    met.often(2, &numbers, 2000, cases);
}

/// An obstacle of a layer.
pub fn of_layer(layer: u8, [x1, y1, x2, y2]: [u16; 4]) -> Obstacle {
    Obstacle {
        x1,
        y1,
        x2,
        y2,
        layer,
    }
}

/// A chain of nodes along the x axis from 0 on, one wire between two neighbours.
pub fn chain(xs: &[u16], flags: &[u8], obstacles: &[[u16; 4]]) -> Net {
    Net {
        version: 1,
        nodes: xs
            .iter()
            .zip(flags)
            .map(|(&x, &flags)| Node { x, y: 0, flags })
            .collect(),
        wires: (1..xs.len())
            .map(|i| Wire {
                parent: i as u8 - 1,
                layer: 1,
                factor: 1,
            })
            .collect(),
        obstacles: obstacles
            .iter()
            .map(|&corners| of_layer(16, corners))
            .collect(),
    }
}

/// Net A of document 01.
pub fn net_a(obstacles: &[[u16; 4]]) -> Net {
    chain(&[0, 13], &[1, 1], obstacles)
}

/// Net J of document 01, turned by quarter turns.
pub fn net_j(turns: u32) -> Net {
    let places = [(10, 0), (10, 10), (10, 20), (0, 10), (20, 10)];
    let parents = [0, 1, 1, 1];
    let factors = [1, 1, 3, 3];
    let turned =
        |(x, y): (u16, u16)| -> (u16, u16) { (0..turns).fold((x, y), |(x, y), _| (20 - y, x)) };
    Net {
        version: 1,
        nodes: places
            .iter()
            .enumerate()
            .map(|(i, &place)| {
                let (x, y) = turned(place);
                Node {
                    x,
                    y,
                    flags: u8::from(i == 2),
                }
            })
            .collect(),
        wires: (0..4)
            .map(|k| Wire {
                parent: parents[k],
                layer: 1,
                factor: factors[k],
            })
            .collect(),
        obstacles: Vec::new(),
    }
}

/// Net C of document 01.
pub fn net_c() -> Net {
    chain(&[0, 4, 8, 12], &[1, 0, 0, 0], &[[0, 0, 12, 0]])
}

/// The smallest set is one of these, and each of these is one.
fn one_of(repair: Repair, net: &Net, limit: u32, sets: &[&[Point]]) {
    let least = every_set::least(net, 1, limit, 0);
    assert_eq!(least, sets.first().map(|set| set.len()));
    compare(repair, net, 1, limit, 0, least, true);
    if least.is_some() {
        let mut expected: Vec<Vec<Point>> = sets.iter().map(|set| set.to_vec()).collect();
        let mut found = every_set::smallest_sets(net, 1, limit, 0);
        expected.sort();
        found.sort();
        assert_eq!(found, expected);
        let (_, set) = call(repair, 1, limit, 0, &net.file(), REPAIR_MOST);
        assert!(expected.contains(&set), "{set:?} at limit {limit}");
    }
}

/// The count alone.
fn count_is(repair: Repair, net: &Net, limit: u32, count: usize) {
    assert_eq!(every_set::least(net, 1, limit, 0), Some(count));
    compare(repair, net, 1, limit, 0, Some(count), true);
}

/// "Small nets" of document 01.
pub fn named_nets(repair: Repair) {
    let a = net_a(&[]);
    one_of(repair, &a, 13, &[&[]]);
    count_is(repair, &a, 12, 1);
    one_of(repair, &a, 7, &[&[(1, 6)], &[(1, 7)]]);
    count_is(repair, &a, 6, 2);
    one_of(repair, &a, 1, &[&[(1, 1), (1, 12)]]);
    one_of(repair, &a, 0, &[]);
    one_of(repair, &net_a(&[[6, 0, 6, 0]]), 7, &[&[(1, 6)]]);
    one_of(repair, &net_a(&[[7, 0, 7, 0]]), 7, &[&[(1, 7)]]);
    count_is(repair, &net_a(&[[6, 0, 7, 0]]), 7, 2);
    one_of(repair, &net_a(&[[1, 0, 6, 0]]), 7, &[&[(1, 6)]]);
    one_of(repair, &net_a(&[[1, 0, 6, 0]]), 6, &[]);
    one_of(repair, &chain(&[0, 13], &[1, 0], &[]), 1, &[&[(1, 12)]]);
    one_of(repair, &chain(&[0, 13], &[1, 3], &[]), 0, &[&[]]);
    let mut second = net_a(&[]);
    second.wires[0].layer = 2;
    one_of(repair, &second, 0, &[&[]]);
    for turns in 0..4 {
        let j = net_j(turns);
        assert_eq!(every_set_on_wire(&j, 20), vec![2]);
        compare(repair, &j, 1, 20, 0, Some(1), true);
        let (_, set) = call(repair, 1, 20, 0, &j.file(), 3);
        assert_eq!(set[0].0, 2);
    }
    let c = net_c();
    one_of(repair, &c, 10, &[]);
    one_of(repair, &c, 11, &[]);
    one_of(repair, &c, 12, &[&[]]);
    let (answer, _) = call(repair, 1, 1, 0, &a.file(), 5);
    assert_eq!(answer, Answer::refused(16, 6));
}

/// The wires on which a single jumper is legal.
fn every_set_on_wire(net: &Net, limit: u32) -> Vec<usize> {
    let mut wires: Vec<usize> = (1..net.nodes.len())
        .filter(|&i| (1..net.length(i)).any(|t| legal(net, 1, limit, 0, &[(i, t)])))
        .collect();
    wires.dedup();
    wires
}

/// "Shortcuts that go wrong" of document 01, each as a net that would expose it.
pub fn shortcuts(repair: Repair) {
    // the largest arms cut where the gate's arm was enough; a piece without a gate may be as heavy as it likes
    for turns in 0..4 {
        compare(repair, &net_j(turns), 1, 20, 0, Some(1), true);
    }
    // net J with every place of the gate, also as a junction inside a larger net
    for gate in 0..5 {
        let mut j = net_j(0);
        for node in &mut j.nodes {
            node.flags = 0;
        }
        j.nodes[gate].flags = 1;
        for wire in &mut j.wires {
            wire.factor = 1;
        }
        for limit in 0..=40 {
            let least = table::least(&j, 1, limit, 0);
            compare(repair, &j, 1, limit, 0, least, true);
        }
    }
    // the barred weight round each single node
    one_of(repair, &net_c(), 10, &[]);
    // a plain node may go over
    let plain = chain(&[0, 3, 40, 44, 80], &[1, 0, 0, 0, 0], &[[4, 0, 80, 0]]);
    compare(repair, &plain, 1, 2, 0, Some(1), true);
    // a cut at distance 0: the nearest is one step off, and that step stays
    one_of(repair, &net_a(&[]), 0, &[]);
    one_of(repair, &chain(&[0, 13, 14], &[0, 1, 0], &[]), 1, &[]);
    one_of(
        repair,
        &chain(&[0, 13, 14], &[0, 1, 0], &[]),
        2,
        &[&[(1, 1)]],
    );
    // a source's piece is not harmful, the others are
    one_of(repair, &chain(&[0, 13, 20], &[1, 3, 0], &[]), 0, &[&[]]);
    let mut two = chain(&[0, 13, 13, 26], &[2, 1, 1, 0], &[]);
    two.wires[1].layer = 2;
    one_of(repair, &two, 1, &[&[(3, 12)]]);
    // a whole wire skipped over because its middle is barred
    one_of(repair, &net_a(&[[2, 0, 11, 0]]), 1, &[&[(1, 1), (1, 12)]]);
    count_is(repair, &net_a(&[[2, 0, 11, 0]]), 12, 1);
}

/// Deep, wide and heavily barred nets with the longest wires; milliseconds of the slowest.
pub fn worst_nets(repair: Repair) -> f64 {
    let mut slowest = 0.0f64;
    for (_, net) in worst() {
        let file = net.file();
        let total = net.total_weight();
        for limit in [0, 1, 255, 65535, total / 200, total / 7, total / 2, total] {
            for clearance in [0, 1] {
                let mut out = vec![0; REPAIR_MOST];
                let start = std::time::Instant::now();
                repair(16, limit as u32, clearance, &file, &mut out);
                slowest = slowest.max(start.elapsed().as_secs_f64() * 1000.0);
            }
        }
    }
    slowest
}

/// Nets that are hard on time: a star of 255 arms, chains of 255, 256 obstacles over every wire, lengths of 65,535.
pub fn worst() -> Vec<(&'static str, Net)> {
    let star = |length: u16, obstacles: Vec<Obstacle>| -> Net {
        Net {
            version: 1,
            nodes: (0..256)
                .map(|i| Node {
                    x: if i == 0 { 0 } else { length - (i % 7) as u16 },
                    y: 0,
                    flags: u8::from(i % 3 == 0),
                })
                .collect(),
            wires: (1..256)
                .map(|i| Wire {
                    parent: 0,
                    layer: 1,
                    factor: (i % 5) as u8 + 1,
                })
                .collect(),
            obstacles,
        }
    };
    let to_and_fro = |obstacles: Vec<Obstacle>| -> Net {
        Net {
            version: 1,
            nodes: (0..256)
                .map(|i| Node {
                    x: if i % 2 == 0 { 0 } else { 65535 },
                    y: 0,
                    flags: u8::from(i % 2 == 0),
                })
                .collect(),
            wires: (1..256)
                .map(|i| Wire {
                    parent: (i - 1) as u8,
                    layer: 1,
                    factor: (i % 255) as u8 + 1,
                })
                .collect(),
            obstacles,
        }
    };
    // stretches side by side, in an order that makes each scan end late
    let comb = |from: u16, width: u16, gap: u16| -> Vec<Obstacle> {
        (0..256u32)
            .rev()
            .map(|k| {
                let x1 = (from as u32 + k * (width as u32 + gap as u32)).min(65535) as u16;
                of_layer(16, [x1, 0, x1.saturating_add(width - 1), 0])
            })
            .collect()
    };
    let mut turned = comb(1, 250, 0);
    turned.reverse();
    // version 2: layers 1 and 3 take turns, and every wire is of layer 2
    let layered = |mut net: Net| -> Net {
        net.version = 2;
        for wire in &mut net.wires {
            wire.layer = 2;
        }
        for (k, obstacle) in net.obstacles.iter_mut().enumerate() {
            obstacle.layer = if k % 2 == 0 { 1 } else { 3 };
        }
        net
    };
    vec![
        ("star, no obstacle", star(65535, Vec::new())),
        (
            "star, barred but for its ends",
            star(65535, comb(1, 250, 0)),
        ),
        (
            "star, barred but for its ends, turned",
            star(65535, turned.clone()),
        ),
        (
            "star, open at every 101st step",
            star(40000, comb(1, 100, 1)),
        ),
        ("chain, no obstacle", to_and_fro(Vec::new())),
        (
            "chain, barred but for its ends",
            to_and_fro(comb(1, 250, 0)),
        ),
        ("chain, barred but for its ends, turned", to_and_fro(turned)),
        (
            "chain, open at every 255th step",
            to_and_fro(comb(1, 254, 1)),
        ),
        (
            "star, every second obstacle counts",
            layered(star(65535, comb(1, 250, 0))),
        ),
        (
            "chain, every second obstacle counts",
            layered(to_and_fro(comb(1, 250, 0))),
        ),
    ]
}

/// The worst nets give the table's answers. The wires are shortened for the table, which looks at every point.
pub fn worst_nets_are_right(repair: Repair) {
    let mut random = Random::new(33);
    for (nodes, obstacles) in [(256, 0), (256, 256), (64, 256)] {
        for k in 0..20 {
            let shape = Shape {
                version: 1 + k % 2,
                nodes,
                longest: 300,
                obstacles,
            };
            let net = net(&mut random, shape);
            let total = net.total_weight();
            let limit = (total / random.range(2, 40)) as u32;
            let clearance = random.pick(&[0, 0, 1, 2]);
            let least = table::least(&net, 16, limit, clearance);
            compare(repair, &net, 16, limit, clearance, least, false);
        }
    }
}

//! The report: refusals 1 to 14, 16 and 20, every record, every byte behind the last.

use super::met::{version_of, Met};
use crate::generate::clearance::clearance;
use crate::generate::obstacle::on_layers;
use crate::generate::{any_file, any_net, jumper_list, limit, net, stage, version, Shape};
use crate::random::Random;
use crate::reference::net::{net_of, Net};
use crate::reference::report::{free_points, list_of, report as expected_report, Point};
use crate::{Answer, Report};

/// The report with this many bytes lent.
pub fn compare_report(
    report: Report,
    stage: u32,
    limit: u32,
    clearance: u16,
    file: &[u8],
    list: &[u8],
    lent: usize,
) -> Answer {
    let before: Vec<u8> = (0..lent).map(|k| (k * 11 + 5) as u8).collect();
    let (mut out, mut expected_out) = (before.clone(), before);
    let expected = expected_report(stage, limit, clearance, file, list, &mut expected_out);
    let told = || {
        format!("stage {stage} limit {limit} clearance {clearance} file {file:?} list {list:?} lent {lent}")
    };
    let answer = report(stage, limit, clearance, file, list, &mut out);
    assert_eq!(answer, expected, "{}", told());
    assert!(
        out == expected_out,
        "bytes differ: {}\n{out:?}\n{expected_out:?}",
        told()
    );
    expected
}

/// The bytes a report of this list needs, if it is accepted.
pub fn needed(stage: u32, clearance: u16, file: &[u8], list: &[u8]) -> usize {
    let answer = expected_report(stage, 0, clearance, file, list, &mut []);
    answer.place as usize
}

fn random_net(random: &mut Random) -> Net {
    if random.chance(1, 40) {
        let shape = Shape {
            version: version(random),
            nodes: random.range(1, 256) as usize,
            longest: 20,
            obstacles: random.below(257) as usize,
        };
        net(random, shape)
    } else {
        any_net(random)
    }
}

/// The answer would be another if every obstacle counted for every wire.
fn layers_matter(stage: u32, clearance: u16, file: &[u8], list: &[u8], answer: Answer) -> bool {
    let Ok(net) = net_of(file) else {
        return false;
    };
    let file = on_layers(&net, |_| 16).file();
    expected_report(stage, 0, clearance, &file, list, &mut []).number == 14 && answer.number != 14
}

/// The answer is 14, and another without the clearance.
fn clearance_matters(stage: u32, file: &[u8], list: &[u8], answer: Answer) -> bool {
    answer.number == 14 && expected_report(stage, 0, 0, file, list, &mut []) != answer
}

/// What a call of report takes.
pub struct Call {
    pub stage: u32,
    pub limit: u32,
    pub clearance: u16,
    pub file: Vec<u8>,
    pub list: Vec<u8>,
    pub lent: usize,
}

/// A net or a damaged file, a list good or damaged, a buffer near the need.
pub fn random_call(random: &mut Random) -> Call {
    let net = random_net(random);
    let mut stage = stage(random, &net);
    let limit = limit(random, &net);
    let clearance = clearance(random, &net);
    let list = jumper_list(random, &net, stage, clearance);
    let mut file = net.file();
    if random.chance(1, 8) {
        file = any_file(random);
    }
    if random.chance(1, 25) {
        stage = random.pick(&[0, 17, 255, 256, 257, u32::MAX]);
    }
    let needed = needed(stage, clearance, &file, &list);
    let lent = match random.below(8) {
        0 => 0,
        1 => needed.saturating_sub(1),
        2 => needed.saturating_sub(12),
        3 => random.below(needed as u64 + 1) as usize,
        4 | 5 => needed,
        _ => needed + random.below(30) as usize,
    };
    Call {
        stage,
        limit,
        clearance,
        file,
        list,
        lent,
    }
}

/// Random calls; every refusal that a version can meet is met often in it.
pub fn random_calls(report: Report, cases: usize) {
    let mut random = Random::new(20);
    let (mut met, mut by_layer, mut by_clearance) = (Met::default(), 0, 0);
    for _ in 0..cases {
        let Call {
            stage,
            limit,
            clearance,
            file,
            list,
            lent,
        } = random_call(&mut random);
        let answer = compare_report(report, stage, limit, clearance, &file, &list, lent);
        met.add(version_of(&file), answer.number);
        by_layer += usize::from(layers_matter(stage, clearance, &file, &list, answer));
        by_clearance += usize::from(clearance_matters(stage, &file, &list, answer));
    }
    println!("report answers by number: {met:?}");
    println!("not 14 by a layer: {by_layer}, 14 by the clearance: {by_clearance}");
    let mut numbers: Vec<usize> = (0..=14).chain([16]).collect();
    met.often(0, &[1, 2], 10_000, cases);
    met.often(1, &numbers, 2000, cases);
    numbers.push(20);
    met.often(2, &numbers, 2000, cases);
    assert!(by_layer * 100 > cases && by_clearance * 100 > cases);
}

/// An entry that is refused behind the entry before, in the place of another, and the number that it is refused by.
fn wrong_entry(
    random: &mut Random,
    net: &Net,
    stage: u32,
    clearance: u16,
    before: Point,
    (i, t): Point,
    kind: usize,
) -> Option<(Point, u32)> {
    let least = if before.0 == i { before.1 + 1 } else { 1 };
    let nodes = net.nodes.len();
    let (entry, number) = match kind {
        0 => (before, 12),
        1 => ((before.0, random.below(before.1 as u64) as usize), 12),
        2 => ((random.below(before.0 as u64) as usize, t), 12),
        3 => ((i, 0), if before.0 == i { 12 } else { 13 }),
        4 => ((i, net.length(i)), 13),
        5 => ((i, random.range(net.length(i) as u64, 65535) as usize), 13),
        6 => (
            ((before.0..nodes).find(|&i| !net.present(stage, i))?, t),
            13,
        ),
        7 => ((random.range(nodes as u64, 255) as usize, t), 13),
        _ => {
            let barred = |&t: &usize| net.barred(i, t, clearance);
            ((i, (least..net.length(i)).find(barred)?), 14)
        }
    };
    Some((entry, number))
}

/// Lists of many entries on many wires, in which one entry is wrong: each way to be wrong, and which number and place it is answered by.
pub fn one_wrong_entry(report: Report, cases: usize) {
    let mut random = Random::new(24);
    let mut met = [[0; 15]; 9];
    for case in 0..cases {
        let shape = Shape {
            version: version(&mut random),
            nodes: 40,
            longest: 60,
            obstacles: 8,
        };
        let net = net(&mut random, shape);
        let stage = stage(&mut random, &net);
        let every = random.pick(&[1, 2, 7, 30]);
        let clearance = clearance(&mut random, &net);
        let mut jumpers: Vec<_> = free_points(&net, stage, clearance)
            .into_iter()
            .step_by(every)
            .collect();
        if jumpers.len() < 2 {
            continue;
        }
        let e = random.range(1, jumpers.len() as u64 - 1) as usize;
        let (before, kind) = (jumpers[e - 1], case % met.len());
        let wrong = wrong_entry(
            &mut random,
            &net,
            stage,
            clearance,
            before,
            jumpers[e],
            kind,
        );
        let Some((entry, number)) = wrong else {
            continue;
        };
        jumpers[e] = entry;
        let list = list_of(&jumpers);
        let answer = compare_report(
            report,
            stage,
            5,
            clearance,
            &net.file(),
            &list,
            12 * (40 + jumpers.len()),
        );
        assert_eq!(answer, Answer::refused(number, e), "{net:?} {jumpers:?}");
        met[kind][number as usize] += 1;
    }
    println!("one wrong entry, by kind and number: {met:?}");
    for (kind, met) in met.iter().enumerate() {
        let numbers: &[usize] = match kind {
            0..=2 => &[12],
            3 => &[12, 13],
            4..=7 => &[13],
            _ => &[14],
        };
        for &number in numbers {
            assert!(met[number] * 100 > cases, "kind {kind}: {met:?}");
        }
    }
}

/// Every length of buffer up to the need and some bytes more.
pub fn every_length_lent(report: Report) {
    let mut random = Random::new(21);
    for _ in 0..200 {
        let net = any_net(&mut random);
        if net.nodes.len() > 50 {
            continue;
        }
        let stage = stage(&mut random, &net);
        let limit = limit(&mut random, &net);
        let clearance = clearance(&mut random, &net);
        let points = free_points(&net, stage, clearance);
        let jumpers: Vec<_> = points.into_iter().take(30).collect();
        let (file, list) = (net.file(), list_of(&jumpers));
        let needed = needed(stage, clearance, &file, &list);
        for lent in 0..needed + 14 {
            let answer = compare_report(report, stage, limit, clearance, &file, &list, lent);
            assert_eq!(answer.number, if lent < needed { 16 } else { 0 });
        }
    }
}

/// Tens of thousands of jumpers, and wires of 65,535 steps.
pub fn many_jumpers(report: Report) {
    let mut random = Random::new(22);
    for (longest, version) in [
        (100, 1),
        (100, 2),
        (1000, 1),
        (1000, 2),
        (65535, 1),
        (65535, 2),
    ] {
        let shape = Shape {
            version,
            nodes: if longest == 65535 { 8 } else { 256 },
            longest,
            obstacles: 3,
        };
        let net = net(&mut random, shape);
        let clearance = random.below(4) as u16;
        let points = free_points(&net, 16, clearance);
        let every = points.len() / 30_000 + 1;
        let jumpers: Vec<_> = points.into_iter().step_by(every).collect();
        let (file, list) = (net.file(), list_of(&jumpers));
        let needed = needed(16, clearance, &file, &list);
        for limit in [0, 1, 1000, u32::MAX] {
            compare_report(report, 16, limit, clearance, &file, &list, needed + 5);
        }
        compare_report(report, 16, 7, clearance, &file, &list, needed - 1);
    }
}

/// The heaviest net there can be still fits 32 bits.
pub fn heaviest(report: Report) {
    use crate::reference::net::{Node, Wire};
    let net = Net {
        version: 1,
        nodes: (0..256)
            .map(|i| Node {
                x: if i % 2 == 0 { 0 } else { 65535 },
                y: 0,
                flags: 1,
            })
            .collect(),
        wires: (1..256)
            .map(|i| Wire {
                parent: (i - 1) as u8,
                layer: 16,
                factor: 255,
            })
            .collect(),
        obstacles: Vec::new(),
    };
    let weight = 255u32 * 255 * 65535;
    for limit in [weight - 1, weight] {
        let answer = compare_report(report, 16, limit, 0, &net.file(), &[], 20);
        assert_eq!(answer, Answer::done(1));
    }
}

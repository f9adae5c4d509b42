//! The clearance round obstacles: by hand, what is easy to get wrong; on random nets, what it changes and what it leaves.

use super::layers::ENOUGH;
use super::met::{version_of, Met};
use super::repair::{call as call_repair, chain, compare as compare_repair, net_a, of_layer};
use super::report::{compare_report, random_call, Call};
use crate::generate::clearance::clearance;
use crate::generate::obstacle::on_layers;
use crate::generate::{any_file, jumper_list, large_case, small_case};
use crate::library::REPAIR_MOST;
use crate::random::Random;
use crate::reference::net::{net_of, outside, Net, Obstacle};
use crate::reference::report::{list_of, Point};
use crate::{Answer, Repair, Report};

/// A wire of two steps, across or upright, whose one point is this; gates at both ends.
fn over((x, y): (u16, u16), across: bool, layer: u8, obstacles: Vec<Obstacle>) -> Net {
    let mut net = net_a(&[]);
    let (dx, dy) = if across { (1, 0) } else { (0, 1) };
    (net.nodes[0].x, net.nodes[0].y) = (x - dx, y - dy);
    (net.nodes[1].x, net.nodes[1].y) = (x + dx, y + dy);
    net.wires[0].layer = layer;
    net.version = 2;
    net.obstacles = obstacles;
    net
}

/// The one point is barred or not, for report and for repair: the wire weighs 2, and what a jumper leaves on either side 1.
fn one_point(report: Report, repair: Repair, net: &Net, clearance: u16, barred: bool) {
    let (file, list) = (net.file(), list_of(&[(1, 1)]));
    let answer = compare_report(report, 16, 0, clearance, &file, &list, ENOUGH);
    let (number, least) = if barred { (14, None) } else { (0, Some(1)) };
    let told = || format!("{net:?} clearance {clearance}");
    assert_eq!((answer.number, answer.place), (number, 0), "{}", told());
    compare_repair(repair, net, 16, 1, clearance, least, true);
}

/// Every place round a rectangle, its borders and its corners: the grown rectangle has square corners, and its border bars.
pub fn round_a_rectangle(report: Report, repair: Repair) {
    for clearance in 0..=6 {
        let (left, right) = (10 - clearance, 14 + clearance);
        let (bottom, top) = (10 - clearance, 12 + clearance);
        for x in 1..=24 {
            for y in 1..=22 {
                let barred = left <= x && x <= right && bottom <= y && y <= top;
                for across in [true, false] {
                    let net = over((x, y), across, 1, vec![of_layer(16, [10, 10, 14, 12])]);
                    one_point(report, repair, &net, clearance, barred);
                }
            }
        }
    }
}

/// Coordinates at and near both ends, and where a byte or a sign is full.
const PLACES: [u16; 12] = [
    0, 1, 2, 255, 256, 32767, 32768, 65279, 65280, 65533, 65534, 65535,
];

/// An obstacle and a point at these places of one axis, at the same place of the other: every clearance that decides, and those at the ends.
pub fn along_an_axis(report: Report, repair: Repair) {
    for low in PLACES {
        for high in PLACES.into_iter().filter(|&high| low <= high) {
            for at in PLACES {
                let far = if at < low {
                    low - at
                } else {
                    at.saturating_sub(high)
                };
                let less = far.checked_sub(1);
                let more = far.checked_add(1);
                let deciding = [less, Some(far), more].into_iter().flatten();
                for clearance in deciding.chain([0, 1, 32767, 32768, 65534, 65535]) {
                    let barred = far <= clearance;
                    let beside = vec![of_layer(16, [low, 500, high, 500])];
                    let net = over((at, 500), false, 1, beside);
                    one_point(report, repair, &net, clearance, barred);
                    let above = vec![of_layer(16, [500, low, 500, high])];
                    let net = over((500, at), true, 1, above);
                    one_point(report, repair, &net, clearance, barred);
                }
            }
        }
    }
}

/// Obstacles in the corners of the coordinates, and points near them.
pub fn in_the_corners(report: Report, repair: Repair) {
    let from = |end: u16, far: u16| if end == 0 { far } else { end - far };
    for corner in [(0, 0), (0, 65535), (65535, 0), (65535, 65535)] {
        let obstacle = of_layer(16, [corner.0, corner.1, corner.0, corner.1]);
        for (dx, dy) in (0..5).flat_map(|dx| (0..5).map(move |dy| (dx, dy))) {
            if (dx, dy) == (0, 0) {
                continue;
            }
            let point = (from(corner.0, dx), from(corner.1, dy));
            // across, a point at 0 or 65,535 has no step beyond it
            let net = over(point, dx > 0, 1, vec![obstacle]);
            for clearance in [0, 1, 2, 3, 4, 65534, 65535] {
                let barred = dx <= clearance && dy <= clearance;
                one_point(report, repair, &net, clearance, barred);
            }
        }
    }
}

/// A wire of 65,535 steps under one obstacle: the points next to what is barred, and the limits at which the first that is free on either
/// side is near enough to a gate.
pub fn the_longest_wire(report: Report, repair: Repair) {
    let obstacle = [30_000, 0, 30_010, 0];
    for (clearance, first, last, lowest, highest) in [
        (0, 30_000, 30_010, Some(1), Some(65_534)),
        (1, 29_999, 30_011, Some(1), Some(65_534)),
        (100, 29_900, 30_110, Some(1), Some(65_534)),
        (29_998, 2, 60_008, Some(1), Some(65_534)),
        (29_999, 1, 60_009, Some(60_010), Some(65_534)),
        (30_000, 0, 60_010, Some(60_011), Some(65_534)),
        (35_523, 0, 65_533, Some(65_534), Some(65_534)),
        (35_524, 0, 65_534, None, None),
        (35_525, 0, 65_535, None, None),
        (65_535, 0, 65_535, None, None),
    ] {
        for ends in [[0, 65_535], [65_535, 0]] {
            let mut net = chain(&ends, &[0, 0], &[obstacle]);
            // position t is t steps from node 1
            let position = |x: u16| usize::from(x.abs_diff(ends[1]));
            for x in [first - 1, first, last, last + 1].map(|x: i32| x.clamp(1, 65_534)) {
                let number = if first <= x && x <= last { 14 } else { 0 };
                let (file, list) = (net.file(), list_of(&[(1, position(x as u16))]));
                let answer = compare_report(report, 1, 0, clearance, &file, &list, ENOUGH);
                assert_eq!(answer.number, number, "{clearance} {x}");
            }
            for (gate, free) in [(0, lowest), (65_535, highest)] {
                net.nodes[0].flags = u8::from(ends[0] == gate);
                net.nodes[1].flags = u8::from(ends[1] == gate);
                let near = free.map_or(65_534, |x: u16| u32::from(x.abs_diff(gate)));
                let least = free.map(|_| 1);
                compare_repair(repair, &net, 1, near, clearance, least, true);
                compare_repair(repair, &net, 1, near - 1, clearance, None, true);
            }
        }
    }
}

/// An obstacle beside a wire, on every two layers: on a layer below the wire's it bars nothing, whatever the clearance.
pub fn every_two_layers(report: Report, repair: Repair) {
    for (clearance, near) in [(0, false), (3, false), (4, true), (65535, true)] {
        for wire in 1..=16 {
            for obstacle in 1..=16 {
                let beside = vec![of_layer(obstacle, [96, 104, 104, 104])];
                let net = over((100, 100), true, wire, beside);
                one_point(report, repair, &net, clearance, near && wire <= obstacle);
            }
            let beside = vec![of_layer(16, [104, 96, 104, 104])];
            let mut net = over((100, 100), false, wire, beside);
            net.version = 1;
            one_point(report, repair, &net, clearance, near);
        }
    }
}

/// Two obstacles over net A: what is free between them and beside them closes step by step.
pub fn gaps_close(report: Report, repair: Repair) {
    let net = net_a(&[[3, 0, 3, 0], [10, 0, 10, 0]]);
    for (clearance, free, least) in [
        (0, &[1, 2, 4, 5, 6, 7, 8, 9, 11, 12][..], [2, 2, 2, 1]),
        (1, &[1, 5, 6, 7, 8, 12], [2, 2, 2, 1]),
        (2, &[6, 7], [0, 0, 2, 1]),
        (3, &[], [0; 4]),
        (65535, &[], [0; 4]),
    ] {
        for position in 1..13 {
            let (file, list) = (net.file(), list_of(&[(1, position)]));
            let answer = compare_report(report, 1, 0, clearance, &file, &list, ENOUGH);
            let number = if free.contains(&position) { 0 } else { 14 };
            assert_eq!(answer.number, number, "{clearance} at {position}");
        }
        // 0 where no set is legal
        for (limit, least) in [1, 5, 6, 7].into_iter().zip(least) {
            let least = (least > 0).then_some(least);
            compare_repair(repair, &net, 1, limit, clearance, least, true);
        }
        compare_repair(repair, &net, 1, 13, clearance, Some(0), true);
    }
}

/// All points of present wires, at the ends of a wire none.
fn points(net: &Net, stage: u32) -> Vec<Point> {
    let present = (1..net.nodes.len()).filter(|&i| net.present(stage, i));
    present
        .flat_map(|i| (1..net.length(i)).map(move |t| (i, t)))
        .collect()
}

type Reading = fn(&Obstacle, (u16, u16), u16) -> bool;

/// How far outside the obstacle a point lies in x and in y.
fn far(o: &Obstacle, (x, y): (u16, u16)) -> (i32, i32) {
    (outside(o.x1, o.x2, x), outside(o.y1, o.y2, y))
}

/// What bars a point without a clearance: the obstacle holds it, or has it on its border.
fn holds(o: &Obstacle, (x, y): (u16, u16), _: u16) -> bool {
    o.x1 <= x && x <= o.x2 && o.y1 <= y && y <= o.y2
}

/// Readings of the clearance that are wrong.
const WRONG: [(&str, Reading); 6] = [
    ("no clearance", holds),
    ("one less", |o, point, clearance| {
        let (across, up) = far(o, point);
        across.max(up) <= i32::from(clearance.saturating_sub(1))
    }),
    ("one more", |o, point, clearance| {
        let (across, up) = far(o, point);
        across.max(up) <= i32::from(clearance) + 1
    }),
    ("round corners", |o, point, clearance| {
        let (across, up) = far(o, point);
        let square = |a: i32| i64::from(a) * i64::from(a);
        square(across) + square(up) <= square(clearance.into())
    }),
    ("in x or in y", |o, point, clearance| {
        let (across, up) = far(o, point);
        across.min(up) <= i32::from(clearance)
    }),
    ("sums of 16 bits", |o, (x, y), clearance| {
        let sum = |a: u16| a.wrapping_add(clearance);
        o.x1 <= sum(x) && x <= sum(o.x2) && o.y1 <= sum(y) && y <= sum(o.y2)
    }),
];

/// The points that are barred by a reading.
fn barred_by(net: &Net, points: &[Point], clearance: u16, reading: Reading) -> Vec<bool> {
    let barred = |&(i, t): &Point| {
        let mut counting = net.obstacles.iter();
        counting.any(|o| net.wire(i).layer <= o.layer && reading(o, net.point(i, t), clearance))
    };
    points.iter().map(barred).collect()
}

/// Every point of small nets; each wrong reading, and one by which every obstacle counts, often bars others.
pub fn every_point(report: Report, cases: usize) {
    let mut random = Random::new(60);
    let (mut met, mut by_layer) = ([0; WRONG.len()], 0);
    for _ in 0..cases {
        let (net, stage, _, clearance) = small_case(&mut random, 12);
        let (file, points) = (net.file(), points(&net, stage));
        let barred: Vec<bool> = points
            .iter()
            .map(|&(i, t)| {
                let list = list_of(&[(i, t)]);
                compare_report(report, stage, 0, clearance, &file, &list, ENOUGH).number == 14
            })
            .collect();
        if clearance == 0 {
            assert_eq!(barred, barred_by(&net, &points, 0, holds), "{net:?}");
        }
        for (met, (_, reading)) in met.iter_mut().zip(WRONG) {
            *met += usize::from(barred_by(&net, &points, clearance, reading) != barred);
        }
        let all = on_layers(&net, |_| 16);
        let mut points = points.iter().zip(&barred);
        by_layer += usize::from(points.any(|(&(i, t), &b)| all.barred(i, t, clearance) != b));
    }
    for ((name, _), met) in WRONG.iter().zip(met) {
        println!("{name}: {met}");
        assert!(met * 100 > cases, "{name}: {met} times");
    }
    println!("every obstacle counts: {by_layer}");
    assert!(by_layer * 100 > cases);
}

/// The least number of jumpers by report alone, which is called for each set of the points that it does not bar; none if each set leaves a
/// harmful piece.
fn least_by_report(report: Report, net: &Net, at: (u32, u32, u16)) -> Option<usize> {
    let (stage, limit, clearance) = at;
    let file = net.file();
    let mut out = vec![0; ENOUGH];
    let mut call = |set: &[Point]| {
        let answer = report(stage, limit, clearance, &file, &list_of(set), &mut out);
        let mut records = out.chunks(12).take(answer.count as usize);
        (answer.number, records.all(|record| record[7] < 4))
    };
    let mut free = points(net, stage);
    free.retain(|&point| call(&[point]).0 == 0);
    let sets = (0..1u32 << free.len()).filter_map(|mask| {
        let numbered = free.iter().enumerate();
        let set = numbered.filter(|(k, _)| mask >> k & 1 == 1);
        let set: Vec<Point> = set.map(|(_, &point)| point).collect();
        let (number, legal) = call(&set);
        assert_eq!(number, 0, "{net:?} {at:?} {set:?}");
        legal.then_some(set.len())
    });
    sets.min()
}

/// Repair's least count and its 15 on small nets are those that report gives, set by set.
pub fn every_set_by_report(report: Report, repair: Repair, cases: usize) {
    let mut random = Random::new(61);
    let mut met = [0usize; 4];
    for _ in 0..cases {
        let (net, stage, limit, clearance) = small_case(&mut random, 7);
        let least = least_by_report(report, &net, (stage, limit, clearance));
        compare_repair(repair, &net, stage, limit, clearance, least, false);
        if clearance > 0 {
            met[least.map_or(0, |count| 1 + count.min(2))] += 1;
        }
    }
    println!("with a clearance: no set, 0, 1 and more jumpers: {met:?}");
    assert!(met.iter().all(|&met| met * 200 > cases));
}

/// The net whose obstacles are larger by the clearance, as far as there are coordinates.
fn grown(net: &Net, clearance: u16) -> Net {
    let mut net = net.clone();
    let by = i32::from(clearance);
    let moved = |at: u16, by: i32| (i32::from(at) + by).clamp(0, 65535) as u16;
    for o in &mut net.obstacles {
        (o.x1, o.y1) = (moved(o.x1, -by), moved(o.y1, -by));
        (o.x2, o.y2) = (moved(o.x2, by), moved(o.y2, by));
    }
    net
}

/// A net with a clearance is answered as the net of larger obstacles is without one.
pub fn larger_obstacles(report: Report, repair: Repair, cases: usize) {
    let mut random = Random::new(62);
    let mut met = Met::default();
    for case in 0..cases {
        let (net, stage, limit, clearance) = match case % 20 {
            0 => large_case(&mut random),
            _ => small_case(&mut random, 40),
        };
        let list = jumper_list(&mut random, &net, stage, clearance);
        let nets = [(net.file(), clearance), (grown(&net, clearance).file(), 0)];
        let answers = nets.map(|(file, clearance)| {
            let mut out = vec![0x5a; 12 * 512];
            let reported = report(stage, limit, clearance, &file, &list, &mut out);
            let (repaired, _) = call_repair(repair, stage, limit, clearance, &file, REPAIR_MOST);
            (reported, out, repaired)
        });
        let told = || format!("{net:?} {stage} {limit} {clearance} {list:?}");
        assert!(answers[0] == answers[1], "{}", told());
        if clearance > 0 {
            met.add(net.version, answers[0].0.number);
            met.add(net.version, answers[0].2.number);
        }
    }
    println!("with a clearance: {met:?}");
    for (version, number) in [1, 2].into_iter().flat_map(|v| [(v, 0), (v, 14), (v, 15)]) {
        let met = met.count(version, number);
        assert!(
            met * 100 > cases,
            "{number} was met {met} times in version {version}"
        );
    }
}

/// A clearance above 0.
fn above_0(random: &mut Random, net: &Net) -> u16 {
    clearance(random, net).max(random.range(1, 3) as u16)
}

/// With a clearance report answers as without one, but for a 14 that comes earlier or is new: every other refusal, and every record.
pub fn report_changes_by_14_alone(report: Report, cases: usize) {
    let mut random = Random::new(63);
    let mut met = Met::default();
    for _ in 0..cases {
        let Call {
            stage,
            limit,
            file,
            list,
            lent,
            ..
        } = random_call(&mut random);
        let clearance = match net_of(&file) {
            Ok(net) => above_0(&mut random, &net),
            Err(_) => random.range(1, 65535) as u16,
        };
        let answers = [0, clearance].map(|clearance| {
            let mut out = vec![0x3c; lent];
            let answer = report(stage, limit, clearance, &file, &list, &mut out);
            (answer, out)
        });
        let told = || format!("{stage} {limit} {clearance} {file:?} {list:?} {lent}");
        compare_report(report, stage, limit, clearance, &file, &list, lent);
        let [(without, _), (with, out)] = &answers;
        if with.number == 14 {
            let earlier = match without.number {
                0 | 16 => true,
                12 | 13 => with.place < without.place,
                number => number == 14 && with.place <= without.place,
            };
            assert!(earlier, "{without:?} {with:?} {}", told());
            assert!(out.iter().all(|&byte| byte == 0x3c), "{}", told());
        } else {
            assert!(answers[0] == answers[1], "{}", told());
        }
        met.add(version_of(&file), with.number);
    }
    println!("report answers by number: {met:?}");
    let mut numbers: Vec<usize> = (0..=14).chain([16]).collect();
    met.often(0, &[1, 2], 10_000, cases);
    met.often(1, &numbers, 2000, cases);
    numbers.push(20);
    met.often(2, &numbers, 2000, cases);
}

/// A file of any kind with a stage and a limit; most are nets that are small or need jumpers.
fn repair_call(random: &mut Random) -> (Vec<u8>, u32, u32) {
    match random.below(8) {
        0 => {
            let (net, stage, limit, _) = large_case(random);
            (net.file(), stage, limit)
        }
        1..=4 => {
            let (net, stage, limit, _) = small_case(random, 40);
            (net.file(), stage, limit)
        }
        _ => {
            let stage = random.pick(&[0, 1, 2, 3, 16, 17, u32::MAX]);
            let limit = random.next() as u32 >> random.pick(&[0, 22, 25, 28]);
            (any_file(random), stage, limit)
        }
    }
}

/// A larger clearance never lowers repair's count, 15 stays 15, and every refusal before it stays.
pub fn larger_clearances(repair: Repair, cases: usize) {
    let mut random = Random::new(64);
    let (mut met, mut rises) = (Met::default(), 0);
    for _ in 0..cases {
        let (file, stage, limit) = repair_call(&mut random);
        let mut clearances = vec![0, 1, 2, 65534, 65535];
        match net_of(&file) {
            Ok(net) => clearances.extend([(); 4].map(|()| clearance(&mut random, &net))),
            Err(_) => clearances.push(random.next() as u16),
        }
        clearances.sort();
        let lent = random.pick(&[REPAIR_MOST, REPAIR_MOST, REPAIR_MOST, 0]);
        let mut before: Option<Answer> = None;
        for clearance in clearances {
            let (answer, _) = call_repair(repair, stage, limit, clearance, &file, lent);
            // a list that does not fit needs three bytes a jumper
            let needed = |answer: Answer| match answer.number {
                0 => 3 * answer.count,
                15 => u64::MAX,
                _ => answer.place,
            };
            if let Some(before) = before {
                let told = || format!("{stage} {limit} {clearance} {file:?} {before:?} {answer:?}");
                match before.number {
                    0 | 16 => assert!([0, 15, 16].contains(&answer.number), "{}", told()),
                    _ => assert_eq!(answer, before, "{}", told()),
                }
                assert!(needed(before) <= needed(answer), "{}", told());
                rises += usize::from(needed(before) < needed(answer));
                met.add(version_of(&file), answer.number);
            }
            before = Some(answer);
        }
    }
    println!("repair answers by number: {met:?}, another at a larger clearance: {rises}");
    assert!(rises * 20 > cases);
    let mut numbers: Vec<usize> = (0..=11).chain([15, 16]).collect();
    met.often(0, &[1, 2], 2000, cases);
    met.often(1, &numbers, 2000, cases);
    numbers.push(20);
    met.often(2, &numbers, 2000, cases);
}

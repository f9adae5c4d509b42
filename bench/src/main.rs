//! The proved library against the plain Rust program of the same method, and against the library of an earlier commit, in one run.
//! Then the stack that each call of the library takes.

mod def;
mod libraries;
mod race;

use antenna_tests::generate::{net, Shape};
use antenna_tests::library::REPAIR_MOST;
use antenna_tests::random::Random;
use antenna_tests::reference::net::Net;
use antenna_tests::reference::report::{free_points, list_of};
use antenna_tests::suite::repair::{chain, worst};
use antenna_tests::{plain, stack};
use race::{race, Contenders, Fastest};
use std::hint::black_box;

/// Most nets of a chip are small; 256 is the most.
const SIZES: [usize; 6] = [2, 5, 10, 20, 76, 256];

fn heading() {
    let (major, minor) = libraries::BEFORE_VERSION;
    if (major, minor) > (0, 0) {
        println!("the header before was {major}.{minor}");
    }
    println!(
        "{:76} {:>10} {:>10} {:>9} {:>10}",
        "fastest batches", "us a call", "us a node", "to plain", "to before"
    );
}

/// One row: a run made so many calls, on nets of so many nodes.
fn print(what: &str, calls: usize, nodes: usize, fastest: Fastest) {
    let call = fastest.now / calls as f64;
    let before = if fastest.before.is_finite() {
        format!("{:.2}", fastest.now / fastest.before)
    } else {
        "-".into()
    };
    println!(
        "{what:76} {call:10.3} {:10.4} {:9.2} {before:>10}",
        call / nodes as f64,
        fastest.now / fastest.plain
    );
}

/// The name of a row, with its clearance where there is one.
fn with_clearance(name: &str, clearance: u16) -> String {
    match clearance {
        0 => name.into(),
        _ => format!("{name}, clearance {clearance}"),
    }
}

/// Nets of one kind, each with a limit, and the clearance that report and repair take for them.
struct Kind {
    name: String,
    version: u32,
    nodes: usize,
    clearance: u16,
    nets: Vec<(Net, u32)>,
}

impl Kind {
    /// The same nets with another clearance.
    fn with(self, clearance: u16) -> Kind {
        Kind {
            name: with_clearance(&self.name, clearance),
            clearance,
            ..self
        }
    }
}

/// How many nets a kind has.
const NETS: usize = 50;

/// A net with as many obstacles as one of these, and a limit: its weight divided by 2 or more, up to `parts`.
fn case(
    random: &mut Random,
    version: u32,
    nodes: usize,
    obstacles: &[usize],
    parts: u64,
) -> (Net, u32) {
    let shape = Shape {
        version,
        nodes,
        longest: random.pick(&[10, 100, 200]),
        obstacles: random.pick(obstacles),
    };
    let net = net(random, shape);
    let limit = net.total_weight() / random.range(2, parts);
    (net, limit as u32)
}

fn of_size(nodes: usize) -> Kind {
    let mut random = Random::new(nodes as u64);
    let obstacles = [0, nodes / 16, nodes / 4];
    let parts = 2 + nodes as u64 / 4;
    let one = |_| case(&mut random, 1, nodes, &obstacles, parts);
    Kind {
        name: format!("{nodes} nodes"),
        version: 1,
        nodes,
        clearance: 0,
        nets: (0..NETS).map(one).collect(),
    }
}

/// Nets with the most obstacles, each repaired by some jumpers with the clearance: most such nets need none, or no set will do.
fn of_most_obstacles(version: u32, name: &str, clearance: u16) -> Kind {
    let mut random = Random::new(256);
    let cases = std::iter::repeat_with(|| case(&mut random, version, 256, &[256], 4));
    let with_jumpers = cases.filter(|(net, limit)| !repaired(net, *limit, clearance).is_empty());
    Kind {
        name: format!("256 nodes, 256 obstacles{name}"),
        version,
        nodes: 256,
        clearance: 0,
        nets: with_jumpers.take(NETS).collect(),
    }
}

/// Nets that need more jumpers with the clearance than without.
fn of_more_jumpers(clearance: u16) -> Kind {
    let mut random = Random::new(10);
    let cases = std::iter::repeat_with(|| case(&mut random, 2, 256, &[64], 60));
    let more = cases.filter(|(net, limit)| {
        repaired(net, *limit, 0).len() < repaired(net, *limit, clearance).len()
    });
    Kind {
        name: "256 nodes, 64 obstacles with layers".into(),
        version: 2,
        nodes: 256,
        clearance: 0,
        nets: more.take(NETS).collect(),
    }
}

/// Nets of each size, and those with the most obstacles, in either version.
fn kinds() -> Vec<Kind> {
    let mut kinds: Vec<Kind> = SIZES.into_iter().map(of_size).collect();
    kinds.push(of_most_obstacles(1, "", 0));
    kinds.push(of_most_obstacles(2, " with layers", 0));
    kinds
}

/// The clearance of the rows that have one.
const CLEARANCE: u16 = 10;

/// What report and repair run on: each kind without a clearance, some with one, and one both without and with it.
fn judged() -> Vec<Kind> {
    let mut kinds = kinds();
    kinds.extend([5, 20, 256].map(|nodes| of_size(nodes).with(CLEARANCE)));
    kinds.push(of_most_obstacles(1, "", CLEARANCE).with(CLEARANCE));
    kinds.push(of_most_obstacles(2, " with layers", CLEARANCE).with(CLEARANCE));
    kinds.push(of_more_jumpers(CLEARANCE));
    kinds.push(of_more_jumpers(CLEARANCE).with(CLEARANCE));
    kinds
}

fn read() {
    for kind in kinds() {
        let contenders = Contenders::<libraries::Read>::new(kind.version, 0, libraries::read);
        let files: Vec<_> = kind.nets.iter().map(|(net, _)| net.file()).collect();
        let fastest = race(&contenders, |call| {
            for file in &files {
                assert_eq!(call(black_box(file)).number, 0);
            }
        });
        let what = format!("read, {}", kind.name);
        print(&what, files.len(), kind.nodes, fastest);
    }
}

fn write() {
    for kind in kinds() {
        let version = kind.version;
        let contenders = Contenders::<libraries::Write>::new(version, 0, libraries::write);
        let nets: Vec<_> = kind.nets.iter().map(|(net, _)| net.sections()).collect();
        let mut out = vec![0; 8192];
        let fastest = race(&contenders, |call| {
            for [nodes, wires, obstacles] in &nets {
                let answer = call(version, black_box(nodes), wires, obstacles, &mut out);
                assert_eq!(answer.number, 0);
            }
        });
        let what = format!("write, {}", kind.name);
        print(&what, nets.len(), kind.nodes, fastest);
    }
}

/// The list that repair writes, or none where no set is legal.
fn repaired(net: &Net, limit: u32, clearance: u16) -> Vec<u8> {
    let mut list = vec![0; REPAIR_MOST];
    let answer = plain::repair::repair(16, limit, clearance, &net.file(), &mut list);
    list.truncate(3 * answer.count as usize);
    list
}

fn report() {
    for kind in judged() {
        let clearance = kind.clearance;
        let contenders =
            Contenders::<libraries::Report>::new(kind.version, clearance, libraries::report);
        let nets = kind.nets.iter();
        let nets: Vec<_> = nets
            .map(|(net, limit)| (net.file(), *limit, repaired(net, *limit, clearance)))
            .collect();
        let mut out = vec![0; 12 * 1024];
        let fastest = race(&contenders, |call| {
            for (file, limit, list) in &nets {
                let answer = call(16, *limit, clearance, black_box(file), list, &mut out);
                assert_eq!(answer.number, 0);
            }
        });
        let what = format!("report, {}, repair's jumpers", kind.name);
        print(&what, nets.len(), kind.nodes, fastest);
    }
    // the nets of these seeds have so many points that are free
    for (seed, version, obstacles, jumpers, name) in [
        (2, 1, 8, 20_000, "20,000 jumpers"),
        (2, 2, 8, 20_000, "20,000 jumpers, obstacles with layers"),
        (143, 1, 256, 8_000, "256 obstacles, 8,000 jumpers"),
    ] {
        let shape = Shape {
            version,
            nodes: 256,
            longest: 600,
            obstacles,
        };
        let net = net(&mut Random::new(seed), shape);
        let what = format!("report, 256 nodes, {name}");
        for clearance in [0, CLEARANCE] {
            report_many_jumpers(&what, &net, jumpers, clearance);
        }
    }
    let wire = chain(&[0, 65535], &[1, 1], &[]);
    report_many_jumpers("report, one wire, 65,000 jumpers", &wire, 65_000, 0);
}

fn report_many_jumpers(what: &str, net: &Net, count: usize, clearance: u16) {
    let contenders =
        Contenders::<libraries::Report>::new(net.version, clearance, libraries::report);
    let points = free_points(net, 16, clearance);
    assert!(count <= points.len(), "{what}");
    let every = points.len() / count;
    let jumpers: Vec<_> = points.into_iter().step_by(every).take(count).collect();
    assert_eq!(jumpers.len(), count);
    let (file, list) = (net.file(), list_of(&jumpers));
    let nodes = net.nodes.len();
    let mut out = vec![0; 12 * (nodes + count)];
    let fastest = race(&contenders, |call| {
        let answer = call(16, 1000, clearance, black_box(&file), &list, &mut out);
        assert_eq!(answer.number, 0);
    });
    print(&with_clearance(what, clearance), 1, nodes, fastest);
}

fn repair() {
    let mut out = vec![0; REPAIR_MOST];
    for kind in judged() {
        let clearance = kind.clearance;
        let contenders =
            Contenders::<libraries::Repair>::new(kind.version, clearance, libraries::repair);
        let nets = kind.nets.iter();
        let nets: Vec<_> = nets.map(|(net, limit)| (net.file(), *limit)).collect();
        let fastest = race(&contenders, |call| {
            for (file, limit) in &nets {
                black_box(call(16, *limit, clearance, black_box(file), &mut out));
            }
        });
        let what = format!("repair, {}", kind.name);
        print(&what, nets.len(), kind.nodes, fastest);
    }
    for (name, net) in worst() {
        let contenders = Contenders::<libraries::Repair>::new(net.version, 0, libraries::repair);
        let (file, limit) = (net.file(), (net.total_weight() / 7) as u32);
        let fastest = race(&contenders, |call| {
            black_box(call(16, limit, 0, black_box(&file), &mut out));
        });
        print(&format!("repair, {name}"), 1, 256, fastest);
    }
}

fn main() {
    heading();
    read();
    write();
    report();
    repair();
    def::def();
    for (call, taken, _) in stack::of_calls() {
        println!("stack, {call}: {taken} bytes");
    }
}

//! --clearance: the nets have obstacles that are larger by it, and are judged without one.

use super::case::Case;
use super::random_pins::as_barred;
use super::{antenna, folder_of, names_in};
use antenna_tests::library;
use antenna_tests::random::Random;
use antenna_tests::reference::net::{net_of, Net, Obstacle};
use antenna_tests::reference::table;
use antenna_tests::root;
use std::fs;
use std::process::Command;

/// A net of one wire along x, from a point of the file so many steps on. The die begins at -100 -200.
fn wire(name: &str, from: (i64, i64), steps: i64, grid: i64, obstacles: &str, by: &str) -> Net {
    let folder = folder_of(name);
    fs::create_dir_all(&folder).unwrap();
    let obstacles_file = folder.join("obstacles");
    fs::write(&obstacles_file, obstacles).unwrap();
    let ((x, y), to) = (from, from.0 + steps * grid);
    let text = format!(
        "DIEAREA ( -100 -200 ) ( 900 900 ) ;\n- n + ROUTED metal3 ( {x} {y} ) ( {to} {y} ) ;\n"
    );
    let [folder, obstacles] = [&folder, &obstacles_file].map(|path| path.to_str().unwrap());
    let grid = grid.to_string();
    let words = ["-", "-o", folder, "--obstacles", obstacles, "--grid", &grid];
    let ran = antenna(
        &[&words[..], &["--clearance", by]].concat(),
        text.as_bytes(),
    );
    assert_eq!((ran.status, ran.errors.as_str()), (Some(0), ""));
    net_of(&fs::read(format!("{folder}/n.net")).unwrap()).unwrap()
}

/// An obstacle just near enough to a wire from 0 0 to 200 0, and one just not, on lines of the grid and between them.
#[test]
fn points_near_an_obstacle() {
    for (grid, obstacle, clearance, held, barred) in [
        (1, "100 3 to 110 9", "0", 0, None),
        (1, "100 3 to 110 9", "2", 0, None),
        (1, "100 3 to 110 9", "3", 1, Some((97, 113))),
        (1, "100 -9 to 110 -4", "3", 0, None),
        (1, "100 -9 to 110 -4", "4", 1, Some((96, 114))),
        (1, "203 -5 to 220 5", "2", 0, None),
        // only the wire's end
        (1, "203 -5 to 220 5", "3", 1, None),
        (1, "203 -5 to 220 5", "4", 1, Some((199, 199))),
        (1, "-9 0 to -7 0", "6", 0, None),
        (1, "-9 0 to -7 0", "8", 1, Some((1, 1))),
        (7, "100 3 to 104 4", "2", 0, None),
        (7, "100 3 to 104 4", "3", 1, Some((98, 105))),
        (7, "99 -3 to 101 -2", "1", 0, None),
        (7, "99 -3 to 101 -2", "2", 1, Some((98, 98))),
        (10, "103 3 to 107 9", "2", 0, None),
        (10, "103 3 to 107 9", "3", 1, Some((100, 110))),
        (10, "104 3 to 107 9", "3", 1, Some((110, 110))),
        (10, "103 3 to 107 9", "13", 1, Some((90, 120))),
        (10, "104 3 to 106 9", "13", 1, Some((100, 110))),
        (10, "100 20 to 110 30", "19", 0, None),
        (10, "100 20 to 110 30", "20", 1, Some((80, 130))),
        (10, "100 20 to 110 30", "25", 1, Some((80, 130))),
        (10, "100 -25 to 100 -25", "24", 0, None),
        (10, "100 -25 to 100 -25", "25", 1, Some((80, 120))),
        (10, "209 0 to 300 0", "9", 1, None),
        (10, "209 0 to 300 0", "19", 1, Some((190, 190))),
        (50, "60 60 to 70 70", "59", 0, None),
        (50, "60 60 to 70 70", "60", 1, Some((50, 100))),
        (50, "60 60 to 70 70", "80", 1, Some((50, 150))),
        (50, "0 0 to 1 1", "2147483647", 1, Some((50, 150))),
    ] {
        let case = format!("{obstacle}, clearance {clearance}, grid {grid}");
        let line = format!("obstacle {obstacle}\n");
        let net = wire("clear-near", (0, 0), 200 / grid, grid, &line, clearance);
        assert_eq!(net.obstacles.len(), held, "{case}");
        let inside = (1..net.length(1)).filter(|&t| net.barred(1, t, 0));
        let corner = (-100i64).div_euclid(grid);
        let mut found: Vec<i64> = inside
            .map(|t| grid * (i64::from(net.point(1, t).0) + corner))
            .collect();
        found.sort();
        let expected = barred.map_or(1..1, |(first, last)| first / grid..last / grid + 1);
        let expected: Vec<i64> = expected.map(|step| step * grid).collect();
        assert_eq!(found, expected, "{case}");
    }
}

/// Corners stay inside the coordinates of a net file; what is near enough there is kept, and what is just not is none.
#[test]
fn ends_of_the_coordinates() {
    let obstacle = |[x1, y1, x2, y2]: [u16; 4]| Obstacle {
        x1,
        y1,
        x2,
        y2,
        layer: 16,
    };
    for (grid, line, clearance, corners) in [
        (1, "-110 -205 to -103 -203", "2", None),
        (1, "-110 -205 to -103 -203", "3", Some([0, 0, 0, 0])),
        (1, "-90 -190 to 65430 65330", "9", None),
        (
            1,
            "-90 -190 to 65430 65330",
            "10",
            Some([0, 0, 65535, 65535]),
        ),
        (
            1,
            "-60 -190 to 65400 65300",
            "10",
            Some([30, 0, 65510, 65510]),
        ),
        (1, "65440 -200 to 70000 -100", "4", None),
        (
            1,
            "65440 -200 to 70000 -100",
            "5",
            Some([65535, 0, 65535, 105]),
        ),
        (
            1,
            "-2147483648 -2147483648 to -2147483648 2147483647",
            "2147483647",
            Some([0, 0, 99, 65535]),
        ),
        (
            1,
            "2147483647 0 to 2147483647 0",
            "2147483647",
            Some([100, 0, 65535, 65535]),
        ),
        (
            1,
            "-2147483648 -2147483648 to 2147483647 2147483647",
            "2147483647",
            Some([0, 0, 65535, 65535]),
        ),
        (10, "-113 -210 to -104 -205", "4", None),
        (10, "-113 -210 to -104 -205", "5", Some([0, 0, 0, 0])),
        (10, "655258 -200 to 655300 -190", "7", None),
        (
            10,
            "655258 -200 to 655300 -190",
            "8",
            Some([65535, 0, 65535, 1]),
        ),
    ] {
        let text = format!("obstacle {line}\n");
        let net = wire("clear-ends", (-100, -200), 65535, grid, &text, clearance);
        let expected: Vec<Obstacle> = corners.map(obstacle).into_iter().collect();
        assert_eq!(
            net.obstacles, expected,
            "{line} at {clearance}, grid {grid}"
        );
    }
}

/// Without the option the clearance is 0.
#[test]
fn clearance_0_is_none() {
    let [without, with] = [None, Some(0)].map(|clearance| {
        let case = Case::run(&mut Random::new(20), "clear-none", clearance);
        let read = |name: String| fs::read(case.folder.join(&name)).map(|file| (name, file));
        let files = names_in(&case.folder).into_iter().map(read);
        let files: Vec<(String, Vec<u8>)> = files.collect::<Result<_, _>>().unwrap();
        (files, case.ran.text, case.ran.errors, case.ran.status)
    });
    assert!(without.0.len() > 10);
    assert!(without == with);
}

/// A net read with a clearance, and the same read without one.
struct Read {
    name: String,
    at: Net,
    without: Net,
}

/// The nets of a case that are read; the clearance changes their obstacles and nothing else.
fn read(case: &Case, without: &Case) -> Vec<Read> {
    let names = names_in(&case.folder);
    assert_eq!(names, names_in(&without.folder));
    let names = names.into_iter().filter(|name| name.ends_with(".net"));
    let net = |case: &Case, name: &str| net_of(&fs::read(case.folder.join(name)).unwrap()).unwrap();
    let nets = names.map(|name| Read {
        at: net(case, &name),
        without: net(without, &name),
        name,
    });
    let nets: Vec<Read> = nets.collect();
    for Read { name, at, without } in &nets {
        let same = (&at.nodes, &at.wires) == (&without.nodes, &without.wires);
        assert!(same && at.version == without.version, "{name}");
    }
    nets
}

/// The net with an obstacle on each point that the case bars, and no other.
fn counted(case: &Case, net: &Net) -> Net {
    let inside = (1..net.nodes.len()).flat_map(|i| (1..net.length(i)).map(move |t| (i, t)));
    let points = inside.map(|(i, t)| net.point(i, t));
    let barred = points.filter(|&(x, y)| case.barred(x, y));
    let obstacles = barred.map(|(x, y)| Obstacle {
        x1: x,
        y1: y,
        x2: x,
        y2: y,
        layer: 16,
    });
    Net {
        obstacles: obstacles.collect(),
        ..net.clone()
    }
}

/// The net with all obstacles of the file, where a step is a unit. All is moved, so that obstacles below 0 0 have coordinates.
fn with_all(case: &Case, net: &Net) -> Net {
    let moved = |value: i64| (value + 100).clamp(0, 65535) as u16;
    let mut net = net.clone();
    for node in &mut net.nodes {
        (node.x, node.y) = (moved(node.x.into()), moved(node.y.into()));
    }
    let obstacle = |&[x1, y1, x2, y2]: &[i64; 4]| {
        let [low, high] = [(x1, y1), (x2, y2)].map(|corner| case.grid.steps(corner));
        Obstacle {
            x1: moved(low.0),
            y1: moved(low.1),
            x2: moved(high.0),
            y2: moved(high.1),
            layer: 16,
        }
    };
    net.obstacles = case.obstacles.iter().map(obstacle).collect();
    net
}

/// How many jumpers the library needs; none if no set will do.
fn repaired(net: &Net, stage: u32, limit: u32, clearance: u16) -> Option<usize> {
    let mut out = [0; library::REPAIR_MOST];
    let answer = library::repair(stage, limit, clearance, &net.file(), &mut out);
    assert!([library::DONE, library::REFUSED_NO_LEGAL_SET].contains(&answer.number));
    (answer.number == library::DONE).then_some(answer.count as usize)
}

/// What the command says of a net that needs so many.
fn line(name: &str, least: Option<usize>) -> String {
    match least {
        None => format!("{name}: refused 15 0\n"),
        Some(1) => format!("{name}: 1 jumper\n"),
        Some(count) => format!("{name}: {count} jumpers\n"),
    }
}

/// What the command says of all nets of a case, without a clearance.
fn repair_lines(case: &Case, nets: &[Read], stage: u32, limit: u32) -> String {
    let output = Command::new(root().join("command/target/release/antenna"))
        .arg("repair")
        .args(nets.iter().map(|net| &net.name))
        .args([format!("--stage={stage}"), format!("--limit={limit}")])
        .current_dir(&case.folder)
        .output()
        .unwrap();
    String::from_utf8(output.stdout).unwrap()
}

/// Repaired without a clearance, a net has as many jumpers as its points allow that are clear of every obstacle of the file; where a
/// step is a unit, as many as with all obstacles and the clearance given to repair.
#[test]
fn repaired_as_counted() {
    let mut random = Random::new(21);
    let mut points = [0; 2];
    let (mut needed, mut refused, mut missed) = (0, 0, 0);
    for seed in 2000..2060 {
        let clearance = random.range(1, 5) as u16;
        let run = |folder: &str, clearance| Case::run(&mut Random::new(seed), folder, clearance);
        let case = run("clear-at", Some(clearance.into()));
        let nets = read(&case, &run("clear-without", None));
        for Read { name, at, .. } in &nets {
            let counts = as_barred(&case, at, &format!("{seed}: {name}"));
            points = [points[0] + counts[0], points[1] + counts[1]];
        }
        for _ in 0..5 {
            let (stage, limit) = (random.range(2, 6) as u32, random.range(1, 12) as u32);
            let mut lines = String::new();
            for Read { name, without, .. } in &nets {
                let least = table::least(&counted(&case, without), stage, limit, 0);
                lines += &line(name, least);
                needed += usize::from(least.is_some_and(|count| count > 0));
                refused += usize::from(least.is_none());
                if case.grid.step == 1 {
                    let all = with_all(&case, without);
                    let of_all = repaired(&all, stage, limit, clearance);
                    assert_eq!(of_all, least, "{seed}: {name}");
                    missed += usize::from(repaired(without, stage, limit, clearance) != least);
                }
            }
            assert_eq!(repair_lines(&case, &nets, stage, limit), lines, "{seed}");
        }
    }
    println!(
        "points free and barred {points:?}, repaired {needed}, refused {refused}, missed {missed}"
    );
    assert!(points.iter().all(|&count| count > 10_000), "{points:?}");
    let counts = [needed, refused, missed];
    assert!(counts.iter().all(|&count| count > 10), "{counts:?}");
}

//! The two programs, run whole: standard input, standard output.

use crate::generate::{any_file, any_net, large_case, limit, small_case, stage};
use crate::random::Random;
use crate::reference::net::{file, Net};
use crate::reference::report::{legal, net_at, report, Point};
use crate::reference::table;
use std::io::Write;
use std::path::Path;
use std::process::{Command, Stdio};
use std::time::Duration;

const MOST: usize = 8192;

/// That of both programs.
const CLEARANCE: u16 = 0;

/// What the program writes; the input comes in stretches of these lengths, the rest at once.
pub fn run(program: &Path, input: &[u8], stretches: &[usize]) -> String {
    let mut child = Command::new(program)
        .stdin(Stdio::piped())
        .stdout(Stdio::piped())
        .spawn()
        .unwrap_or_else(|error| panic!("{}: {error}", program.display()));
    let mut stdin = child.stdin.take().unwrap();
    let mut at = 0;
    for &length in stretches {
        let end = (at + length).min(input.len());
        // a program that has read enough may have ended
        if stdin.write_all(&input[at..end]).is_err() {
            break;
        }
        std::thread::sleep(Duration::from_millis(3));
        at = end;
    }
    let _ = stdin.write_all(&input[at..]);
    drop(stdin);
    let output = child.wait_with_output().unwrap();
    assert!(output.status.success(), "{:?}", output.status);
    String::from_utf8(output.stdout).unwrap()
}

/// Stage, limit and net file of an input.
fn parts(input: &[u8]) -> (u32, u32, &[u8]) {
    let input = &input[..input.len().min(MOST)];
    match input {
        [stage, a, b, c, d, file @ ..] => (
            u32::from(*stage),
            u32::from_le_bytes([*a, *b, *c, *d]),
            file,
        ),
        _ => (0, 0, &[]),
    }
}

pub fn input(stage: u8, limit: u32, file: &[u8]) -> Vec<u8> {
    let mut bytes = vec![stage];
    bytes.extend(limit.to_le_bytes());
    bytes.extend(file);
    bytes
}

/// What the report program has to write.
pub fn expected_report(input: &[u8]) -> String {
    let (stage, limit, file) = parts(input);
    let mut out = [0; 3072];
    let answer = report(stage, limit, CLEARANCE, file, &[], &mut out);
    if answer.number != 0 {
        return format!("refused {} {}\n", answer.number, answer.place);
    }
    let mut lines = String::new();
    for r in out.chunks(12).take(answer.count as usize) {
        lines += &format!(
            "{} {} {} {} {} {} {}\n",
            r[0],
            u16::from_le_bytes([r[1], r[2]]),
            u32::from_le_bytes([r[3], r[4], r[5], r[6]]),
            r[7],
            u16::from_le_bytes([r[8], r[9]]),
            r[10],
            r[11]
        );
    }
    lines
}

pub fn check_report(program: &Path, input: &[u8], stretches: &[usize]) {
    assert_eq!(
        run(program, input, stretches),
        expected_report(input),
        "{input:?}"
    );
}

/// The repair program wrote a smallest legal set, or the refusal that is due.
pub fn check_repair(program: &Path, input: &[u8], stretches: &[usize]) {
    let written = run(program, input, stretches);
    let (stage, limit, file) = parts(input);
    let net = match net_at(stage, file) {
        Ok(net) => net,
        Err(refusal) => {
            let line = format!("refused {} {}\n", refusal.number, refusal.place);
            assert_eq!(written, line, "{input:?}");
            return;
        }
    };
    let Some(count) = table::least(&net, stage, limit, CLEARANCE) else {
        assert_eq!(written, "refused 15 0\n", "{net:?}");
        return;
    };
    let mut lines = written.lines();
    assert_eq!(lines.next(), Some(format!("jumpers {count}").as_str()));
    let set: Vec<Point> = lines
        .map(|line| {
            let (wire, position) = line.split_once(' ').unwrap();
            (wire.parse().unwrap(), position.parse().unwrap())
        })
        .collect();
    assert_eq!(set.len(), count, "{net:?}");
    assert!(set.windows(2).all(|w| w[0] < w[1]), "{set:?}");
    assert!(
        legal(&net, stage, limit, CLEARANCE, &set),
        "{set:?} for {net:?}"
    );
    let mut again = format!("jumpers {count}\n");
    for (wire, position) in set {
        again += &format!("{wire} {position}\n");
    }
    assert_eq!(written, again);
}

/// Random inputs, good and damaged.
fn random_input(random: &mut Random) -> Vec<u8> {
    let with = |net: Net, stage: u32, limit: u32| input(stage as u8, limit, &net.file());
    match random.below(8) {
        0 => {
            let file = any_file(random);
            let stage = random.range(0, 18) as u8;
            input(stage, random.next() as u32, &file)
        }
        1 => {
            let (net, stage, limit, _) = large_case(random);
            with(net, stage, limit)
        }
        2 | 3 => {
            let net = any_net(random);
            let (stage, limit) = (stage(random, &net), limit(random, &net));
            with(net, stage, limit)
        }
        _ => {
            let (net, stage, limit, _) = small_case(random, 40);
            with(net, stage, limit)
        }
    }
}

/// Many inputs, at once and in stretches, cut short, empty, and longer than is read.
pub fn many_inputs(check: impl Fn(&[u8], &[usize]), cases: usize) {
    let mut random = Random::new(40);
    for _ in 0..cases {
        check(&random_input(&mut random), &[]);
    }
    for _ in 0..20 {
        check(&random_input(&mut random), &[1, 3, 2, 30, 7]);
    }
    let (net, stage, limit, _) = small_case(&mut random, 40);
    let whole = input(stage as u8, limit, &net.file());
    for length in 0..whole.len() {
        check(&whole[..length], &[]);
    }
    // a net file that only fits if more than 8,192 bytes are read, and one that only fits if no more are
    let node = [0, 0, 0, 0, 1];
    for obstacles in [8 * 1020, 8 * 1019, 8154, 8155, 9000, 70_000] {
        for version in [1, 2] {
            let mut long = input(1, 0, &file(version, &node, &[], &vec![0; obstacles]));
            check(&long, &[]);
            check(&long, &[5, 28, 4096, 4096]);
            long.truncate(MOST);
            check(&long, &[]);
            long.extend(vec![7; 100_000]);
            check(&long, &[]);
        }
    }
    let good = input(1, 1, &net.file());
    let mut followed = good.clone();
    followed.resize(MOST, 0);
    check(&followed, &[]);
}

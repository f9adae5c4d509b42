//! The calls from eight threads at a time answer as in one.

use antenna_tests::generate::clearance::clearance;
use antenna_tests::generate::def::{any_case, Case as Text};
use antenna_tests::generate::{any_file, any_net, jumper_list, limit, stage};
use antenna_tests::library::{def, read, repair, report, write};
use antenna_tests::random::Random;
use antenna_tests::reference::net::net_of;
use antenna_tests::Answer;

const THREADS: usize = 8;
const CALLS: usize = 100_000;
/// How many the library has.
const KINDS: usize = 5;

struct Case {
    file: Vec<u8>,
    version: u32,
    sections: [Vec<u8>; 3],
    list: Vec<u8>,
    stage: u32,
    limit: u32,
    clearance: u16,
    text: Text,
}

fn cases(count: usize) -> Vec<Case> {
    let mut random = Random::new(50);
    (0..count)
        .map(|_| {
            let mut net = any_net(&mut random);
            let stage = stage(&mut random, &net);
            let clearance = clearance(&mut random, &net);
            let list = jumper_list(&mut random, &net, stage, clearance);
            let limit = limit(&mut random, &net);
            let mut file = net.file();
            if random.chance(1, 4) {
                file = any_file(&mut random);
                net = net_of(&file).unwrap_or(net);
            }
            Case {
                version: net.version,
                sections: net.sections(),
                file,
                list,
                stage,
                limit,
                clearance,
                text: any_case(&mut random),
            }
        })
        .collect()
}

/// One of the calls, and the bytes it left.
fn call(case: &Case, which: usize) -> (Answer, Vec<u8>) {
    let mut out = vec![0x5a; 6000];
    let [nodes, wires, obstacles] = &case.sections;
    let (file, text) = (&case.file, &case.text);
    let (stage, limit, clearance) = (case.stage, case.limit, case.clearance);
    let answer = match which % KINDS {
        0 => read(file),
        1 => write(case.version, nodes, wires, obstacles, &mut out),
        2 => report(stage, limit, clearance, file, &case.list, &mut out),
        3 => repair(stage, limit, clearance, file, &mut out),
        _ => def(
            &text.text,
            text.place,
            &text.pins,
            &text.obstacles,
            &mut out,
        ),
    };
    (answer, out)
}

#[test]
fn eight_threads_answer_as_one() {
    let cases = cases(500);
    let alone: Vec<_> = (0..KINDS * cases.len())
        .map(|k| call(&cases[k / KINDS], k))
        .collect();
    std::thread::scope(|scope| {
        for thread in 0..THREADS {
            let (cases, alone) = (&cases, &alone);
            scope.spawn(move || {
                let mut random = Random::new(60 + thread as u64);
                for _ in 0..CALLS / THREADS {
                    let k = random.below(alone.len() as u64) as usize;
                    assert!(call(&cases[k / KINDS], k) == alone[k]);
                }
            });
        }
    });
}

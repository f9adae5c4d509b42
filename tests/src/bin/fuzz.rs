//! Drives the fuzz target with seeds and mutations for the seconds given: fuzz SECONDS [FOLDER].
//! With a folder, inputs that meet an answer not met before are stored there.

use antenna_tests::random::Random;
use antenna_tests::suite::fuzz::{mutate, one, seed, Made};
use std::collections::HashMap;
use std::time::{Duration, Instant};

/// The kind of an answer: call, number, version if it is not 1, whether there is a clearance, and something of place and count.
fn name(made: &Made) -> String {
    let (call, answer) = (made.call, made.answer);
    let version = match made.version {
        1 => "",
        2 => "version-2-",
        _ => "version-other-",
    };
    let clearance = match made.clearance {
        0 => "",
        _ => "clearance-",
    };
    let place = answer.place.min(3) + 4 * answer.count.min(3);
    format!("{call}-{}-{version}{clearance}{place}", answer.number)
}

fn main() {
    let mut words = std::env::args().skip(1);
    let seconds: u64 = words.next().and_then(|w| w.parse().ok()).unwrap_or(60);
    let folder = words.next();
    let end = Instant::now() + Duration::from_secs(seconds);
    let start = std::time::SystemTime::UNIX_EPOCH.elapsed().unwrap();
    let mut random = Random::new(start.as_nanos() as u64);
    let mut met: HashMap<String, u64> = HashMap::new();
    let mut pool: Vec<Vec<u8>> = Vec::new();
    let mut executions = 0u64;
    while Instant::now() < end {
        let mut input = if pool.is_empty() || random.chance(1, 3) {
            seed(&mut random)
        } else {
            pool[random.below(pool.len() as u64) as usize].clone()
        };
        if random.chance(2, 3) {
            mutate(&mut random, &mut input);
        }
        let kept = input.clone();
        let ran = std::panic::catch_unwind(|| one(&kept));
        let Ok(made) = ran else {
            let name = format!("fuzz-{executions}.input");
            std::fs::write(&name, &input).unwrap();
            eprintln!("a difference; the input is in {name}");
            std::process::exit(1);
        };
        executions += 1;
        let name = name(&made);
        let times = met.entry(name.clone()).or_insert(0);
        *times += 1;
        if *times == 1 || random.chance(1, 1000) {
            if let (Some(folder), 1) = (&folder, *times) {
                std::fs::write(format!("{folder}/{name}"), &input).unwrap();
            }
            if pool.len() < 2000 {
                pool.push(input);
            } else {
                let at = random.below(pool.len() as u64) as usize;
                pool[at] = input;
            }
        }
    }
    println!(
        "{executions} executions in {seconds} s, {} kinds of answers, no crash, no difference",
        met.len()
    );
}

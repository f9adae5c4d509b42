//! One call made from any bytes, compared with the independent implementation.
//!
//! The first byte chooses the call, the next few its numbers and lengths, the rest are its slices.

use super::def::compare as compare_def;
use super::met::version_of;
use super::repair::compare;
use super::report::compare_report;
use crate::generate::clearance::clearance;
use crate::generate::def::{any_case, Case};
use crate::generate::late::{late_case, late_shape};
use crate::generate::{any_file, damaged_sections, jumper_list, limit, small_case, stage};
use crate::library;
use crate::library::REPAIR_MOST;
use crate::random::Random;
use crate::reference::net::{read as expected_read, write as expected_write};
use crate::reference::report::net_at;
use crate::reference::table;
use crate::Answer;

/// Takes numbers and slices from the front of the bytes.
struct Input<'a>(&'a [u8]);

impl<'a> Input<'a> {
    fn byte(&mut self) -> u8 {
        match self.0 {
            [first, rest @ ..] => {
                self.0 = rest;
                *first
            }
            [] => 0,
        }
    }

    fn number(&mut self, bytes: u32) -> u32 {
        (0..bytes).map(|k| u32::from(self.byte()) << (8 * k)).sum()
    }

    fn slice(&mut self, length: usize) -> &'a [u8] {
        let (slice, rest) = self.0.split_at(length.min(self.0.len()));
        self.0 = rest;
        slice
    }
}

/// A call that was made: its number, the version of its net, its clearance, and its answer.
pub struct Made {
    pub call: u8,
    pub version: u32,
    /// 0 where the call takes none.
    pub clearance: u16,
    pub answer: Answer,
}

/// Makes the call that the bytes say.
pub fn one(bytes: &[u8]) -> Made {
    let mut input = Input(bytes);
    let call = input.byte() % 5;
    // of a file, where the call takes one
    let mut version = 1;
    let mut clearance = 0;
    let answer = match call {
        0 => {
            version = version_of(input.0);
            let answer = library::read(input.0);
            assert_eq!(answer, expected_read(input.0));
            answer
        }
        1 => {
            version = input.number(4);
            let lent = input.number(2) as usize;
            let nodes_length = input.number(2) as usize;
            let wires_length = input.number(2) as usize;
            let nodes = input.slice(nodes_length);
            let wires = input.slice(wires_length);
            let mut out = vec![0xc3; lent];
            let mut expected_out = out.clone();
            let answer = library::write(version, nodes, wires, input.0, &mut out);
            let expected = expected_write(version, nodes, wires, input.0, &mut expected_out);
            assert_eq!(answer, expected);
            assert!(out == expected_out);
            answer
        }
        2 => {
            let (stage, limit) = (input.number(1), input.number(4));
            clearance = input.number(2) as u16;
            let lent = input.number(2) as usize;
            let list_length = input.number(2) as usize;
            let list = input.slice(list_length);
            version = version_of(input.0);
            compare_report(
                library::report,
                stage,
                limit,
                clearance,
                input.0,
                list,
                lent,
            )
        }
        3 => {
            let (stage, limit) = (input.number(1), input.number(4));
            clearance = input.number(2) as u16;
            let file = input.0;
            version = version_of(file);
            let mut out = vec![0x3c; REPAIR_MOST];
            let answer = library::repair(stage, limit, clearance, file, &mut out);
            match net_at(stage, file) {
                Err(refusal) => assert_eq!(answer, refusal),
                Ok(net) => {
                    let steps: usize = (1..net.nodes.len()).map(|i| net.length(i)).sum();
                    if steps < 20_000 {
                        let least = table::least(&net, stage, limit, clearance);
                        compare(library::repair, &net, stage, limit, clearance, least, false);
                    }
                }
            }
            answer
        }
        _ => {
            let (lent, place) = (input.number(2) as usize, input.number(2) as usize);
            let (pins, obstacles) = (input.number(2) as usize, input.number(2) as usize);
            let case = Case {
                place,
                pins: input.slice(pins).into(),
                obstacles: input.slice(obstacles).into(),
                text: input.0.into(),
            };
            compare_def(library::def, &case, lent)
        }
    };
    Made {
        call,
        version,
        clearance,
        answer,
    }
}

/// A good or damaged input from the generators.
pub fn seed(random: &mut Random) -> Vec<u8> {
    let call = random.below(5) as u8;
    let mut bytes = vec![call];
    let two = |n: usize| (n as u16).to_le_bytes();
    match call {
        0 => bytes.extend(any_file(random)),
        1 => {
            let (version, [nodes, wires, obstacles]) = damaged_sections(random);
            bytes.extend(version.to_le_bytes());
            let needed = 28 + nodes.len() + wires.len() + obstacles.len();
            bytes.extend(two(needed + random.below(4) as usize - 1));
            bytes.extend(two(nodes.len()));
            bytes.extend(two(wires.len()));
            bytes.extend([nodes, wires, obstacles].concat());
        }
        2 if random.chance(1, 2) => {
            let shape = late_shape(random);
            let case = late_case(random, shape);
            let (list, nodes) = (case.list(), case.net.nodes.len());
            bytes.push(case.stage as u8);
            bytes.extend(case.limit.to_le_bytes());
            bytes.extend(case.clearance.to_le_bytes());
            let enough = 12 * (nodes + case.jumpers.len());
            bytes.extend(two(enough.min(65535)));
            bytes.extend(two(list.len()));
            bytes.extend(list);
            bytes.extend(case.net.file());
        }
        4 => bytes.extend(def_seed(&any_case(random), random.below(150) as usize)),
        _ => {
            let (net, mut at, mut most, mut near) = small_case(random, 40);
            if random.chance(1, 3) {
                at = stage(random, &net);
                most = limit(random, &net);
                near = clearance(random, &net);
            }
            if random.chance(1, 30) {
                at = random.pick(&[0, 17, 255]);
            }
            bytes.push(at as u8);
            bytes.extend(most.to_le_bytes());
            bytes.extend(near.to_le_bytes());
            if call == 2 {
                let list = jumper_list(random, &net, at.clamp(1, 16), near);
                bytes.extend(two(12 * random.below(60) as usize));
                bytes.extend(two(list.len()));
                bytes.extend(list);
            }
            let mut file = net.file();
            if random.chance(1, 10) {
                file = any_file(random);
            }
            bytes.extend(file);
        }
    }
    bytes
}

/// A call of def with this many bytes lent, as the input behind its first byte.
fn def_seed(case: &Case, lent: usize) -> Vec<u8> {
    let mut bytes = Vec::new();
    for number in [lent, case.place, case.pins.len(), case.obstacles.len()] {
        bytes.extend((number.min(65535) as u16).to_le_bytes());
    }
    bytes.extend(&case.pins);
    bytes.extend(&case.obstacles);
    bytes.extend(&case.text);
    bytes
}

/// Where an input has the clearance, behind call, stage and limit; none if its call takes none.
fn clearance_of(bytes: &mut [u8]) -> Option<&mut [u8]> {
    match bytes {
        [call, rest @ ..] if [2, 3].contains(&(*call % 5)) => rest.get_mut(5..7),
        _ => None,
    }
}

/// An input changed in a few places.
pub fn mutate(random: &mut Random, bytes: &mut Vec<u8>) {
    for _ in 0..random.range(1, 4) {
        let at = random.below(bytes.len().max(1) as u64) as usize;
        match random.below(8) {
            0 if !bytes.is_empty() => bytes[at] = random.next() as u8,
            1 if !bytes.is_empty() => bytes[at] ^= 1 << random.below(8),
            2 if !bytes.is_empty() => bytes[at] = bytes[at].wrapping_add(1),
            3 if !bytes.is_empty() => bytes[at] = bytes[at].wrapping_sub(1),
            4 => bytes.insert(at, random.next() as u8),
            5 if !bytes.is_empty() => {
                bytes.remove(at);
            }
            6 => {
                if let Some(clearance) = clearance_of(bytes) {
                    let edges = [0u16, 1, 2, 255, 256, 32768, 65534, 65535];
                    clearance.copy_from_slice(&random.pick(&edges).to_le_bytes());
                }
            }
            _ => {
                let from = random.below(bytes.len().max(1) as u64) as usize;
                let length = random.below(12) as usize;
                let part: Vec<u8> = bytes.iter().skip(from).take(length).copied().collect();
                for (k, byte) in part.into_iter().enumerate() {
                    if at + k < bytes.len() {
                        bytes[at + k] = byte;
                    }
                }
            }
        }
    }
}

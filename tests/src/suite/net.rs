//! Reader and writer: refusals 2 to 11, 16 and 20.

use super::met::{version_of, Met};
use crate::generate::{any_file, any_net, damage_file, damaged_sections, net, Shape};
use crate::random::Random;
use crate::reference::net::{
    file, net_of, read as expected_read, sections, write as expected_write, Net,
};
use crate::zeros::{Zeros, WHOLE};
use crate::{Answer, Read, Write};

fn largest_net(random: &mut Random, version: u32) -> Net {
    let shape = Shape {
        version,
        nodes: 256,
        longest: 200,
        obstacles: 256,
    };
    net(random, shape)
}

pub fn compare_read(read: Read, file: &[u8]) -> Answer {
    let expected = expected_read(file);
    assert_eq!(read(file), expected, "{} bytes: {file:?}", file.len());
    expected
}

/// The writer with this many bytes lent.
pub fn compare_write(
    write: Write,
    version: u32,
    [nodes, wires, obstacles]: &[Vec<u8>; 3],
    lent: usize,
) -> Answer {
    let before: Vec<u8> = (0..lent).map(|k| (k * 7 + 13) as u8).collect();
    let (mut out, mut expected_out) = (before.clone(), before);
    let expected = expected_write(version, nodes, wires, obstacles, &mut expected_out);
    let told = || format!("version {version}: {nodes:?} {wires:?} {obstacles:?} {lent}");
    let answer = write(version, nodes, wires, obstacles, &mut out);
    assert_eq!(answer, expected, "{}", told());
    assert!(out == expected_out, "bytes differ: {}", told());
    expected
}

/// How often obstacles in nines met 11 with 20 on the same record, 11 with 20 on a later one, and 20 with 11 on a later one.
#[derive(Debug, Default)]
struct Orders([usize; 3]);

impl Orders {
    fn add(&mut self, section: &[u8], answer: Answer) {
        let records: Vec<&[u8]> = section.chunks_exact(9).collect();
        let number = |b: &[u8], at: usize| u16::from_le_bytes([b[at], b[at + 1]]);
        let reversed = |b: &&[u8]| number(b, 0) > number(b, 4) || number(b, 2) > number(b, 6);
        let out = |b: &&[u8]| !(1..=16).contains(&b[8]);
        let behind = |k: usize| records[k + 1..].iter();
        let k = answer.place as usize;
        match answer.number {
            11 => {
                self.0[0] += usize::from(out(&records[k]));
                self.0[1] += usize::from(behind(k).any(out));
            }
            20 => self.0[2] += usize::from(behind(k).any(reversed)),
            _ => {}
        }
    }

    fn often(&self, one_in: usize, cases: usize) {
        assert!(self.0.iter().all(|met| met * one_in > cases), "{self:?}");
    }
}

/// Random files, good and damaged; every refusal that a version can meet is met often in it.
pub fn random_files(read: Read, cases: usize) {
    let mut random = Random::new(10);
    let (mut met, mut orders) = (Met::default(), Orders::default());
    for _ in 0..cases {
        let file = any_file(&mut random);
        let (version, answer) = (version_of(&file), compare_read(read, &file));
        met.add(version, answer.number);
        if version == 2 && [11, 20].contains(&answer.number) {
            let at = u32::from_le_bytes([file[20], file[21], file[22], file[23]]);
            orders.add(&file[at as usize..], answer);
        }
    }
    println!("read answers by number: {met:?}, {orders:?}");
    met.often(0, &[2], 100, cases);
    met.often(1, &[0, 2, 3, 4, 5, 6, 7, 8, 9, 10, 11], 800, cases);
    met.often(2, &[0, 2, 3, 4, 5, 6, 7, 8, 9, 10, 11, 20], 800, cases);
    orders.often(2000, cases);
}

/// Random sections, good and damaged, and buffers near the need; every refusal that a version can meet is met often in it.
pub fn random_sections(write: Write, cases: usize) {
    let mut random = Random::new(15);
    let (mut met, mut orders) = (Met::default(), Orders::default());
    for _ in 0..cases {
        let (version, sections) = damaged_sections(&mut random);
        let needed: usize = 28 + sections.iter().map(Vec::len).sum::<usize>();
        let lent = match random.below(6) {
            0 => random.below(needed as u64) as usize,
            1 => needed - 1,
            2 => needed,
            _ => needed + random.below(20) as usize,
        };
        let answer = compare_write(write, version, &sections, lent);
        met.add(version, answer.number);
        if version == 2 {
            orders.add(&sections[2], answer);
        }
    }
    println!("write answers by number: {met:?}, {orders:?}");
    met.often(0, &[2], 100, cases);
    met.often(1, &[0, 4, 5, 6, 7, 8, 9, 10, 11, 16], 800, cases);
    met.often(2, &[0, 4, 5, 6, 7, 8, 9, 10, 11, 16, 20], 800, cases);
    orders.often(2000, cases);
}

/// Some nets of both versions, the largest of each among them.
fn some_nets(seed: u64) -> Vec<Net> {
    let mut random = Random::new(seed);
    let mut nets: Vec<Net> = (0..20).map(|_| any_net(&mut random)).collect();
    nets.extend([1, 2].map(|version| largest_net(&mut random, version)));
    nets
}

/// A file cut at every length, and with a byte more, is refused.
pub fn cut_at_every_length(read: Read) {
    for net in some_nets(11) {
        let mut bytes = net.file();
        assert_eq!(compare_read(read, &bytes).number, 0);
        for length in 0..bytes.len() {
            assert!(compare_read(read, &bytes[..length]).number != 0);
        }
        bytes.push(0);
        assert_eq!(compare_read(read, &bytes).number, 3);
    }
}

/// Each byte of a file in turn is changed.
pub fn files_damaged_at_every_byte(read: Read) {
    let mut random = Random::new(12);
    for net in some_nets(12) {
        let mut bytes = net.file();
        for at in 0..bytes.len() {
            let kept = bytes[at];
            for bit in 0..8 {
                bytes[at] = kept ^ (1 << bit);
                compare_read(read, &bytes);
            }
            bytes[at] = random.next() as u8;
            compare_read(read, &bytes);
            bytes[at] = kept;
        }
    }
}

/// Each byte of the sections in turn is changed.
pub fn sections_damaged_at_every_byte(write: Write) {
    let mut random = Random::new(16);
    for net in some_nets(16) {
        let lent = net.file().len();
        let mut sections = net.sections();
        for s in 0..3 {
            for at in 0..sections[s].len() {
                let kept = sections[s][at];
                sections[s][at] = random.pick(&[0, 1, 4, 17, 255, kept ^ 1, kept ^ 128]);
                compare_write(write, net.version, &sections, lent);
                sections[s][at] = kept;
            }
        }
    }
}

/// A net of either version is written in it, and read again it is the same.
pub fn written_is_read(read: Read, write: Write) {
    for net in some_nets(17) {
        let mut out = vec![0; net.file().len()];
        let [nodes, wires, obstacles] = net.sections();
        let answer = write(net.version, &nodes, &wires, &obstacles, &mut out);
        assert_eq!(answer, Answer::done(out.len()));
        assert_eq!(read(&out), Answer::done(net.nodes.len()));
        assert_eq!(net_of(&out), Ok(net));
    }
}

/// A file that is read is the one that its sections are written to in its version.
pub fn read_is_written(read: Read, write: Write, cases: usize) {
    let mut random = Random::new(18);
    let mut met = Met::default();
    for _ in 0..cases {
        let file = any_file(&mut random);
        let number = read(&file).number;
        met.add(version_of(&file), number);
        if number == 0 {
            let (version, [nodes, wires, obstacles]) = sections(&file).unwrap();
            let mut out = vec![0; file.len()];
            let answer = write(version, nodes, wires, obstacles, &mut out);
            assert_eq!(answer, Answer::done(file.len()));
            assert!(out == file, "{file:?}");
        }
    }
    println!("read answers by number: {met:?}");
    assert!([1, 2]
        .iter()
        .all(|&version| met.count(version, 0) * 20 > cases));
}

/// The writer with every length of buffer up to the need and some bytes more.
pub fn every_length_lent(write: Write) {
    let mut random = Random::new(13);
    for _ in 0..30 {
        let net = any_net(&mut random);
        let (sections, needed) = (net.sections(), net.file().len());
        for lent in 0..needed + 10 {
            let answer = compare_write(write, net.version, &sections, lent);
            assert_eq!(answer.number, if lent < needed { 16 } else { 0 });
        }
    }
}

/// Offsets and lengths at the edges of 32 bits, some of which add up only if sums wrap.
pub fn heads_at_the_edges(read: Read, cases: usize) {
    let mut random = Random::new(14);
    let mut refused = 0;
    let edges: [u32; 14] = [
        0,
        1,
        5,
        27,
        28,
        29,
        33,
        0x7fff_ffff,
        0x8000_0000,
        u32::MAX - 27,
        u32::MAX - 32,
        u32::MAX - 4,
        u32::MAX - 1,
        u32::MAX,
    ];
    for _ in 0..cases {
        let net = any_net(&mut random);
        let mut bytes = net.file();
        if random.chance(1, 2) {
            // ends that fit after wrapping
            let first = random.pick(&edges);
            let second = random.pick(&edges);
            let total = bytes.len() as u32;
            let numbers = [
                28,
                first,
                28u32.wrapping_add(first),
                second,
                28u32.wrapping_add(first).wrapping_add(second),
                total
                    .wrapping_sub(28)
                    .wrapping_sub(first)
                    .wrapping_sub(second),
            ];
            for (k, number) in numbers.into_iter().enumerate() {
                bytes[4 + 4 * k..8 + 4 * k].copy_from_slice(&number.to_le_bytes());
            }
        } else {
            for _ in 0..random.range(1, 6) {
                let at = 4 + 4 * random.below(6) as usize;
                bytes[at..at + 4].copy_from_slice(&random.pick(&edges).to_le_bytes());
            }
            if random.chance(1, 4) {
                damage_file(&mut random, &mut bytes);
            }
        }
        refused += usize::from(compare_read(read, &bytes).number == 3);
    }
    assert!(refused * 2 > cases);
}

/// Files of more than 2^32 bytes: nothing of a length is lost.
pub fn very_long_files(read: Read) {
    let mut zeros = Zeros::new(WHOLE + (1 << 20));
    let all = zeros.bytes();
    let mut case = |lengths: [u32; 3], length: usize, number: u32| {
        for version in [1, 2] {
            let mut offset = 28u32;
            all[..4].copy_from_slice(&[version, 0, 3, 0]);
            for (k, part) in lengths.into_iter().enumerate() {
                all[4 + 8 * k..8 + 8 * k].copy_from_slice(&offset.to_le_bytes());
                all[8 + 8 * k..12 + 8 * k].copy_from_slice(&part.to_le_bytes());
                offset = offset.wrapping_add(part);
            }
            let answer = read(&all[..length]);
            assert_eq!(answer, expected_read(&all[..length]));
            assert_eq!(answer.number, number, "{lengths:?} in {length} bytes");
        }
    };
    // the length of the file taken by 32 bits would fit
    case([5, 0, 0], WHOLE + 33, 3);
    case([5, 0, 8], WHOLE + 41, 3);
    case([5, 0, 9], WHOLE + 42, 3);
    case([5, 0, 0], 33, 0);
    // files that really are so long
    case([5, 0, u32::MAX - 7], WHOLE + 33 - 8, 6);
    case([5, 0, u32::MAX - 3], WHOLE + 33 - 4, 6);
    case([5, u32::MAX - 33, 800], WHOLE - 1 + 800, 5);
    case([u32::MAX - 28, 0, 800], WHOLE - 1 + 800, 4);
    case([u32::MAX - 28, 0, 1], WHOLE, 4);
    case([5, 0, u32::MAX - 32], WHOLE, 6);
}

/// Sections whose lengths taken by 32 bits would fit.
pub fn very_long_sections(write: Write) {
    let mut zeros = Zeros::new(WHOLE + (1 << 20));
    let all = zeros.bytes();
    let mut out = vec![0xa5; 100];
    for (version, lengths, number) in [
        (1, [WHOLE + 5, 0, 0], 4),
        (2, [WHOLE + 5, 0, 0], 4),
        (1, [5, WHOLE, 0], 5),
        (2, [5, WHOLE, 0], 5),
        (1, [5, 0, WHOLE], 6),
        (1, [5, 0, WHOLE + 8], 6),
        (2, [5, 0, WHOLE], 6),
        (2, [5, 0, WHOLE + 9], 6),
        // so many nines and no byte more
        (2, [5, 0, WHOLE + 5], 6),
    ] {
        let [nodes, wires, obstacles] = lengths.map(|length| &all[..length]);
        assert_eq!(
            write(version, nodes, wires, obstacles, &mut out),
            Answer::refused(number, 0)
        );
        assert!(out.iter().all(|&b| b == 0xa5));
    }
}

/// A file of no bytes, and the smallest net.
pub fn smallest_files(read: Read) {
    assert_eq!(compare_read(read, &[]).number, 2);
    for version in [1, 2] {
        let file = file(version, &[9, 0, 8, 0, 3], &[], &[]);
        assert_eq!(compare_read(read, &file).number, 0);
    }
}

/// Sections and buffers of no bytes, and the smallest net.
pub fn smallest_sections(write: Write) {
    let empty = || Vec::new();
    let one = || vec![9, 0, 8, 0, 3];
    for version in [1, 2] {
        for (nodes, lent, number) in [(empty(), 0, 4), (one(), 0, 16), (one(), 33, 0)] {
            let sections = [nodes, empty(), empty()];
            let answer = compare_write(write, version, &sections, lent);
            assert_eq!(answer.number, number);
        }
    }
}

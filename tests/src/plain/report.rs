//! The report in one pass by rising wire number: a record is brought up to date where it stands in the lent buffer.

use super::net::{length, net_of, Net, Versioned};
use crate::Answer;

const MOST: usize = 256;

type Entry = [u8; 3];
type Record = [u8; 12];

fn position(&[_, low, high]: &Entry) -> u32 {
    u16::from_le_bytes([low, high]).into()
}

/// The wire of the first entry, or none that there is.
fn first_wire(list: &[Entry]) -> usize {
    list.first().map_or(MOST, |entry| entry[0].into())
}

/// Refusals 12 to 14. A function of its own, so that its loop keeps in registers what it needs.
#[inline(never)]
fn check_list<const WIDTH: usize>(
    net: Net<WIDTH>,
    stage: u32,
    clearance: u16,
    list: &[Entry],
) -> Result<(), Answer> {
    let (mut before, mut k) = (0, 0);
    while k < list.len() {
        let i = first_wire(&list[k..]);
        if i < before {
            return Err(Answer::refused(12, k));
        }
        if i == 0 || i >= net.count() || u32::from(net.layer(i)) > stage {
            return Err(Answer::refused(13, k));
        }
        before = i;
        let wire = net.wire(i);
        let (mut least, behind) = (1, &list[k..]);
        for entry in behind {
            if usize::from(entry[0]) != i {
                break;
            }
            let t = position(entry);
            if t < least {
                let number = if least == 1 { 13 } else { 12 };
                return Err(Answer::refused(number, k));
            }
            if t >= wire.length {
                return Err(Answer::refused(13, k));
            }
            if net.barred(&wire, t, clearance) {
                return Err(Answer::refused(14, k));
            }
            least = t + 1;
            k += 1;
        }
    }
    Ok(())
}

fn write(record: &mut Record, number: usize, position: u32, weight: u32, flags: u8, layers: u32) {
    let name = number as u64 | u64::from(position) << 8;
    let head = name | u64::from(weight) << 24 | u64::from(flags) << 56;
    record[..8].copy_from_slice(&head.to_le_bytes());
    record[8..].copy_from_slice(&layers.to_le_bytes());
}

/// The last four bytes of a record: a mask of layers, their number and the lowest.
fn with_count(layers: u16) -> u32 {
    let lowest = match layers {
        0 => 0,
        _ => layers.trailing_zeros() + 1,
    };
    u32::from(layers) | layers.count_ones() << 16 | lowest << 24
}

fn harmful(limit: u32, weight: u32, flags: u8) -> bool {
    flags == 1 && weight > limit
}

/// Steps of a wire, and a node with these flags, join a piece. All wire of a net weighs less than 2^32.
fn join(record: &mut Record, limit: u32, weight: u32, flags: u8, layers: u16) {
    let [_, _, _, w0, w1, w2, w3, f, l0, l1, count, lowest] = record;
    let sum = u32::from_le_bytes([*w0, *w1, *w2, *w3]) + weight;
    [*w0, *w1, *w2, *w3] = sum.to_le_bytes();
    let joined = *f | flags;
    if joined != *f {
        *f = joined & if joined & 2 == 0 { 7 } else { 3 };
    }
    if harmful(limit, sum, *f) {
        *f = 5;
    }
    let before = u16::from_le_bytes([*l0, *l1]);
    if before | layers != before {
        [*l0, *l1, *count, *lowest] = with_count(before | layers).to_le_bytes();
    }
}

/// The records of the stretches between the entries of a wire.
fn stretches(entries: &[Entry], factor: u32, layers: u32, out: &mut [Record]) {
    for (ends, record) in entries.windows(2).zip(out) {
        let (low, high) = (position(&ends[0]), position(&ends[1]));
        let weight = (high - low) * factor;
        write(record, ends[0][0].into(), low, weight, 0, layers);
    }
}

pub fn report(
    stage: u32,
    limit: u32,
    clearance: u16,
    file: &[u8],
    list: &[u8],
    out: &mut [u8],
) -> Answer {
    if stage == 0 || stage > 16 {
        return Answer::refused(1, 0);
    }
    match net_of(file) {
        Ok(Versioned::One(net)) => report_of(net, stage, limit, clearance, list, out),
        Ok(Versioned::Two(net)) => report_of(net, stage, limit, clearance, list, out),
        Err(refusal) => refusal,
    }
}

fn report_of<const WIDTH: usize>(
    net: Net<WIDTH>,
    stage: u32,
    limit: u32,
    clearance: u16,
    list: &[u8],
    out: &mut [u8],
) -> Answer {
    let (list, rest) = list.as_chunks::<3>();
    if !rest.is_empty() {
        return Answer::refused(12, 0);
    }
    if let Err(refusal) = check_list(net, stage, clearance, list) {
        return refusal;
    }
    let stage = stage as u8;
    let absent = net.wires.iter().filter(|wire| wire[1] > stage).count();
    let records = 1 + absent + list.len();
    let (out, _) = out.as_chunks_mut();
    if out.len() < records {
        return Answer::refused(16, 12 * records);
    }
    write_records(net, stage, limit, list, &mut out[..records]);
    Answer::done(records)
}

fn write_records<const WIDTH: usize>(
    net: Net<WIDTH>,
    stage: u8,
    limit: u32,
    mut list: &[Entry],
    out: &mut [Record],
) {
    // where the record of each node's piece stands
    let mut places = [0u32; MOST];
    write(&mut out[0], 0, 0, 0, net.flags(0), 0);
    let mut next = 1;
    let mut cut = first_wire(list);
    for (i, (node, &[parent, layer, factor])) in (1..).zip(net.nodes[1..].iter().zip(net.wires)) {
        let flags = node[4];
        if layer > stage {
            write(&mut out[next], i, 0, 0, flags, 0);
            places[i] = next as u32;
            next += 1;
            continue;
        }
        let (parent, factor) = (usize::from(parent), u32::from(factor));
        let length = length(node, &net.nodes[parent]);
        let mask = u16::from(length > 0) << (layer - 1);
        let above = places[parent];
        let joined = &mut out[above as usize];
        if i != cut {
            join(joined, limit, length * factor, flags, mask);
            places[i] = above;
            continue;
        }
        let of_wire = list.iter().take_while(|entry| usize::from(entry[0]) == i);
        let (entries, behind) = list.split_at(of_wire.count());
        let (first, last) = (position(&entries[0]), position(&entries[entries.len() - 1]));
        join(joined, limit, (length - last) * factor, 0, mask);
        let (weight, layers) = (first * factor, with_count(mask));
        let harm = u8::from(harmful(limit, weight, flags)) << 2;
        write(&mut out[next], i, 0, weight, flags | harm, layers);
        stretches(entries, factor, layers, &mut out[next + 1..]);
        places[i] = next as u32;
        next += entries.len();
        list = behind;
        cut = first_wire(list);
    }
}

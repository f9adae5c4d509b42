//! Where wires of one layer that run along x meet wires that run along y: at ends, in their middles, crossing.

use std::collections::BTreeSet;

/// A stretch of a track: the track's own coordinate, then from and to along it.
pub type Stretch = (i64, i64, i64);

/// Stretches of one track that touch become one.
pub fn merged(mut stretches: Vec<Stretch>) -> Vec<Stretch> {
    stretches.sort();
    let mut merged: Vec<Stretch> = Vec::new();
    for (track, from, to) in stretches {
        match merged.last_mut() {
            Some(last) if last.0 == track && from <= last.2 => last.2 = last.2.max(to),
            _ => merged.push((track, from, to)),
        }
    }
    merged
}

enum Event {
    Begin,
    Cross(i64, i64),
    End,
}

/// Every x and y where a merged stretch along x meets one along y. None if these are twice as many as the stretches or more:
/// two stretches meet once at most, so from as many meetings as stretches on there are loops.
pub fn contacts(along_x: &[Stretch], along_y: &[Stretch]) -> Option<Vec<(i64, i64)>> {
    let mut events: Vec<(i64, u8, i64, Event)> = Vec::new();
    for &(y, from, to) in along_x {
        events.push((from, 0, y, Event::Begin));
        events.push((to, 2, y, Event::End));
    }
    for &(x, from, to) in along_y {
        events.push((x, 1, from, Event::Cross(from, to)));
    }
    events.sort_by_key(|&(x, turn, y, _)| (x, turn, y));
    let most = 2 * (along_x.len() + along_y.len());
    let mut open: BTreeSet<i64> = BTreeSet::new();
    let mut found = Vec::new();
    for (x, _, y, event) in events {
        match event {
            Event::Begin => {
                open.insert(y);
            }
            Event::End => {
                open.remove(&y);
            }
            Event::Cross(from, to) => {
                found.extend(open.range(from..=to).take(most).map(|&y| (x, y)));
                if found.len() >= most {
                    return None;
                }
            }
        }
    }
    Some(found)
}

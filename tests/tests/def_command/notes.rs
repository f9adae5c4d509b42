//! Notes on vias that stand one step beside their points, and which points are lost to jumpers by that.

use super::metal::{At, Inside};
use std::collections::BTreeSet;

pub const NOTE: &str =
    "a via stands one step beside its point; one point of each wire there is lost to jumpers";

/// The via that a note names: its lowest and highest layer, x and y.
pub type Via = ([u8; 2], i64, i64);

/// The notes on a net among all that was told of a text, where the via stands behind '( X Y )'.
pub fn notes(errors: &str, net: &str, text: &str) -> Vec<Via> {
    let end = format!(": note: net '{net}': {NOTE}");
    let places = errors.lines().filter_map(|line| line.strip_suffix(&end));
    places.map(|place| via_at(place, text)).collect()
}

/// The via at a place, 'antenna: FILE:LINE:COLUMN'.
fn via_at(place: &str, text: &str) -> Via {
    let mut numbers = place.rsplit(':').map(|word| word.parse::<usize>());
    let column = numbers.next().unwrap().unwrap();
    let line = numbers.next().unwrap().unwrap();
    let (before, via) = text.lines().nth(line - 1).unwrap().split_at(column - 1);
    let words: Vec<&str> = before.split_whitespace().collect();
    let [.., "(", x, y, ")"] = words[..] else {
        panic!("{place}: {before}")
    };
    let via = via.split_whitespace().next().unwrap();
    let (high, low) = via[1..].split_once("_M").unwrap();
    let [low, high] = [low, high].map(|layer| layer.parse().unwrap());
    ([low, high], x.parse().unwrap(), y.parse().unwrap())
}

/// Of the points where a jumper can stand, a net file has all inside its wires but one of each wire at each via of the notes.
pub fn lost_as_noted(points: BTreeSet<At>, inside: &[Inside], notes: &[Via], text: &str) {
    let mut lost = points;
    for point in inside {
        assert!(lost.remove(&point.at), "{text}: {:?}", point.at);
    }
    for &([low, high], x, y) in notes {
        let beside = [(x - 1, y), (x + 1, y), (x, y - 1), (x, y + 1)];
        let pair = |(x, y)| (low..high).map(move |k| [(k, x, y), (k + 1, x, y)]);
        let mut pairs = beside.into_iter().flat_map(pair);
        let both = pairs.find(|pair| pair.iter().all(|at| lost.contains(at)));
        for at in both.expect(text) {
            lost.remove(&at);
        }
    }
    assert!(lost.is_empty(), "{text}: {lost:?}");
}

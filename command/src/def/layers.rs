//! The numbers of layers, from the names of layers and vias.

use super::scan::Word;
use std::collections::HashMap;

const MOST: u8 = 16;

/// metal1, met1 or M1, in any case, to 16.
pub fn layer(name: &[u8]) -> Option<u8> {
    let (layer, rest) = leading_layer(name)?;
    rest.is_empty().then_some(layer)
}

/// The layer that a name begins with, and what follows.
fn leading_layer(name: &[u8]) -> Option<(u8, &[u8])> {
    let prefix = ["metal", "met", "m"].into_iter().find(|prefix| {
        name.get(..prefix.len())
            .is_some_and(|start| start.eq_ignore_ascii_case(prefix.as_bytes()))
    })?;
    leading_number(&name[prefix.len()..])
}

fn leading_number(bytes: &[u8]) -> Option<(u8, &[u8])> {
    let digits = bytes.iter().take_while(|b| b.is_ascii_digit()).count();
    let (number, rest) = bytes.split_at(digits);
    let value: u8 = std::str::from_utf8(number).ok()?.parse().ok()?;
    (number[0] != b'0' && value <= MOST).then_some((value, rest))
}

/// The lowest and highest layer that a via joins.
pub type Span = (u8, u8);

/// The vias that the file defines; of others the name says the layers.
#[derive(Default)]
pub struct Vias<'a>(HashMap<&'a [u8], Span>);

impl<'a> Vias<'a> {
    /// An entry of the section VIAS, behind its '-'.
    pub fn define(&mut self, words: &[Word<'a>]) {
        let Some((name, rest)) = words.split_first() else {
            return;
        };
        let layers = rest.iter().filter_map(|word| layer(word.bytes));
        let (low, high) = (layers.clone().min(), layers.max());
        if let (Some(low), Some(high)) = (low, high) {
            if low < high {
                self.0.insert(name.bytes, (low, high));
            }
        }
    }

    pub fn span(&self, name: &[u8]) -> Option<Span> {
        self.0.get(name).copied().or_else(|| named(name))
    }
}

/// M2_M1, M1M2_PR, VIA12, or the number of the layer below, as via2 and via2_1, whatever follows.
fn named(name: &[u8]) -> Option<Span> {
    if let Some((one, rest)) = leading_layer(name) {
        let rest = rest.strip_prefix(b"_").unwrap_or(rest);
        let (other, _) = leading_layer(rest)?;
        return neighbours(one, other);
    }
    let (start, rest) = name.split_at_checked(3)?;
    if !start.eq_ignore_ascii_case(b"via") {
        return None;
    }
    let digits = rest.iter().take_while(|b| b.is_ascii_digit()).count();
    match rest[..digits] {
        [a, b] if b == a + 1 => neighbours(a - b'0', b - b'0'),
        _ => {
            let (below, _) = leading_number(rest)?;
            neighbours(below, below + 1)
        }
    }
}

fn neighbours(a: u8, b: u8) -> Option<Span> {
    let (low, high) = (a.min(b), a.max(b));
    (low >= 1 && high == low + 1 && high <= MOST).then_some((low, high))
}

//! Why a net is not read, and where that stands.

use crate::library::Answer;

/// A place in the DEF text, or a line of the pins.
#[derive(Clone, Copy)]
pub enum Place {
    Text(usize),
    Pins(usize),
}

pub struct Reason {
    pub place: Place,
    pub why: Why,
}

pub enum Why {
    Said(String),
    /// The library's refusal.
    Refused(Answer),
}

impl Reason {
    pub fn text(at: usize, message: String) -> Reason {
        Reason {
            place: Place::Text(at),
            why: Why::Said(message),
        }
    }

    pub fn pins(line: usize, message: String) -> Reason {
        Reason {
            place: Place::Pins(line),
            why: Why::Said(message),
        }
    }
}

/// Where the lines of a text begin.
pub struct Lines(Vec<usize>);

impl Lines {
    pub fn of(text: &[u8]) -> Lines {
        let ends = text.iter().enumerate().filter(|(_, b)| **b == b'\n');
        Lines([0].into_iter().chain(ends.map(|(k, _)| k + 1)).collect())
    }

    /// Line and column of a byte, both from 1.
    pub fn at(&self, place: usize) -> (usize, usize) {
        let line = self.0.partition_point(|begin| *begin <= place);
        (line, place - self.0[line - 1] + 1)
    }
}

/// Bytes of a file for people: what is not printable ASCII is escaped.
pub fn shown(bytes: &[u8]) -> String {
    let mut text = String::new();
    for &b in bytes {
        match b {
            b' '..=b'~' => text.push(b.into()),
            _ => text.push_str(&format!("\\x{b:02x}")),
        }
    }
    text
}

/// The beginning of a word, in a message.
pub fn brief(bytes: &[u8]) -> String {
    const MOST: usize = 80;
    match bytes.get(..MOST) {
        Some(start) => format!("{}...", shown(start)),
        None => shown(bytes),
    }
}

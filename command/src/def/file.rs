//! A DEF file: its nets, with the vias and the die area that it defines.

use super::layers::Vias;
use super::place::Reason;
use super::route::{whole, Point, Route};
use super::scan::{Word, Words};
use std::collections::HashSet;

pub struct Net {
    pub name: Vec<u8>,
    /// The place of the name, or of the first word.
    pub at: usize,
    pub route: Result<Route, Reason>,
}

pub struct File {
    pub nets: Vec<Net>,
    /// The lower left corner of the die area.
    pub die: Option<Point>,
    /// How many nets the section NETS says it has, with the place of its name, and how many it has.
    pub counted: Option<(usize, usize)>,
    pub listed: usize,
}

const SECTIONS: [&str; 15] = [
    "BLOCKAGES",
    "COMPONENTS",
    "FILLS",
    "GROUPS",
    "NETS",
    "NONDEFAULTRULES",
    "PINPROPERTIES",
    "PINS",
    "PROPERTYDEFINITIONS",
    "REGIONS",
    "SCANCHAINS",
    "SLOTS",
    "SPECIALNETS",
    "STYLES",
    "VIAS",
];

struct Reader<'a> {
    words: Words<'a>,
    /// The name of the section read, if one is.
    section: Option<Word<'a>>,
    vias: Vias<'a>,
    names: HashSet<Vec<u8>>,
    file: File,
}

impl File {
    pub fn of(text: &[u8]) -> File {
        let mut reader = Reader {
            words: Words::of(text),
            section: None,
            vias: Vias::default(),
            names: HashSet::new(),
            file: File {
                nets: Vec::new(),
                die: None,
                counted: None,
                listed: 0,
            },
        };
        while let Some(statement) = reader.statement() {
            reader.read(&statement);
        }
        reader.file
    }
}

impl<'a> Reader<'a> {
    /// The words up to a ';', or up to where another statement begins.
    fn statement(&mut self) -> Option<Vec<Word<'a>>> {
        let mut last = self.words.next()?;
        let mut words = vec![last];
        if last.is("END") {
            words.extend(self.words.next());
            return Some(words);
        }
        let extension = last.is("BEGINEXT");
        let end = if extension { "ENDEXT" } else { ";" };
        let entry = last.any(&["-", "+"]);
        while !last.is(end) {
            let mut after = self.words.clone();
            match after.next() {
                Some(next) if extension || !begins(entry, next, &after) => last = next,
                _ => break,
            }
            self.words = after;
            words.push(last);
        }
        Some(words)
    }

    fn read(&mut self, words: &[Word<'a>]) {
        let first = words[0];
        if first.is("END") {
            self.section = None;
        } else if first.any(&SECTIONS) {
            self.section = Some(first);
            let count = words.get(1).and_then(|word| whole(word.bytes));
            if let (true, Some(count)) = (first.is("NETS"), count) {
                self.file.counted = Some((first.at, count as usize));
            }
        } else if first.is("DIEAREA") {
            self.file.die = self.file.die.or(corner(words));
        } else if self.within("VIAS") && first.is("-") {
            self.vias.define(&words[1..]);
        } else if (self.section.is_none() || self.within("NETS")) && first.any(&["-", "+"]) {
            self.file.listed += usize::from(self.section.is_some());
            self.net(words);
        }
    }

    fn within(&self, section: &str) -> bool {
        self.section.is_some_and(|word| word.is(section))
    }

    /// A net behind '-' and its name, or without a name: then its number is its name.
    fn net(&mut self, words: &[Word<'a>]) {
        let entry = words[0].is("-");
        let second = words.get(1).filter(|_| entry);
        let name = second.filter(|word| !word.any(&[";", "+", "("]));
        let at = name.map_or(words[0].at, |word| word.at);
        let text = match name {
            Some(word) => word.bytes.to_vec(),
            None => self.file.nets.len().to_string().into_bytes(),
        };
        let wrong = |message: &str| Err(Reason::text(at, message.into()));
        let route = if entry && name.is_none() {
            wrong("a net without a name")
        } else if !self.names.insert(text.clone()) {
            wrong("another net has this name already")
        } else {
            let rest = if entry { &words[2..] } else { words };
            Route::of(rest, at, &self.vias)
        };
        self.file.nets.push(Net {
            name: text,
            at,
            route,
        });
    }
}

/// Does a statement begin with this word, whatever stands before it? A '+' goes on with an entry.
fn begins(entry: bool, word: Word, after: &Words) -> bool {
    let ends = |name: Word| name.is("DESIGN") || name.any(&SECTIONS);
    let next = |is: &dyn Fn(Word) -> bool| after.clone().next().is_some_and(is);
    word.is("-")
        || (word.is("END") && next(&ends))
        || (word.is("+") && !entry && next(&|word| word.is("ROUTED")))
}

/// The least x and the least y of the points named.
fn corner(words: &[Word]) -> Option<Point> {
    let numbers: Vec<i64> = words.iter().filter_map(|word| whole(word.bytes)).collect();
    let pairs = numbers.chunks_exact(2);
    Some(Point {
        x: pairs.clone().map(|pair| pair[0]).min()?,
        y: pairs.map(|pair| pair[1]).min()?,
    })
}

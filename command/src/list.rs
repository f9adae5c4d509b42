//! Jumper lists, in text form and as the library has them.

use crate::files;
use crate::library::JUMPER_BYTES;
use crate::text::lines;
use crate::words::{count, number, Refusal};
use std::fmt::Write;

#[derive(Clone, Default)]
pub struct List {
    name: String,
    pub bytes: Vec<u8>,
    /// The line of each entry, in text form.
    lines: Vec<usize>,
}

impl List {
    pub fn of_bytes(bytes: Vec<u8>) -> List {
        List {
            bytes,
            ..List::default()
        }
    }

    /// Lines 'WIRE POSITION'; a line 'jumpers COUNT' may stand first.
    pub fn load(name: &str) -> Result<List, Refusal> {
        let bytes = files::load(name)?;
        let text = String::from_utf8_lossy(&bytes);
        let mut list = List {
            name: name.into(),
            ..List::default()
        };
        let mut told = None;
        for (line, words) in lines(&text) {
            let entry = match words[..] {
                ["jumpers", count] if told.is_none() && list.len() == 0 => {
                    number(count, u32::MAX.into()).map(|count| told = Some((line, count)))
                }
                [wire, position] => list.push(line, wire, position),
                _ => Err("a jumper is 'WIRE POSITION'".into()),
            };
            entry.map_err(|message| Refusal::text(format!("{name}:{line}: {message}")))?;
        }
        match told {
            Some((line, told)) if told != list.len() as u64 => Err(Refusal::text(format!(
                "{name}:{line}: 'jumpers {told}', but the list has {}",
                count(list.len(), "jumper")
            ))),
            _ => Ok(list),
        }
    }

    fn push(&mut self, line: usize, wire: &str, position: &str) -> Result<(), String> {
        let wire = number(wire, u8::MAX.into())? as u8;
        let position = number(position, u16::MAX.into())? as u16;
        self.bytes.push(wire);
        self.bytes.extend(position.to_le_bytes());
        self.lines.push(line);
        Ok(())
    }

    pub fn len(&self) -> usize {
        self.bytes.len() / JUMPER_BYTES
    }

    /// Where the user finds entry k.
    pub fn place(&self, k: usize) -> String {
        match self.lines.get(k) {
            Some(line) => format!("{}:{line}", self.name),
            None => self.name.clone(),
        }
    }

    /// The points, as wire and position.
    pub fn points(&self) -> Vec<(usize, usize)> {
        let entries = self.bytes.chunks(JUMPER_BYTES);
        let point = |b: &[u8]| (b[0] as usize, u16::from_le_bytes([b[1], b[2]]) as usize);
        entries.map(point).collect()
    }

    pub fn lines(&self) -> String {
        let mut text = format!("jumpers {}\n", self.len());
        for (wire, position) in self.points() {
            let _ = writeln!(text, "{wire} {position}");
        }
        text
    }

    pub fn json(&self) -> String {
        let points = self.points().into_iter();
        let points = points
            .map(|(wire, position)| format!("{{\"wire\": {wire}, \"position\": {position}}}"));
        format!("\"jumpers\": [{}]", points.collect::<Vec<_>>().join(", "))
    }
}

//! `antenna def`: the nets of a DEF file.

use crate::def::bar::Bar;
use crate::def::described::described;
use crate::def::file::{File, Net};
use crate::def::folder::{file_name, Folder};
use crate::def::place::{brief, shown, Lines, Place, Reason, Why};
use crate::def::read::{Read, Reader};
use crate::files;
use crate::net;
use crate::options::Options;
use crate::words::{count, Failure, Refusal, FINE, REFUSED};
use std::fmt::Write;

pub fn def(options: &Options) -> Result<u8, Failure> {
    let bytes = files::load(&options.nets[0])?;
    let file = File::of(&bytes);
    if file.nets.is_empty() {
        let message = format!("{}: no net is in this file", options.nets[0]);
        return Err(Refusal::text(message).into());
    }
    let mut run = Run {
        options,
        places: Lines::of(&bytes),
        reader: Reader::of(options, &file)?,
        folder: options.out.as_deref().map(Folder::open).transpose()?,
        lines: String::new(),
        read: 0,
        beside: 0,
        total: file.nets.len(),
    };
    let counted = file.counted.map(|(at, count)| (at, count, file.listed));
    let mut bar = Bar::of(run.total);
    for (k, net) in file.nets.into_iter().enumerate() {
        bar.at(k);
        let said = run.net(net);
        if !matches!(&said, Ok(messages) if messages.is_empty()) {
            bar.clear();
        }
        for message in said? {
            files::tell(&message);
        }
    }
    bar.clear();
    let complete = run.complete(counted);
    let known = run.pins_are_known();
    run.print()?;
    let fine = run.read == run.total && complete && known;
    Ok(if fine { FINE } else { REFUSED })
}

struct Run<'a> {
    options: &'a Options,
    places: Lines,
    reader: Reader,
    folder: Option<Folder>,
    /// A line for each net.
    lines: String,
    read: usize,
    /// How many of those have a via beside its point.
    beside: usize,
    total: usize,
}

impl Run<'_> {
    /// Reads a net, stores it and adds its line; what there is to tell about it is returned.
    fn net(&mut self, net: Net) -> Result<Vec<String>, Failure> {
        let (name, cut) = (shown(&net.name), brief(&net.name));
        let (line, messages) = match self.stored(net)? {
            Ok((line, beside)) => {
                self.read += 1;
                self.beside += usize::from(!beside.is_empty());
                let notes = beside.into_iter().map(|via| self.note(&cut, via));
                (line, notes.collect())
            }
            Err(reason) => {
                let refusal = self.refusal(&cut, reason);
                (refusal.line(), vec![refusal.message])
            }
        };
        let _ = writeln!(self.lines, "{name}: {line}");
        Ok(messages)
    }

    /// The line of a net, and the places of vias that stand beside their points.
    fn stored(&mut self, net: Net) -> Result<Result<(String, Vec<usize>), Reason>, Failure> {
        let name = file_name(&net.name);
        if name.is_none() && self.folder.is_some() {
            let message = "its name is too long for a file";
            self.reader.pins.remove(&net.name);
            return Ok(Err(Reason::text(net.at, message.into())));
        }
        let Read { file, beside } = match self.reader.read(net) {
            Ok(read) => read,
            Err(reason) => return Ok(Err(reason)),
        };
        if let (Some(folder), Some(name)) = (&self.folder, name) {
            folder.store(&name, &file)?;
        }
        let net = net::Net::of_file("a net just read", file)?;
        Ok(Ok((described(&net, self.options), beside)))
    }

    fn note(&self, name: &str, via: usize) -> String {
        let place = self.place(Place::Text(via));
        format!("{place}: note: net '{name}': a via stands one step beside its point; one point of each wire there is lost to jumpers")
    }

    /// Where the user finds it.
    fn place(&self, place: Place) -> String {
        match place {
            Place::Text(at) => {
                let (line, column) = self.places.at(at);
                format!("{}:{line}:{column}", self.options.nets[0])
            }
            Place::Pins(line) => {
                let pins = self.options.pins.as_deref();
                format!("{}:{line}", pins.unwrap_or_default())
            }
        }
    }

    fn refusal(&self, name: &str, reason: Reason) -> Refusal {
        let place = format!("{}: net '{name}'", self.place(reason.place));
        match reason.why {
            Why::Said(message) => Refusal::text(format!("{place}: {message}")),
            Why::Refused(answer) => Refusal::at(&place, answer),
        }
    }

    /// Says if the section NETS has more or fewer nets than it says: some may be lost.
    fn complete(&self, counted: Option<(usize, usize, usize)>) -> bool {
        let Some((at, count, listed)) = counted.filter(|(_, count, listed)| count != listed) else {
            return true;
        };
        let place = self.place(Place::Text(at));
        files::tell(&format!("{place}: NETS {count}, but {listed} are there"));
        false
    }

    /// Says which pins are of nets that the file does not have.
    fn pins_are_known(&self) -> bool {
        let mut pins: Vec<_> = self.reader.pins.iter().collect();
        pins.sort_by_key(|(_, pins)| pins.line(0));
        for (net, pins) in &pins {
            let place = self.place(Place::Pins(pins.line(0)));
            let (net, def) = (brief(net), &self.options.nets[0]);
            files::tell(&format!("{place}: {def} has no net '{net}'"));
        }
        pins.is_empty()
    }

    fn print(&self) -> Result<(), Failure> {
        if self.options.text {
            return files::store(None, &self.reader.text);
        }
        let lines = if self.folder.is_some() {
            ""
        } else {
            &self.lines
        };
        let (read, total) = (self.read, count(self.total, "net"));
        let (corner, grid) = (self.reader.scale.corner, self.reader.scale.grid);
        let steps = if grid == 1 {
            String::new()
        } else {
            format!(", a step is {grid}")
        };
        let beside = match self.beside {
            0 => String::new(),
            nets => format!(", {nets} with a via beside its point"),
        };
        files::print(&format!(
            "{lines}{read} of {total} read{beside}; 0 0 is {} {} of the file{steps}\n",
            corner.x, corner.y
        ))
    }
}

//! The nets of a file, one after another, as the library reads them.

use super::file::{File, Net};
use super::obstacles::{self, Obstacle};
use super::pins::Pins;
use super::place::{Place, Reason, Why};
use super::scale::Scale;
use super::Rewritten;
use crate::library::{self, Answer};
use crate::options::Options;
use crate::words::Refusal;
use std::collections::HashMap;

/// The most bytes of a net file: its head, 256 nodes, 255 wires, 256 obstacles.
const FILE_MOST: usize = 28 + 5 * 256 + 3 * 255 + 8 * 256;

/// A net as it was read.
pub struct Read {
    /// The net file.
    pub file: Vec<u8>,
    /// The places of vias that stand one step beside their points.
    pub beside: Vec<usize>,
}

pub struct Reader {
    pub scale: Scale,
    /// Those of nets that are still to come.
    pub pins: HashMap<Vec<u8>, Pins>,
    obstacles: Vec<Obstacle>,
    /// The nets read, in the library's form.
    pub text: Vec<u8>,
}

impl Reader {
    pub fn of(options: &Options, file: &File) -> Result<Reader, Refusal> {
        let scale = Scale::of(file, options.grid());
        let pins = options.pins.as_deref().map(Pins::load);
        let obstacles = options.obstacles.as_deref();
        let clearance = options.clearance_in_units();
        let obstacles = obstacles.map(|name| obstacles::load(name, clearance, &scale));
        Ok(Reader {
            scale,
            pins: pins.transpose()?.unwrap_or_default(),
            obstacles: obstacles.transpose()?.unwrap_or_default(),
            text: Vec::new(),
        })
    }

    /// The text keeps only nets that are read.
    pub fn read(&mut self, net: Net) -> Result<Read, Reason> {
        let begin = self.text.len();
        let read = self.by_library(net);
        if read.is_err() {
            self.text.truncate(begin);
        }
        read
    }

    fn by_library(&mut self, net: Net) -> Result<Read, Reason> {
        let pins = self.pins.remove(&net.name).unwrap_or_default();
        let route = self.scale.route(net.route?)?;
        let pins = pins.scaled(&self.scale)?;
        let rewritten = Rewritten::of(route, &pins, net.at)?;
        let begin = self.text.len();
        self.text.extend(rewritten.written.text.as_bytes());
        let obstacles = obstacles::section(&self.obstacles, &rewritten.wires());
        let mut file = vec![0; FILE_MOST];
        let pin_bytes = pins.bytes(&rewritten)?;
        let answer = library::def(&self.text, begin, &pin_bytes, &obstacles, &mut file);
        if answer.number != library::DONE {
            let place = place(answer, begin, &rewritten, &pins, net.at);
            let why = Why::Refused(answer);
            return Err(Reason { place, why });
        }
        if answer.place as usize != self.text.trim_ascii_end().len() {
            let message = "the library read another text: please report this error";
            return Err(Reason::text(net.at, message.into()));
        }
        file.truncate(answer.count as usize);
        let beside = rewritten.beside;
        Ok(Read { file, beside })
    }
}

/// Where the user finds what the library refused.
fn place(answer: Answer, begin: usize, net: &Rewritten, pins: &Pins, net_at: usize) -> Place {
    let place = answer.place as usize;
    let at = match answer.number {
        library::REFUSED_DEF_PIN => return Place::Pins(pins.line(place)),
        library::REFUSED_DEF_FORM | library::REFUSED_DEF_POINT => {
            net.written.source(place.saturating_sub(begin))
        }
        library::REFUSED_NODE_FLAGS..=library::REFUSED_WIRE_ENDS => net.written.node(place),
        _ => None,
    };
    Place::Text(at.unwrap_or(net_at))
}

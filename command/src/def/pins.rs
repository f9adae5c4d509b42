//! Pins and obstacles in text form, in the coordinates of the DEF file.

use super::layers::layer;
use super::place::Reason;
use super::route::{whole, Node, Point};
use super::scale::Scale;
use super::Rewritten;
use crate::files;
use crate::library::{FLAG_GATE, FLAG_SOURCE};
use crate::text::lines;
use crate::words::Refusal;
use std::collections::HashMap;

struct Pin {
    node: Node,
    flags: u8,
    line: usize,
}

/// The pins of one net.
#[derive(Default)]
pub struct Pins(Vec<Pin>);

impl Pins {
    /// The pins of each net of the file named.
    pub fn load(name: &str) -> Result<HashMap<Vec<u8>, Pins>, Refusal> {
        let mut nets: HashMap<Vec<u8>, Pins> = HashMap::new();
        each_line(name, |line, words| {
            let (net, pin) = pin(line, words)?;
            nets.entry(net).or_default().0.push(pin);
            Ok(())
        })?;
        Ok(nets)
    }

    pub fn line(&self, k: usize) -> usize {
        self.0.get(k).map_or(0, |pin| pin.line)
    }

    pub fn nodes(&self) -> Vec<Node> {
        self.0.iter().map(|pin| pin.node).collect()
    }

    /// In steps.
    pub fn scaled(self, scale: &Scale) -> Result<Pins, Reason> {
        let pin = |pin: Pin| {
            let point = scale.point(pin.node.point);
            let point = point.map_err(|message| Reason::pins(pin.line, message))?;
            let node = Node { point, ..pin.node };
            Ok(Pin { node, ..pin })
        };
        Ok(Pins(self.0.into_iter().map(pin).collect::<Result<_, _>>()?))
    }

    /// As the library takes them, each at the node of the net that it belongs to.
    pub fn bytes(&self, net: &Rewritten) -> Result<Vec<u8>, Reason> {
        let mut bytes = Vec::new();
        for pin in &self.0 {
            let Node { point, layer } = net.node_of(pin.node);
            if layer < pin.node.layer {
                return Err(Reason::pins(pin.line, above(pin.node.layer)));
            }
            bytes.extend((point.x as u16).to_le_bytes());
            bytes.extend((point.y as u16).to_le_bytes());
            bytes.extend([layer, pin.flags]);
        }
        Ok(bytes)
    }
}

/// A node of the wire below would have the pin at stages too low for it.
fn above(layer: u8) -> String {
    format!("no wire of metal{layer} is at this pin, only a via up from a lower layer (name that layer, and the pin counts from its stage on)")
}

/// Tries each line of a file; a message is given the file and the line.
pub fn each_line(
    name: &str,
    mut take: impl FnMut(usize, &[&str]) -> Result<(), String>,
) -> Result<(), Refusal> {
    let bytes = files::load(name)?;
    for (line, words) in lines(&String::from_utf8_lossy(&bytes)) {
        take(line, &words).map_err(|message| Refusal::text(format!("{name}:{line}: {message}")))?;
    }
    Ok(())
}

pub fn coordinate(word: &str) -> Result<i64, String> {
    whole(word.as_bytes()).ok_or_else(|| format!("'{word}' is no whole number"))
}

fn pin(line: usize, words: &[&str]) -> Result<(Vec<u8>, Pin), String> {
    let ["pin", net, "at", x, y, name, flags @ ..] = words else {
        return Err("a pin is 'pin NET at X Y LAYER', then 'gate' or 'source'".into());
    };
    let point = Point {
        x: coordinate(x)?,
        y: coordinate(y)?,
    };
    let Some(layer) = layer(name.as_bytes()) else {
        return Err(format!("'{name}' is no layer, metal1 to metal16"));
    };
    let mut all = 0;
    for word in flags {
        all |= match *word {
            "gate" => FLAG_GATE,
            "source" => FLAG_SOURCE,
            _ => return Err(format!("'{word}' is neither 'gate' nor 'source'")),
        };
    }
    let node = Node { point, layer };
    let pin = Pin {
        node,
        flags: all,
        line,
    };
    Ok((net.as_bytes().to_vec(), pin))
}

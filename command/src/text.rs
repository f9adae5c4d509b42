//! Nets in text form.

use crate::library::{FLAG_GATE, FLAG_SOURCE, NEWEST_VERSION};
use crate::net::{layered, Net, Obstacle, Sections};
use crate::words::{number, Refusal};
use std::fmt::Write;

/// The words of each line that has some, with its number.
pub fn lines(text: &str) -> impl Iterator<Item = (usize, Vec<&str>)> {
    text.lines()
        .enumerate()
        .map(|(k, line)| {
            let line = line.split('#').next().unwrap_or("");
            (k + 1, line.split_whitespace().collect())
        })
        .filter(|(_, words): &(usize, Vec<&str>)| !words.is_empty())
}

/// The version, or one record into its section.
fn record(sections: &mut Sections, line: usize, words: &[&str]) -> Result<(), String> {
    let coordinate = |word: &str| number(word, 65535).map(|value| (value as u16).to_le_bytes());
    match words {
        ["version", word] => version(sections, line, word)?,
        ["node", i, "at", x, y, flags @ ..] => {
            in_turn(i, sections.lines[0].len())?;
            sections.lines[0].push(line);
            let mut flag = 0;
            for word in flags {
                flag |= match *word {
                    "gate" => FLAG_GATE,
                    "source" => FLAG_SOURCE,
                    _ => return Err(format!("'{word}' is neither 'gate' nor 'source'")),
                };
            }
            sections.bytes[0].extend(coordinate(x)?);
            sections.bytes[0].extend(coordinate(y)?);
            sections.bytes[0].push(flag);
        }
        ["wire", i, "to", parent, "layer", layer, "factor", factor] => {
            in_turn(i, sections.lines[1].len() + 1)?;
            sections.lines[1].push(line);
            sections.bytes[1].extend([byte(parent)?, byte(layer)?, byte(factor)?]);
        }
        ["obstacle", x1, y1, "to", x2, y2, rest @ ..] => {
            sections.lines[2].push(line);
            for corner in [x1, y1, x2, y2] {
                sections.bytes[2].extend(coordinate(corner)?);
            }
            sections.bytes[2].extend(obstacle_layer(sections.version, rest)?);
        }
        ["version", ..] => return Err("a version is 'version N'".into()),
        ["node", ..] => return Err("a node is 'node N at X Y', then 'gate' or 'source'".into()),
        ["wire", ..] => return Err("a wire is 'wire N to PARENT layer L factor F'".into()),
        ["obstacle", ..] => return Err(obstacle_form(sections.version)),
        ["jumpers", _] => return Err("this is a jumper list: name it by --jumpers".into()),
        _ => {
            let word = words[0];
            return Err(format!("'{word}' is no version, node, wire or obstacle"));
        }
    }
    Ok(())
}

fn byte(word: &str) -> Result<u8, String> {
    number(word, 255).map(|value| value as u8)
}

/// Which version it is: said once, before the first record.
fn version(sections: &mut Sections, line: usize, word: &str) -> Result<(), String> {
    if sections.version_line.is_some() {
        return Err("the version is given twice".into());
    }
    if sections.lines.iter().any(|lines| !lines.is_empty()) {
        return Err("the version comes before the first record".into());
    }
    sections.version = number(word, u32::MAX.into())? as u32;
    sections.version_line = Some(line);
    Ok(())
}

/// The layer of an obstacle, from the words behind its corners.
fn obstacle_layer(version: u32, words: &[&str]) -> Result<Option<u8>, String> {
    match (layered(version), words) {
        (false, []) => Ok(None),
        (false, ["layer", ..]) => {
            Err("an obstacle has a layer only in version 2: begin with 'version 2'".into())
        }
        (true, ["layer", layer]) => byte(layer).map(Some),
        (true, []) => Err(format!(
            "its layer is missing: in version {version} {}, and layer 16 bars points of every wire, as in version 1",
            obstacle_form(version)
        )),
        _ => Err(obstacle_form(version)),
    }
}

fn obstacle_form(version: u32) -> String {
    let layer = if layered(version) { " layer L" } else { "" };
    format!("an obstacle is 'obstacle X1 Y1 to X2 Y2{layer}'")
}

fn in_turn(word: &str, due: usize) -> Result<(), String> {
    match number(word, due as u64) {
        Ok(value) if value == due as u64 => Ok(()),
        _ => Err(format!("the next number is {due}, not '{word}'")),
    }
}

/// The sections of a net in text form. Those of a version that is not known are not read: the library refuses it.
pub fn sections(name: &str, text: &str) -> Result<Sections, Refusal> {
    let mut sections = Sections {
        version: 1,
        version_line: None,
        bytes: [Vec::new(), Vec::new(), Vec::new()],
        lines: [Vec::new(), Vec::new(), Vec::new()],
    };
    for (line, words) in lines(text) {
        record(&mut sections, line, &words)
            .map_err(|message| Refusal::text(format!("{name}:{line}: {message}")))?;
        if !(1..=NEWEST_VERSION).contains(&sections.version) {
            break;
        }
    }
    Ok(sections)
}

/// A net in text form; a text that names no version is of version 1.
pub fn net(net: &Net) -> String {
    let mut text = String::new();
    if net.version > 1 {
        let _ = writeln!(text, "version {}", net.version);
    }
    for (i, node) in net.nodes.iter().enumerate() {
        let gate = if node.gate { " gate" } else { "" };
        let source = if node.source { " source" } else { "" };
        let _ = writeln!(text, "node {i} at {} {}{gate}{source}", node.x, node.y);
    }
    for (k, wire) in net.wires.iter().enumerate() {
        let i = k + 1;
        let _ = writeln!(
            text,
            "wire {i} to {} layer {} factor {}",
            wire.parent, wire.layer, wire.factor
        );
    }
    for Obstacle { corners, layer } in &net.obstacles {
        let [x1, y1, x2, y2] = corners;
        let _ = write!(text, "obstacle {x1} {y1} to {x2} {y2}");
        if layered(net.version) {
            let _ = write!(text, " layer {layer}");
        }
        text.push('\n');
    }
    text
}

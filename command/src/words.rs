//! What the command says: its exit status, refusals in words.

use crate::library::{self, Answer};

/// Exit status, the same for every command: fine; a harmful piece, or no fix; a file refused, unreadable or unwritable, or wrong use.
pub const FINE: u8 = 0;
pub const HARMFUL: u8 = 1;
pub const REFUSED: u8 = 2;

pub enum Failure {
    /// The command was called wrongly.
    Usage(String),
    /// What was found cannot be written.
    Write(String),
    Refused(Refusal),
}

impl From<Refusal> for Failure {
    fn from(refusal: Refusal) -> Failure {
        Failure::Refused(refusal)
    }
}

/// A file that the library refused, or that it was not asked about: then there is no answer.
#[derive(Clone)]
pub struct Refusal {
    answer: Option<Answer>,
    pub message: String,
}

impl Refusal {
    /// A file that cannot be read, or a text that does not say a net or a list.
    pub fn text(message: String) -> Refusal {
        Refusal {
            answer: None,
            message,
        }
    }

    /// The library's refusal of what stands at a place of the user's.
    pub fn at(place: &str, answer: Answer) -> Refusal {
        Refusal {
            answer: Some(answer),
            message: format!("{place}: {}", refusal(answer)),
        }
    }

    pub fn number(&self) -> Option<u32> {
        self.answer.map(|answer| answer.number)
    }

    pub fn status(&self) -> u8 {
        match self.number() {
            Some(library::REFUSED_NO_LEGAL_SET) => HARMFUL,
            _ => REFUSED,
        }
    }

    /// In a line of one net of several.
    pub fn line(&self) -> String {
        match self.answer {
            Some(answer) => format!("refused {} {}", answer.number, answer.place),
            None => "unreadable".into(),
        }
    }

    /// The members of a JSON object.
    pub fn json(&self) -> String {
        let field = |value: Option<u64>| value.map_or("null".into(), |n| n.to_string());
        format!(
            "\"refused\": {}, \"place\": {}, \"message\": {}",
            field(self.answer.map(|answer| answer.number.into())),
            field(self.answer.map(|answer| answer.place)),
            quoted(&self.message)
        )
    }
}

/// A text as JSON has it.
pub fn quoted(text: &str) -> String {
    let mut out = String::from("\"");
    for c in text.chars() {
        match c {
            '"' | '\\' => out.extend(['\\', c]),
            c if c < ' ' => out.push_str(&format!("\\u{:04x}", u32::from(c))),
            c => out.push(c),
        }
    }
    out.push('"');
    out
}

/// A number in digits alone.
pub fn number(word: &str, most: u64) -> Result<u64, String> {
    let digits = word.bytes().all(|b| b.is_ascii_digit());
    match word.parse() {
        Ok(value) if digits && value <= most => Ok(value),
        _ => Err(format!("'{word}' is no number from 0 to {most}")),
    }
}

/// A number of things: 1 piece, 2 pieces.
pub fn count(n: usize, what: &str) -> String {
    format!("{n} {what}{}", if n == 1 { "" } else { "s" })
}

/// What a refusal means and what to do about it.
fn refusal(answer: Answer) -> String {
    let place = answer.place;
    let (what, advice) = match answer.number {
        library::REFUSED_STAGE => ("the stage is not 1 to 16".into(), "give --stage a number from 1 to 16"),
        library::REFUSED_HEAD => (
            "its version is not 1 or 2, or this is no net file: it has under 28 bytes, or its pair count is not 3".into(),
            "name a net file, or a net in text form, of version 1 or 2",
        ),
        library::REFUSED_PAIRS => (
            "the sections do not stand one behind the other up to the end of the file".into(),
            "the file was cut short or changed: write it anew",
        ),
        library::REFUSED_NODE_SECTION => ("there are not 1 to 256 nodes of 5 bytes".into(), "split the net"),
        library::REFUSED_WIRE_SECTION => (
            "the wires are not one fewer than the nodes".into(),
            "give every node above 0 one wire",
        ),
        library::REFUSED_OBSTACLE_SECTION => (
            "there are over 256 obstacles, or they are not of 8 bytes each in version 1, of 9 in version 2".into(),
            "merge obstacles, leave out those off the net, or lower the --clearance of 'antenna def' if it made them larger; if only the version was changed, write the file anew",
        ),
        library::REFUSED_NODE_FLAGS => (
            format!("node {place}: its flags are over 3"),
            "flags are 1 for a gate, 2 for a source, 3 for both",
        ),
        library::REFUSED_WIRE_PARENT => (
            format!("wire {place}: its parent is not below {place}"),
            "number the nodes so that every parent comes first",
        ),
        library::REFUSED_WIRE_RANGE => (
            format!("wire {place}: its layer is not 1 to 16, or its factor is 0"),
            "layers are 1 to 16, factors 1 to 255",
        ),
        library::REFUSED_WIRE_ENDS => (
            format!("wire {place}: its ends differ in x and in y"),
            "put a node at the corner",
        ),
        library::REFUSED_OBSTACLE_CORNERS => (
            format!("obstacle {place}: its corners are reversed"),
            "name the corner with the lower x and y first",
        ),
        library::REFUSED_OBSTACLE_LAYER => (
            format!("obstacle {place}: its layer is not 1 to 16"),
            "name the layer it is on; one of layer 16 bars points of every wire",
        ),
        library::REFUSED_JUMPER_LIST => (
            format!("jumper {place}: the list does not rise by wire, then position"),
            "sort the list and name no point twice",
        ),
        library::REFUSED_JUMPER_POINT => (
            format!("jumper {place}: no such wire at this stage, or no such position inside it"),
            "positions run from 1 to the wire's length less 1",
        ),
        library::REFUSED_JUMPER_BARRED => (
            format!("jumper {place}: an obstacle that counts for its wire holds this point, or is within the clearance of it in x and in y"),
            "move the jumper along the wire",
        ),
        library::REFUSED_NO_LEGAL_SET => (
            "no set of jumpers will do".into(),
            "raise the limit, lower the clearance if one is given, move an obstacle, or give the net a source",
        ),
        library::REFUSED_DEF_FORM => (
            "the text leaves the library's form".into(),
            "this is an error in the command: please report it",
        ),
        library::REFUSED_DEF_POINT => (
            "a path begins at an unknown point, or reaches one twice".into(),
            "this is an error in the command: please report it",
        ),
        library::REFUSED_DEF_PIN => (
            format!("pin {place} of the net: no wire of the net and no via is there on this layer"),
            "name a point and a layer of the net",
        ),
        _ => (
            format!("{place} bytes are needed"),
            "this is an error in the command: please report it",
        ),
    };
    format!("refused {} {place}: {what} ({advice})", answer.number)
}

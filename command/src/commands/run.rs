//! A command that judges nets, over each net it is given.

use crate::case::Case;
use crate::files;
use crate::list::List;
use crate::options::Options;
use crate::words::{quoted, Failure, Refusal, FINE};

/// What a command says of a net.
pub struct Finding {
    pub status: u8,
    /// Of the only net.
    pub whole: String,
    /// Of one net of several.
    pub line: String,
    /// The members of a JSON object.
    pub json: String,
}

/// Prints what is found of each net; the status is the highest of theirs.
pub fn each(options: &Options, find: fn(&Case) -> Result<Finding, Refusal>) -> Result<u8, Failure> {
    let (stage, limit, clearance) = (options.stage(), options.limit()?, options.clearance());
    let lists = options.jumpers.iter().map(|name| List::load(name));
    let lists: Vec<Result<List, Refusal>> = lists.collect();
    let several = options.nets.len() > 1;
    let mut highest = FINE;
    for (k, name) in options.nets.iter().enumerate() {
        // one list is for all nets
        let list = lists.get(if lists.len() > 1 { k } else { 0 });
        let found = Case::load(name, stage, limit, clearance, list.cloned());
        let (status, text) = match found.and_then(|case| find(&case)) {
            Ok(finding) => (finding.status, said(options.json, several, name, finding)),
            Err(refusal) => {
                files::tell(&refusal.message);
                (
                    refusal.status(),
                    refused(options.json, several, name, &refusal),
                )
            }
        };
        files::print(&text)?;
        highest = highest.max(status);
    }
    Ok(highest)
}

fn said(json: bool, several: bool, name: &str, finding: Finding) -> String {
    if json {
        format!("{{\"net\": {}, {}}}\n", quoted(name), finding.json)
    } else if several {
        format!("{name}: {}\n", finding.line)
    } else {
        finding.whole
    }
}

fn refused(json: bool, several: bool, name: &str, refusal: &Refusal) -> String {
    if json {
        format!("{{\"net\": {}, {}}}\n", quoted(name), refusal.json())
    } else if several {
        format!("{name}: {}\n", refusal.line())
    } else {
        String::new()
    }
}

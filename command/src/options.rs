//! The words of the command line.

use crate::commands::Command;
use crate::words::{count, number, Failure};

pub const DEFAULT_STAGE: u32 = 16;

/// The greatest clearance in steps, and in units of a DEF file, whose coordinates are of 32 bits.
const MOST_STEPS: u32 = u16::MAX as u32;
const MOST_UNITS: u32 = i32::MAX as u32;

#[derive(Default)]
pub struct Options {
    pub nets: Vec<String>,
    /// None, one for all nets, or one for each.
    pub jumpers: Vec<String>,
    stage: Option<u32>,
    limit: Option<u32>,
    clearance: Option<u32>,
    pub json: bool,
    pub out: Option<String>,
    grid: Option<u32>,
    pub text: bool,
    pub pins: Option<String>,
    pub obstacles: Option<String>,
}

impl Options {
    /// The options and files of a command; none if its help is asked for.
    pub fn parse(command: &Command, words: &[String]) -> Result<Option<Options>, Failure> {
        let mut options = Options::default();
        let mut words = words.iter();
        while let Some(word) = words.next() {
            if word == "--" {
                options.nets.extend(words.cloned());
                break;
            }
            if word == "-" || !word.starts_with('-') {
                options.nets.push(word.clone());
                continue;
            }
            let (name, value) = match word.split_once('=') {
                Some((name, value)) => (name, Some(value)),
                None => (word.as_str(), None),
            };
            let name = match name {
                "-h" | "--help" => return Ok(None),
                "-o" => "--output",
                _ => name,
            };
            if !command.takes(name) {
                let message = format!("'{}' takes no option '{word}'", command.name);
                return Err(Failure::Usage(message));
            }
            options.set(command, name, value, || words.next().map(String::as_str))?;
        }
        options.fit(command)?;
        Ok(Some(options))
    }

    fn set<'a>(
        &mut self,
        command: &Command,
        name: &str,
        value: Option<&'a str>,
        next: impl FnOnce() -> Option<&'a str>,
    ) -> Result<(), Failure> {
        let usage = |what: String| Failure::Usage(format!("{name} {what}"));
        let flag = match name {
            "--json" => Some(&mut self.json),
            "--text" => Some(&mut self.text),
            _ => None,
        };
        if let Some(flag) = flag {
            *flag = true;
            return match value {
                Some(_) => Err(usage("takes no value".into())),
                None => Ok(()),
            };
        }
        let Some(value) = value.or_else(next) else {
            return Err(usage("wants a value".into()));
        };
        let up_to = |most: u32| match number(value, most.into()) {
            Ok(value) => Ok(value as u32),
            Err(no) => Err(usage(format!("wants a number: {no}"))),
        };
        let twice = match name {
            "--limit" => self.limit.replace(up_to(u32::MAX)?).is_some(),
            "--stage" => self.stage.replace(up_to(u32::MAX)?).is_some(),
            "--clearance" => {
                let in_units = command.takes("--obstacles");
                let most = if in_units { MOST_UNITS } else { MOST_STEPS };
                self.clearance.replace(up_to(most)?).is_some()
            }
            "--output" => self.out.replace(value.into()).is_some(),
            "--grid" => self.grid.replace(up_to(u32::MAX)?).is_some(),
            "--pins" => self.pins.replace(value.into()).is_some(),
            "--obstacles" => self.obstacles.replace(value.into()).is_some(),
            _ => {
                self.jumpers.push(value.into());
                false
            }
        };
        match twice {
            true => Err(usage("is given twice".into())),
            false => Ok(()),
        }
    }

    /// Are there as many files as the command can use?
    fn fit(&self, command: &Command) -> Result<(), Failure> {
        let (nets, lists) = (self.nets.len(), self.jumpers.len());
        let wrong = if nets == 0 {
            "no net named".into()
        } else if nets > command.most {
            format!("one file too many: '{}'", self.nets[command.most])
        } else if lists > 1 && lists != nets {
            let (nets, lists) = (count(nets, "net"), count(lists, "jumper list"));
            format!("{lists} for {nets}: name one for all, or one for each")
        } else if self.grid == Some(0) {
            "--grid is at least 1".into()
        } else if self.clearance.is_some()
            && command.takes("--obstacles")
            && self.obstacles.is_none()
        {
            "--clearance wants obstacles: --obstacles FILE".into()
        } else if command.wants_list && lists == 0 {
            format!("'{}' wants a jumper list: --jumpers FILE", command.name)
        } else if self
            .nets
            .iter()
            .chain(&self.jumpers)
            .chain(&self.pins)
            .chain(&self.obstacles)
            .filter(|name| *name == "-")
            .count()
            > 1
        {
            "standard input can be read only once".into()
        } else {
            return Ok(());
        };
        Err(Failure::Usage(wrong))
    }

    pub fn stage(&self) -> u32 {
        self.stage.unwrap_or(DEFAULT_STAGE)
    }

    /// In steps.
    pub fn clearance(&self) -> u16 {
        self.clearance.unwrap_or(0) as u16
    }

    /// In units of the file.
    pub fn clearance_in_units(&self) -> i64 {
        self.clearance.unwrap_or(0).into()
    }

    /// The units of the file in a step.
    pub fn grid(&self) -> i64 {
        self.grid.unwrap_or(1).into()
    }

    pub fn limit(&self) -> Result<u32, Failure> {
        self.limit
            .ok_or_else(|| Failure::Usage("--limit is missing".into()))
    }
}

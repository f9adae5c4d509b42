//! The commands: what each takes, and what each does.

mod check;
mod convert;
mod def;
mod picture;
mod repair;
mod report;
mod run;

use crate::help;
use crate::options::Options;
use crate::words::Failure;

pub struct Command {
    pub name: &'static str,
    pub help: &'static str,
    pub options: &'static [&'static str],
    /// The most nets it takes.
    pub most: usize,
    /// It can do nothing without a jumper list.
    pub wants_list: bool,
    pub run: fn(&Options) -> Result<u8, Failure>,
}

impl Command {
    pub fn takes(&self, option: &str) -> bool {
        self.options.contains(&option)
    }
}

pub const COMMANDS: [Command; 7] = [
    Command {
        name: "report",
        help: help::REPORT,
        options: &["--limit", "--stage", "--clearance", "--jumpers", "--json"],
        most: usize::MAX,
        wants_list: false,
        run: |options| run::each(options, report::find),
    },
    Command {
        name: "repair",
        help: help::REPAIR,
        options: &["--limit", "--stage", "--clearance", "--json"],
        most: usize::MAX,
        wants_list: false,
        run: |options| run::each(options, repair::find),
    },
    Command {
        name: "check",
        help: help::CHECK,
        options: &["--limit", "--stage", "--clearance", "--jumpers", "--json"],
        most: usize::MAX,
        wants_list: true,
        run: |options| run::each(options, check::find),
    },
    Command {
        name: "draw",
        help: help::DRAW,
        options: &["--limit", "--stage", "--clearance", "--jumpers", "--output"],
        most: 1,
        wants_list: false,
        run: picture::draw,
    },
    Command {
        name: "pack",
        help: help::PACK,
        options: &["--output"],
        most: 1,
        wants_list: false,
        run: convert::pack,
    },
    Command {
        name: "unpack",
        help: help::UNPACK,
        options: &["--output"],
        most: 1,
        wants_list: false,
        run: convert::unpack,
    },
    Command {
        name: "def",
        help: help::DEF,
        options: &[
            "--clearance",
            "--grid",
            "--obstacles",
            "--output",
            "--pins",
            "--text",
        ],
        most: 1,
        wants_list: false,
        run: def::def,
    },
];

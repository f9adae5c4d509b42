//! The command for people: it reads and prints, and asks the library for every judgement.

mod case;
mod commands;
mod def;
mod draw;
mod files;
mod help;
#[path = "../../include/antenna.rs"]
mod library;
mod list;
mod net;
mod options;
mod pieces;
mod text;
mod words;

use commands::COMMANDS;
use options::Options;
use std::process::ExitCode;
use words::{Failure, FINE, REFUSED};

fn main() -> ExitCode {
    ExitCode::from(run().unwrap_or_else(|failure| {
        match &failure {
            Failure::Usage(message) => files::tell(&format!("{message}\nTry 'antenna --help'.")),
            Failure::Write(message) => files::tell(message),
            Failure::Refused(refusal) => files::tell(&refusal.message),
        }
        match failure {
            Failure::Refused(refusal) => refusal.status(),
            _ => REFUSED,
        }
    }))
}

fn run() -> Result<u8, Failure> {
    let words = std::env::args_os().skip(1).map(|word| word.into_string());
    let words: Vec<String> = words
        .collect::<Result<_, _>>()
        .map_err(|word| Failure::Usage(format!("{word:?} is not UTF-8")))?;
    let Some((name, rest)) = words.split_first() else {
        return Err(Failure::Usage("no command given".into()));
    };
    match name.as_str() {
        "--help" | "-h" | "help" => {
            files::print(help::HELP)?;
            return Ok(FINE);
        }
        "--version" | "-V" => {
            let (major, minor) = (library::VERSION_MAJOR, library::VERSION_MINOR);
            files::print(&format!("antenna {major}.{minor}\n"))?;
            return Ok(FINE);
        }
        _ => {}
    }
    let Some(command) = COMMANDS.iter().find(|command| command.name == name) else {
        return Err(Failure::Usage(format!("there is no command '{name}'")));
    };
    match Options::parse(command, rest)? {
        Some(options) => (command.run)(&options),
        None => {
            files::print(command.help)?;
            Ok(FINE)
        }
    }
}

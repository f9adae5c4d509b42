//! Reading and writing of files, standard input and standard output.

use crate::words::{Failure, Refusal};
use std::io::{ErrorKind, Read, Write};

/// The bytes of a file, or of standard input for '-'.
pub fn load(name: &str) -> Result<Vec<u8>, Refusal> {
    let mut bytes = Vec::new();
    let read = if name == "-" {
        std::io::stdin().read_to_end(&mut bytes).map(|_| ())
    } else {
        std::fs::read(name).map(|all| bytes = all)
    };
    match read {
        Ok(()) => Ok(bytes),
        Err(error) => Err(Refusal::text(format!("{name}: {error}"))),
    }
}

/// To the file, or to standard output if none is named.
pub fn store(name: Option<&str>, bytes: &[u8]) -> Result<(), Failure> {
    match name {
        None | Some("-") => output(bytes),
        Some(name) => {
            std::fs::write(name, bytes).map_err(|error| Failure::Write(format!("{name}: {error}")))
        }
    }
}

pub fn print(text: &str) -> Result<(), Failure> {
    output(text.as_bytes())
}

/// To standard output, to the last byte; a reader that has gone away is no error.
fn output(bytes: &[u8]) -> Result<(), Failure> {
    let mut out = std::io::stdout().lock();
    match out.write_all(bytes).and_then(|()| out.flush()) {
        Err(error) if error.kind() != ErrorKind::BrokenPipe => {
            Err(Failure::Write(format!("standard output: {error}")))
        }
        _ => Ok(()),
    }
}

/// To standard error, control characters of names and texts escaped; if that fails there is nowhere left to say so.
pub fn tell(message: &str) {
    let mut line = String::from("antenna: ");
    for c in message.chars() {
        if c.is_control() && c != '\n' {
            line.extend(c.escape_default());
        } else {
            line.push(c);
        }
    }
    let _ = writeln!(std::io::stderr(), "{line}");
}

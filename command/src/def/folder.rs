//! Net files in a folder, each named by its net.

use crate::words::Failure;
use std::fs::{self, OpenOptions};
use std::io::{self, ErrorKind, Write};
use std::path::{Path, PathBuf};

/// The longest name of a file.
const MOST: usize = 255;

/// The name of a net's file: bytes other than letters, digits, '_', '-' and '$' as '%' and two digits of base 16, so no two
/// names are the same and none leads out of the folder. None if it is too long for a file.
pub fn file_name(net: &[u8]) -> Option<String> {
    let mut name = String::new();
    for &b in net {
        match b {
            b'a'..=b'z' | b'A'..=b'Z' | b'0'..=b'9' | b'_' | b'-' | b'$' => name.push(b.into()),
            _ => name.push_str(&format!("%{b:02X}")),
        }
    }
    name.push_str(".net");
    (name.len() <= MOST).then_some(name)
}

pub struct Folder(PathBuf);

impl Folder {
    /// Made if it is not there.
    pub fn open(name: &str) -> Result<Folder, Failure> {
        let said = |error: io::Error| Failure::Write(format!("{name}: {error}"));
        fs::create_dir_all(name).map_err(said)?;
        Ok(Folder(name.into()))
    }

    /// The bytes go to a new file, which then takes the name: what stood there, a link too, is replaced and not followed.
    pub fn store(&self, name: &str, bytes: &[u8]) -> Result<(), Failure> {
        let path = self.0.join(name);
        let new = self.0.join(format!(".new-{}", std::process::id()));
        let stored = write_new(&new, bytes).and_then(|()| fs::rename(&new, &path));
        stored.map_err(|error| {
            let _ = fs::remove_file(&new);
            Failure::Write(format!("{}: {error}", path.display()))
        })
    }
}

fn write_new(path: &Path, bytes: &[u8]) -> io::Result<()> {
    let mut options = OpenOptions::new();
    options.write(true).create_new(true);
    let mut file = match options.open(path) {
        // left by a process of the same number that was ended
        Err(error) if error.kind() == ErrorKind::AlreadyExists => {
            fs::remove_file(path)?;
            options.open(path)?
        }
        opened => opened?,
    };
    file.write_all(bytes)
}

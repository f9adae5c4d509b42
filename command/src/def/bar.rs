//! How far the command is, on standard error where that is a terminal.

use std::io::{IsTerminal, Write};
use std::time::{Duration, Instant};

const WIDTH: usize = 40;
const BETWEEN: Duration = Duration::from_millis(100);

pub struct Bar {
    total: usize,
    /// When the next is due; none if there is no terminal.
    due: Option<Instant>,
    drawn: bool,
}

impl Bar {
    pub fn of(total: usize) -> Bar {
        Bar {
            total,
            due: std::io::stderr().is_terminal().then(Instant::now),
            drawn: false,
        }
    }

    pub fn at(&mut self, done: usize) {
        let now = Instant::now();
        if self.due.is_some_and(|due| due <= now) {
            let full = WIDTH * done / self.total.max(1);
            let (full, empty) = ("#".repeat(full), ".".repeat(WIDTH - full));
            let _ = write!(
                std::io::stderr(),
                "\r[{full}{empty}] {done} of {} nets",
                self.total
            );
            self.due = Some(now + BETWEEN);
            self.drawn = true;
        }
    }

    /// Makes room for a line.
    pub fn clear(&mut self) {
        if std::mem::take(&mut self.drawn) {
            let _ = write!(std::io::stderr(), "\r\x1b[K");
        }
    }
}

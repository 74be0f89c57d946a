//! A line on standard error while a run is under way: each second on a
//! terminal, twice a minute elsewhere.

use std::io::{IsTerminal, Write, stderr};
use std::time::{Duration, Instant};

pub struct Progress {
    terminal: bool,
    next: Instant,
    shown: bool,
}

impl Progress {
    pub fn new() -> Self {
        let terminal = stderr().is_terminal();
        Self {
            terminal,
            next: Instant::now() + Duration::from_secs(if terminal { 2 } else { 30 }),
            shown: false,
        }
    }

    pub fn show(&mut self, line: impl Fn() -> String) {
        let now = Instant::now();
        if now < self.next {
            return;
        }
        if self.terminal {
            eprint!("\r\x1b[K{}", line());
            let _ = stderr().flush();
            self.shown = true;
            self.next = now + Duration::from_secs(1);
        } else {
            eprintln!("{}", line());
            self.next = now + Duration::from_secs(30);
        }
    }

    pub fn done(&mut self) {
        if self.shown {
            eprint!("\r\x1b[K");
            self.shown = false;
        }
    }
}

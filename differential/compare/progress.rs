//! A progress line, at most one a second.

use std::time::{Duration, Instant};

pub struct Progress {
    what: String,
    of: u64,
    last: Instant,
}

impl Progress {
    pub fn new(what: &str, of: u64) -> Self {
        Progress {
            what: what.into(),
            of,
            last: Instant::now(),
        }
    }

    pub fn at(&mut self, done: u64, differing: u64) {
        if self.last.elapsed() >= Duration::from_secs(1) {
            self.last = Instant::now();
            println!("{}: {done} of {}, {differing} differ", self.what, self.of);
        }
    }
}

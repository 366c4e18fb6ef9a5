//! The waiting of `dr_workers`: pauses after the first four looks that find nothing, as many as let about a
//! sixth to a third of the room fill, and then yields.

use std::hint::spin_loop;
use std::thread::yield_now;

const MOST_PAUSES: u32 = 1024;
const MOST_WAITS: u32 = 4;

pub struct Waiting {
    room: u64,
    pauses: u32,
    paused: u32,
}

impl Waiting {
    pub fn new(room: u64) -> Waiting {
        Waiting {
            room,
            pauses: 1,
            paused: 0,
        }
    }

    pub fn wait(&mut self) {
        if self.paused == MOST_WAITS {
            yield_now();
            return;
        }
        for _ in 0..self.pauses {
            spin_loop();
        }
        self.paused += 1;
    }

    pub fn found(&mut self, count: u64) {
        let pauses = u64::from(self.pauses);
        if self.paused > 0 && (count > self.room / 3 || count < pauses / 64) {
            self.pauses = (self.pauses / 2).max(1);
        } else if self.paused > 0 && count < self.room / 6 && count >= pauses / 32 {
            self.pauses = (2 * self.pauses).min(MOST_PAUSES);
        }
        self.paused = 0;
    }
}

/// How a sender waits for room: by one `Waiting` for all its claims, which is told how many events found
/// room since it last waited.
pub struct Pace {
    waiting: Waiting,
    found: u64,
}

impl Pace {
    pub fn new(room: u64) -> Pace {
        Pace {
            waiting: Waiting::new(room),
            found: 0,
        }
    }

    pub fn wait(&mut self) {
        if self.found > 0 {
            self.waiting.found(self.found);
            self.found = 0;
        }
        self.waiting.wait();
    }

    pub fn found(&mut self, count: u64) {
        self.found += count;
    }
}

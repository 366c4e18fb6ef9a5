//! How a thread waits that looks again and again.

use std::hint::spin_loop;
use std::sync::atomic::{AtomicU32, Ordering};
use std::sync::{Arc, Condvar, Mutex, PoisonError};
use std::thread::yield_now;
use std::time::Duration;

/// How the threads of a ring wait for one another.
#[derive(Clone, Copy, Debug, Default, PartialEq, Eq)]
pub enum Wait {
    /// By pauses that tune themselves, then by yielding the processor, and at last asleep until another end wakes it: a thread that
    /// has nothing to do costs next to nothing.
    #[default]
    Parking,
    /// By pauses, and then by yielding the processor.
    Yielding,
    /// By pauses alone: for threads that have a processor each.
    Spinning,
}

/// What wakes the threads that sleep. That no change is missed is argued: a thread first says that it sleeps, and then looks once
/// more; who changed something asks afterwards whether anybody sleeps. All these steps are sequentially consistent, those of the
/// library too.
#[derive(Default)]
pub(crate) struct Bell {
    sleepers: AtomicU32,
    rings: Mutex<u64>,
    rung: Condvar,
}

const LONGEST_SLEEP: Duration = Duration::from_millis(10);

impl Bell {
    pub(crate) fn ring(&self) {
        if self.sleepers.load(Ordering::SeqCst) > 0 {
            *self.rings.lock().unwrap_or_else(PoisonError::into_inner) += 1;
            self.rung.notify_all();
        }
    }

    fn listen(&self) -> u64 {
        self.sleepers.fetch_add(1, Ordering::SeqCst);
        *self.rings.lock().unwrap_or_else(PoisonError::into_inner)
    }

    /// Sleeps until a ring after the listening that answered `heard`, ten milliseconds at most.
    fn sleep(&self, heard: u64) {
        let rings = self.rings.lock().unwrap_or_else(PoisonError::into_inner);
        drop(self.rung.wait_timeout_while(rings, LONGEST_SLEEP, |rings| *rings == heard));
    }

    fn stop_listening(&self) {
        self.sleepers.fetch_sub(1, Ordering::SeqCst);
    }
}

/// Keeps the calling thread on one processor, counted from 0, and answers whether it does: on Linux, where the program may use it.
pub fn pin(processor: usize) -> bool {
    #[cfg(target_os = "linux")]
    {
        extern "C" {
            fn sched_setaffinity(thread: i32, bytes: usize, mask: *const u64) -> i32;
        }
        let mut mask = [0u64; 16];
        match mask.get_mut(processor / 64) {
            Some(word) => *word = 1 << (processor % 64),
            None => return false,
        }
        // SAFETY: so many bytes lie there.
        unsafe { sched_setaffinity(0, std::mem::size_of_val(&mask), mask.as_ptr()) == 0 }
    }
    #[cfg(not(target_os = "linux"))]
    {
        let _ = processor;
        false
    }
}

const PAUSED_LOOKS: u32 = 4;
const YIELDING_LOOKS: u32 = 200;
const MOST_PAUSES: u32 = 1024;

pub(crate) struct Waiting {
    how: Wait,
    room: u64,
    bell: Arc<Bell>,
    // How many pauses a wait takes, and how many looks in a row found nothing.
    pauses: u32,
    looks: u32,
    heard: Option<u64>,
    // How many events found room since it last waited, of a sender.
    found: u64,
}

impl Waiting {
    pub(crate) fn new(how: Wait, room: u64, bell: &Arc<Bell>) -> Waiting {
        Waiting { how, room, bell: Arc::clone(bell), pauses: 1, looks: 0, heard: None, found: 0 }
    }

    /// Waits after a look that found nothing.
    #[cold]
    pub(crate) fn wait(&mut self) {
        if self.found > 0 {
            let found = std::mem::take(&mut self.found);
            self.found(found);
        }
        if self.how == Wait::Spinning || self.looks < PAUSED_LOOKS {
            (0..self.pauses).for_each(|_| spin_loop());
        } else if self.how == Wait::Yielding || self.looks < YIELDING_LOOKS {
            yield_now();
        } else if let Some(heard) = self.heard {
            self.bell.sleep(heard);
            self.stop_listening();
            self.heard = Some(self.bell.listen());
        } else {
            self.heard = Some(self.bell.listen());
        }
        self.looks = self.looks.saturating_add(1);
    }

    /// Begins anew, after a look that found so many events. The pauses tune themselves by how many came after the last one.
    #[inline]
    pub(crate) fn found(&mut self, count: u64) {
        if self.looks > 0 {
            self.tune(count);
        }
    }

    #[cold]
    fn tune(&mut self, count: u64) {
        self.looks = 0;
        self.stop_listening();
        if count > self.room / 3 || count < u64::from(self.pauses / 64) {
            self.pauses = (self.pauses / 2).max(1);
        } else if count < self.room / 6 && count >= u64::from(self.pauses / 32) {
            self.pauses = (self.pauses * 2).min(MOST_PAUSES);
        }
    }

    /// Ends a wait that found nothing in its time, which says nothing of the pauses.
    pub(crate) fn end(&mut self) {
        self.looks = 0;
        self.stop_listening();
    }

    /// The same as `found` after a claim: a sender claims again at once, so what counts is how many found room until it waits again.
    #[inline]
    pub(crate) fn found_room(&mut self, count: u64) {
        self.found += count;
        self.stop_listening();
    }

    fn stop_listening(&mut self) {
        if self.heard.take().is_some() {
            self.bell.stop_listening();
        }
    }
}

impl Drop for Waiting {
    fn drop(&mut self) {
        self.stop_listening();
    }
}

#[cfg(test)]
mod tests {
    use super::*;

    #[test]
    fn only_what_a_wait_found_tunes_its_pauses() {
        let bell = Arc::default();
        let mut waiting = Waiting::new(Wait::Parking, 64, &bell);
        for looks in [0, YIELDING_LOOKS] {
            waiting.looks = looks;
            waiting.wait();
            waiting.end();
        }
        assert_eq!((waiting.pauses, waiting.looks, bell.sleepers.load(Ordering::SeqCst)), (1, 0, 0));
        waiting.wait();
        waiting.found(1);
        assert_eq!(waiting.pauses, 2);
    }
}

//! What all ends of a ring share.

use crate::ffi::{disruptor_completed_at, disruptor_cursor_at, disruptor_halt_at, Handle};
use crate::refusal::{answer, Refusal};
use crate::slots::Slots;
use crate::waiting::Bell;
use std::sync::atomic::{AtomicU64, AtomicUsize, Ordering};
use std::sync::{Arc, Mutex, MutexGuard, PoisonError};

const MOST_HANDLERS: usize = 16;

pub(crate) struct Ring<T> {
    pub slots: Slots<T>,
    pub bell: Arc<Bell>,
    halter: Mutex<Handle>,
    // The handlers that went away before they had every event, so those who follow them never will have.
    gone: AtomicU64,
    // How many events each of these completed.
    completed: [AtomicU64; MOST_HANDLERS],
    // How many of its several senders are not dropped.
    senders: AtomicUsize,
}

impl<T> Ring<T> {
    pub(crate) fn new(slots: Slots<T>, halter: Handle, senders: usize) -> Ring<T> {
        let (gone, senders) = (AtomicU64::new(0), AtomicUsize::new(senders));
        Ring { slots, bell: Arc::default(), halter: Mutex::new(halter), gone, completed: Default::default(), senders }
    }

    /// Halts the ring once the last of several senders is dropped, since nobody claims any more.
    pub(crate) fn lose_sender(&self) {
        if self.senders.fetch_sub(1, Ordering::SeqCst) == 1 {
            self.halt();
        }
    }

    fn halter(&self) -> MutexGuard<'_, Handle> {
        self.halter.lock().unwrap_or_else(PoisonError::into_inner)
    }

    pub(crate) fn cursor(&self) -> u64 {
        let mut count = 0;
        // SAFETY: the handle is open, and nobody else has it.
        let refused = unsafe { disruptor_cursor_at(&mut *self.halter(), 1, &mut count, 1) };
        debug_assert_eq!(refused, 0, "a ring of slots tells its cursor");
        count
    }

    pub(crate) fn completed(&self, k: usize) -> Result<u64, Refusal> {
        let mut count = 0;
        // SAFETY: the handle is open, and nobody else has it.
        answer(unsafe { disruptor_completed_at(&mut *self.halter(), 1, k, &mut count, 1) })?;
        Ok(count)
    }

    pub(crate) fn halt(&self) {
        // SAFETY: the handle is open, and nobody else has it.
        let refused = unsafe { disruptor_halt_at(&mut *self.halter(), 1) };
        debug_assert_eq!(refused, 0, "a halt is never refused");
        self.bell.ring();
    }

    /// Halts the ring, so that no sender waits for handler `k`, which is gone after so many events.
    pub(crate) fn give_up(&self, k: usize, completed: u64) {
        self.completed[k].store(completed, Ordering::SeqCst);
        self.gone.fetch_or(1 << k, Ordering::SeqCst);
        self.halt();
    }

    /// Where those who follow these handlers are cut: at the least count of those of them that are gone.
    pub(crate) fn cut(&self, upstreams: u64) -> u64 {
        let gone = self.gone.load(Ordering::SeqCst) & upstreams;
        let counts =
            (0..MOST_HANDLERS).filter(|k| gone >> k & 1 == 1).map(|k| self.completed[k].load(Ordering::SeqCst));
        counts.min().unwrap_or(u64::MAX)
    }
}

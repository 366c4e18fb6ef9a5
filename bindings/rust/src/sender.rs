//! The end that fills events and publishes them.

use crate::ffi::{
    disruptor_claim_at, disruptor_close_at, disruptor_progress_at, disruptor_publish_slots_at, Counts, Handle,
};
use crate::refusal::{answer, Refusal};
use crate::ring::Ring;
use crate::waiting::{Bell, Wait, Waiting};
use crate::watch::Watch;
use std::iter::Chain;
use std::slice::IterMut;
use std::sync::Arc;
use std::time::{Duration, Instant};

/// The events of a claim, in order, each to be filled in place. One that is not filled has what an earlier event left there.
pub struct Batch<'a, T>(Chain<IterMut<'a, T>, IterMut<'a, T>>);

impl<'a, T> Iterator for Batch<'a, T> {
    type Item = &'a mut T;

    fn next(&mut self) -> Option<&'a mut T> {
        self.0.next()
    }

    fn size_hint(&self) -> (usize, Option<usize>) {
        self.0.size_hint()
    }

    fn fold<B, F: FnMut(B, &'a mut T) -> B>(self, init: B, f: F) -> B {
        self.0.fold(init, f)
    }
}

/// An end that fills events in place and publishes them. Dropping the sender of a ring of one closes the ring, and dropping the last
/// of several halts it.
pub struct Sender<T> {
    handle: Handle,
    ring: Arc<Ring<T>>,
    waiting: Waiting,
    published: Watch,
    is_only: bool,
}

/// Publishes a claim once it is filled, also where the filling panics: each slot then has what lies there.
struct Claim<'a> {
    handle: &'a mut Handle,
    bell: &'a Bell,
    published: &'a Watch,
    lo: u64,
    n: u64,
}

impl Drop for Claim<'_> {
    fn drop(&mut self) {
        // SAFETY: the handle is open, and nobody else has it.
        let refused = unsafe { disruptor_publish_slots_at(self.handle, 1, self.lo, self.lo + self.n - 1) };
        debug_assert_eq!(refused, 0, "a claim is published");
        self.published.set(self.published.count() + self.n);
        self.bell.ring();
    }
}

impl<T> Sender<T> {
    pub(crate) fn new(handle: Handle, ring: &Arc<Ring<T>>, wait: Wait, is_only: bool) -> Sender<T> {
        let waiting = Waiting::new(wait, ring.slots.len(), &ring.bell);
        Sender { handle, ring: Arc::clone(ring), waiting, published: Watch::default(), is_only }
    }

    fn claim(&mut self, n: u64) -> Result<u64, Refusal> {
        let mut lo = 0;
        // SAFETY: the handle is open, and nobody else has it.
        answer(unsafe { disruptor_claim_at(&mut self.handle, 1, n, &mut lo, 1) })?;
        Ok(lo)
    }

    /// Waits for room, for ever where there is no deadline.
    fn claim_until(&mut self, n: u64, deadline: Option<Instant>) -> Result<u64, Refusal> {
        loop {
            match self.claim(n) {
                Ok(lo) => {
                    self.waiting.found_room(n);
                    return Ok(lo);
                }
                Err(Refusal::NoRoom | Refusal::Contended) if deadline.map_or(true, |it| Instant::now() < it) => {
                    self.waiting.wait();
                }
                refused => {
                    self.waiting.found_room(0);
                    return refused;
                }
            }
        }
    }

    fn fill<R>(&mut self, lo: u64, n: u64, fill: impl FnOnce(Batch<'_, T>) -> R) -> R {
        let claim = Claim { handle: &mut self.handle, bell: &self.ring.bell, published: &self.published, lo, n };
        // SAFETY: they are claimed, and published only after `fill`, which cannot keep them.
        let (front, back) = unsafe { self.ring.slots.own(lo, n) };
        let made = fill(Batch(front.iter_mut().chain(back)));
        drop(claim);
        made
    }

    /// Publishes an event, once there is room for it and `fill` has filled it.
    pub fn publish<R>(&mut self, fill: impl FnOnce(&mut T) -> R) -> Result<R, Refusal> {
        self.publish_batch(1, |mut batch| fill(batch.next().expect("a claim of one has one event")))
    }

    /// The same where there is room now, and no other sender claims meanwhile.
    pub fn try_publish<R>(&mut self, fill: impl FnOnce(&mut T) -> R) -> Result<R, Refusal> {
        self.try_publish_batch(1, |mut batch| fill(batch.next().expect("a claim of one has one event")))
    }

    /// Publishes `n` events together, once there is room for all and `fill` has filled them.
    pub fn publish_batch<R>(&mut self, n: u64, fill: impl FnOnce(Batch<'_, T>) -> R) -> Result<R, Refusal> {
        let lo = self.claim_until(n, None)?;
        Ok(self.fill(lo, n, fill))
    }

    /// The same, or refused with `NoRoom` or `Contended` where that is so when the time is up. It may take ten milliseconds more,
    /// where it sleeps.
    pub fn publish_batch_timeout<R>(
        &mut self,
        n: u64,
        timeout: Duration,
        fill: impl FnOnce(Batch<'_, T>) -> R,
    ) -> Result<R, Refusal> {
        let lo = self.claim_until(n, Instant::now().checked_add(timeout))?;
        Ok(self.fill(lo, n, fill))
    }

    /// The same where there is room now, and no other sender claims meanwhile.
    pub fn try_publish_batch<R>(&mut self, n: u64, fill: impl FnOnce(Batch<'_, T>) -> R) -> Result<R, Refusal> {
        let lo = self.claim(n)?;
        self.waiting.found_room(n);
        Ok(self.fill(lo, n, fill))
    }

    /// How many events it published, for who watches it.
    pub fn watch(&self) -> Watch {
        self.published.clone()
    }

    /// How many sequences it claimed, and how many events it published. One of several senders does not count them.
    pub fn progress(&mut self) -> Result<Counts, Refusal> {
        let mut counts = Counts::default();
        // SAFETY: the handle is open, and nobody else has it.
        answer(unsafe { disruptor_progress_at(&mut self.handle, 1, &mut counts, 1) })?;
        Ok(counts)
    }
}

impl<T> Drop for Sender<T> {
    fn drop(&mut self) {
        if self.is_only {
            // SAFETY: the handle is open, and nobody else has it.
            let refused = unsafe { disruptor_close_at(&mut self.handle, 1) };
            debug_assert_eq!(refused, 0, "each claim is published by now");
            self.ring.bell.ring();
        } else {
            self.ring.lose_sender();
        }
    }
}

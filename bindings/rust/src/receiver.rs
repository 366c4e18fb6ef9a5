//! The end of one handler.

use crate::ffi::{disruptor_complete_at, disruptor_poll_slots_at, disruptor_progress_at, Counts, Handle, Offer};
use crate::refusal::{answer, Refusal};
use crate::ring::Ring;
use crate::waiting::{Bell, Wait, Waiting};
use crate::watch::Watch;
use std::fmt;
use std::sync::Arc;
use std::time::{Duration, Instant};

/// What a receiver found.
#[derive(Clone, Copy, Debug, PartialEq, Eq)]
pub enum Polled {
    /// So many events, which are completed.
    Handled(u64),
    /// None yet: a handler before has not completed it, or one of several senders has not published it.
    Gating,
    /// None: nothing more is published.
    Idle,
    /// None, for good: the handler had every event.
    Drained,
}

/// A handler went away before it had every event, so the ring is halted, and those who follow it wait no longer once they had what
/// it completed.
#[derive(Clone, Copy, Debug, PartialEq, Eq)]
pub struct Broken;

impl fmt::Display for Broken {
    fn fmt(&self, f: &mut fmt::Formatter<'_>) -> fmt::Result {
        f.write_str("a handler went away before it had every event")
    }
}

impl std::error::Error for Broken {}

/// Where a handler stands in its graph.
pub(crate) struct Place {
    pub k: usize,
    pub upstreams: u64,
    // Whether each other handler comes before it or after it, so that it has its events alone.
    pub is_alone: bool,
}

/// The end of one handler, which is shown every event after those that it follows had it.
///
/// Where a handler panics, the events before the one at which it did are completed. If it is asked to receive again, that one
/// counts as handled, and it goes on after it. Who drops a receiver that is not drained halts the ring.
pub struct Receiver<T> {
    handle: Handle,
    ring: Arc<Ring<T>>,
    waiting: Waiting,
    place: Place,
    is_drained: bool,
    // Up to where events are completed, shown, and taken.
    completed: Watch,
    shown: u64,
    taken: u64,
}

/// Events that are being shown: however it ends, those that were shown without a panic are completed.
struct Showing<'a> {
    handle: &'a mut Handle,
    bell: &'a Bell,
    completed: &'a Watch,
    shown: &'a mut u64,
    at: u64,
    upto: u64,
}

impl Showing<'_> {
    fn show<E>(mut self, events: impl Iterator<Item = E>, mut handle: impl FnMut(E, u64, bool)) -> Polled {
        let (first, last) = (self.at, self.upto - 1);
        for event in events {
            handle(event, self.at, self.at == last);
            self.at += 1;
        }
        Polled::Handled(self.at - first)
    }
}

impl Drop for Showing<'_> {
    fn drop(&mut self) {
        *self.shown = self.upto.min(self.at + 1);
        complete(self.handle, self.completed, self.at, self.bell);
    }
}

/// Completes up to a sequence, where that is more than is completed.
fn complete(handle: &mut Handle, completed: &Watch, upto: u64, bell: &Bell) {
    if completed.count() < upto {
        // SAFETY: the handle is open, and nobody else has it.
        let refused = unsafe { disruptor_complete_at(handle, 1, upto) };
        debug_assert_eq!(refused, 0, "what was taken is completed");
        completed.set(upto);
        bell.ring();
    }
}

impl<T> Receiver<T> {
    pub(crate) fn new(handle: Handle, ring: &Arc<Ring<T>>, wait: Wait, place: Place) -> Receiver<T> {
        let waiting = Waiting::new(wait, ring.slots.len(), &ring.bell);
        let ring = Arc::clone(ring);
        Receiver { handle, ring, waiting, place, is_drained: false, completed: Watch::default(), shown: 0, taken: 0 }
    }

    /// Takes more events, `room` at most, where a handler that panicked left none to show.
    fn take(&mut self, room: u64) -> Result<Option<Polled>, Refusal> {
        if room == 0 {
            return Err(Refusal::BadCount);
        }
        complete(&mut self.handle, &self.completed, self.shown, &self.ring.bell);
        if self.shown < self.taken {
            return Ok(None);
        }
        let mut offer = Offer::default();
        // SAFETY: the handle is open, and nobody else has it.
        answer(unsafe { disruptor_poll_slots_at(&mut self.handle, 1, room, &mut offer, 1) })?;
        Ok(match offer.kind {
            0 => {
                self.taken = offer.first + offer.count;
                None
            }
            1 => Some(Polled::Gating),
            2 => Some(Polled::Idle),
            _ => {
                self.is_drained = true;
                Some(Polled::Drained)
            }
        })
    }

    /// From where on and up to where events are to be shown that are taken.
    fn next(&self, room: u64) -> (u64, u64) {
        (self.shown, self.taken.min(self.shown.saturating_add(room)))
    }

    /// Shows the next events, `room` at most, to `handle(event, sequence, is_last_of_batch)`, and completes them.
    pub fn receive(&mut self, room: u64, handle: impl FnMut(&T, u64, bool)) -> Result<Polled, Refusal> {
        if let Some(found) = self.take(room)? {
            return Ok(found);
        }
        let (at, upto) = self.next(room);
        let Receiver { handle: end, ring, completed, shown, .. } = self;
        // SAFETY: the handler has them in hand until it completes them, and whoever may change them comes before it or after it.
        let (front, back) = unsafe { ring.slots.read(at, upto - at) };
        Ok(Showing { handle: end, bell: &ring.bell, completed, shown, at, upto }.show(front.iter().chain(back), handle))
    }

    /// The same, once there are events: what it finds when the time is up, or at its cut where a handler that it follows went away,
    /// may be none. It may take ten milliseconds more, where it sleeps.
    pub fn receive_timeout(
        &mut self,
        room: u64,
        timeout: Duration,
        mut handle: impl FnMut(&T, u64, bool),
    ) -> Result<Polled, Refusal> {
        let deadline = Instant::now().checked_add(timeout);
        let is_over = || deadline.map_or(false, |it| Instant::now() >= it);
        loop {
            match self.receive(room, &mut handle)? {
                Polled::Gating | Polled::Idle if !self.is_cut() && !is_over() => self.waiting.wait(),
                Polled::Handled(count) => {
                    self.waiting.found(count);
                    return Ok(Polled::Handled(count));
                }
                none => {
                    self.waiting.end();
                    return Ok(none);
                }
            }
        }
    }

    /// The same for a handler that has its events alone, and may change them.
    ///
    /// It panics where another handler neither comes before this one nor after it ([`Receiver::is_alone`]).
    pub fn receive_mut(&mut self, room: u64, handle: impl FnMut(&mut T, u64, bool)) -> Result<Polled, Refusal> {
        assert!(self.place.is_alone, "a handler changes events only if each other one comes before it or after it");
        if let Some(found) = self.take(room)? {
            return Ok(found);
        }
        let (at, upto) = self.next(room);
        let Receiver { handle: end, ring, completed, shown, .. } = self;
        // SAFETY: the handler has them in hand until it completes them, and no other one has them meanwhile.
        let (front, back) = unsafe { ring.slots.own(at, upto - at) };
        let events = front.iter_mut().chain(back);
        Ok(Showing { handle: end, bell: &ring.bell, completed, shown, at, upto }.show(events, handle))
    }

    /// Shows every event until the ring is drained, and waits in between.
    pub fn run(&mut self, mut handle: impl FnMut(&T, u64, bool)) -> Result<(), Broken> {
        self.take_turns(|receiver, room| receiver.receive(room, &mut handle))
    }

    /// The same for a handler that has its events alone, and may change them. It panics as [`Receiver::receive_mut`] does.
    pub fn run_mut(&mut self, mut handle: impl FnMut(&mut T, u64, bool)) -> Result<(), Broken> {
        self.take_turns(|receiver, room| receiver.receive_mut(room, &mut handle))
    }

    fn take_turns(&mut self, mut turn: impl FnMut(&mut Self, u64) -> Result<Polled, Refusal>) -> Result<(), Broken> {
        let room = self.size();
        loop {
            match turn(self, room).expect("a poll with room is not refused") {
                Polled::Handled(count) => self.waiting.found(count),
                Polled::Drained => return Ok(()),
                Polled::Gating | Polled::Idle if self.is_cut() => return Err(Broken),
                Polled::Gating | Polled::Idle => self.waiting.wait(),
            }
        }
    }

    /// Whether a handler that it follows went away, and it had all that comes before its cut.
    fn is_cut(&self) -> bool {
        self.completed.count() >= self.ring.cut(self.place.upstreams)
    }

    /// Whether each other handler comes before it or after it, so that it has its events alone.
    pub fn is_alone(&self) -> bool {
        self.place.is_alone
    }

    /// How many events it completed, for who watches it.
    pub fn watch(&self) -> Watch {
        self.completed.clone()
    }

    /// How many slots the ring has.
    pub fn size(&self) -> u64 {
        self.ring.slots.len()
    }

    /// How many events it took, and how many it completed.
    pub fn progress(&mut self) -> Counts {
        let mut counts = Counts::default();
        // SAFETY: the handle is open, and nobody else has it.
        let refused = unsafe { disruptor_progress_at(&mut self.handle, 1, &mut counts, 1) };
        debug_assert_eq!(refused, 0, "a receiver counts");
        counts
    }
}

impl<T> Drop for Receiver<T> {
    fn drop(&mut self) {
        if !self.is_drained {
            self.ring.give_up(self.place.k, self.completed.count());
        }
    }
}

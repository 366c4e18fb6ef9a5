//! The ends of a ring, for threads of your own.

use crate::ffi::{disruptor_open_bytes_at, disruptor_open_several_at, Handle};
use crate::receiver::{Place, Receiver};
use crate::refusal::{answer, Refusal};
use crate::ring::Ring;
use crate::sender::Sender;
use crate::slots::Slots;
use crate::waiting::Wait;
use std::sync::Arc;

/// An end that halts the ring, and tells how far it is, from any thread.
pub struct Halter<T>(Arc<Ring<T>>);

impl<T> Halter<T> {
    /// Nobody claims from now on. The handlers of several senders are drained once they took what is claimed, those of one
    /// once the sender is dropped.
    pub fn halt(&self) {
        self.0.halt();
    }

    /// How many events the one sender published, or how many several claimed.
    pub fn cursor(&self) -> u64 {
        self.0.cursor()
    }

    /// How many events handler `k` completed, or `NoHandler`. The ring has as many free slots as its size plus the least count of the
    /// final handlers, less the cursor: ask that first.
    pub fn completed(&self, k: usize) -> Result<u64, Refusal> {
        self.0.completed(k)
    }
}

impl<T> Clone for Halter<T> {
    fn clone(&self) -> Halter<T> {
        Halter(Arc::clone(&self.0))
    }
}

/// What a ring is to be.
#[derive(Clone, Debug)]
pub struct Plan {
    /// How many slots it has: a power of two up to 65,536.
    pub size: u64,
    /// How many sequences may be claimed at all, up to [`crate::MAX_LIMIT`].
    pub limit: u64,
    /// Handler `k` follows those whose bits are in `upstreams[k]`, all of them before `k`. There are 1 to 16.
    pub upstreams: Vec<u64>,
    /// How its threads wait.
    pub wait: Wait,
}

/// All handlers that come before each.
fn all_before(upstreams: &[u64]) -> Vec<u64> {
    let mut before: Vec<u64> = Vec::new();
    for mask in upstreams {
        let ups = before.iter().enumerate().filter(|(up, _)| mask >> up & 1 == 1);
        let all = ups.fold(*mask, |all, (_, before_up)| all | before_up);
        before.push(all);
    }
    before
}

/// Whether each other handler comes before a handler or after it.
fn is_alone(before: &[u64], k: usize) -> bool {
    (0..before.len()).all(|other| other == k || before[k] >> other & 1 == 1 || before[other] >> k & 1 == 1)
}

const MOST_SENDERS: usize = 16;

type Ends<T, S> = (S, Vec<Receiver<T>>, Halter<T>);

fn ends<T>(
    plan: &Plan,
    senders: usize,
    receiving: Vec<Handle>,
    halter: Handle,
    factory: impl FnMut() -> T,
) -> Ends<T, ()> {
    let ring = Arc::new(Ring::new(Slots::new(plan.size as usize, factory), halter, senders));
    let before = all_before(&plan.upstreams);
    let places = plan.upstreams.iter().enumerate();
    let places = places.map(|(k, upstreams)| Place { k, upstreams: *upstreams, is_alone: is_alone(&before, k) });
    let ends = receiving.into_iter().zip(places);
    let receivers = ends.map(|(handle, place)| Receiver::new(handle, &ring, plan.wait, place)).collect();
    ((), receivers, Halter(ring))
}

/// Opens a ring of one sender. The factory makes the event of each slot; it is dropped with the last end.
pub fn open<T: Send + Sync>(plan: &Plan, factory: impl FnMut() -> T) -> Result<Ends<T, Sender<T>>, Refusal> {
    let (mut sending, mut halter) = (Handle::NEW, Handle::NEW);
    let mut receiving = Handle::several(plan.upstreams.len());
    let (masks, count, places) = (plan.upstreams.as_ptr(), receiving.len(), receiving.as_mut_ptr());
    #[rustfmt::skip]
    // SAFETY: so many handles lie there, all new.
    answer(unsafe {
        disruptor_open_bytes_at(
            plan.size, plan.limit, 0, masks, count, count, &mut sending, 1, places, count, count, &mut halter, 1,
        )
    })?;
    let ((), receivers, halter) = ends(plan, 1, receiving, halter, factory);
    Ok((Sender::new(sending, &halter.0, plan.wait, true), receivers, halter))
}

/// Opens a ring of several senders, 1 to 16, each for a thread of its own. It ends with a halt, or once its last sender is dropped.
pub fn open_several<T: Send + Sync>(
    plan: &Plan,
    senders: usize,
    factory: impl FnMut() -> T,
) -> Result<Ends<T, Vec<Sender<T>>>, Refusal> {
    // (so many, or as many as are refused like them)
    let senders = senders.min(MOST_SENDERS + 1);
    let (mut sending, mut halter) = (Handle::several(senders), Handle::NEW);
    let mut receiving = Handle::several(plan.upstreams.len());
    let (masks, count, places) = (plan.upstreams.as_ptr(), receiving.len(), receiving.as_mut_ptr());
    let from = sending.as_mut_ptr();
    #[rustfmt::skip]
    // SAFETY: so many handles lie there, all new.
    answer(unsafe {
        disruptor_open_several_at(
            plan.size, plan.limit, masks, count, count, from, senders, senders, places, count, count, &mut halter, 1,
        )
    })?;
    let ((), receivers, halter) = ends(plan, senders, receiving, halter, factory);
    let senders = sending.into_iter().map(|handle| Sender::new(handle, &halter.0, plan.wait, false)).collect();
    Ok((senders, receivers, halter))
}

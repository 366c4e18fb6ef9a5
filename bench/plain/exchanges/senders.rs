//! A ring of sequentially consistent words with several senders: a word by which claims are decided, a
//! mark a slot that tells of which round its event is, two words of payload an event, and a count for
//! each handler. The halt is the highest bit of the claim word.

use crate::topology::Shape;
use crate::waiting::{Pace, Waiting};
use crate::{MOST_AT_ONCE, Order, Round, STRETCH, check_sum, event_at};
use std::sync::atomic::{AtomicU64, Ordering::SeqCst};
use std::thread;
use std::time::Instant;

const HALT_BIT: u64 = 1 << 63;

#[repr(align(128))]
#[derive(Default)]
struct Lone(AtomicU64);

struct Words {
    size: u64,
    claims: Lone,
    marks: Vec<AtomicU64>,
    payload: Vec<[AtomicU64; 2]>,
    counts: Vec<Lone>,
    finals: Vec<usize>,
}

impl Words {
    fn new(shape: &Shape, size: u64) -> Words {
        Words {
            size,
            claims: Lone::default(),
            marks: (0..size).map(|_| AtomicU64::default()).collect(),
            payload: (0..size).map(|_| Default::default()).collect(),
            counts: shape.upstreams.iter().map(|_| Lone::default()).collect(),
            finals: shape.finals(),
        }
    }

    fn slot(&self, s: u64) -> usize {
        (s & (self.size - 1)) as usize
    }

    /// One more than the round of a sequence.
    fn mark(&self, s: u64) -> u64 {
        s / self.size + 1
    }

    fn least(&self, handlers: &[usize]) -> Option<u64> {
        handlers.iter().map(|h| self.counts[*h].0.load(SeqCst)).min()
    }

    /// The first of the next `n` sequences, once there is room and no other sender comes between.
    fn claim(&self, gate: &mut u64, pace: &mut Pace, n: u64) -> u64 {
        loop {
            let first = self.claims.0.load(SeqCst);
            if first + n > *gate + self.size {
                *gate = self.least(&self.finals).unwrap_or(first);
            }
            let fits = first + n <= *gate + self.size;
            if fits && self.claims.0.compare_exchange(first, first + n, SeqCst, SeqCst).is_ok() {
                pace.found(n);
                return first;
            }
            pace.wait();
        }
    }

    fn send(&self, gate: &mut u64, pace: &mut Pace, n: u64) {
        let first = self.claim(gate, pace, n);
        for s in first..first + n {
            let event = event_at(s);
            let [one, other] = &self.payload[self.slot(s)];
            one.store(event.first, SeqCst);
            other.store(event.second, SeqCst);
        }
        for s in first..first + n {
            self.marks[self.slot(s)].store(self.mark(s), SeqCst);
        }
    }

    /// A stretch of claims, and how many events it had.
    fn send_all(&self, claim: u64) -> u64 {
        let (mut gate, mut pace) = (0, Pace::new(self.size));
        let claims = STRETCH / claim;
        for _ in 0..claims {
            self.send(&mut gate, &mut pace, claim);
        }
        claims * claim
    }

    /// How many first events are published, where `seen` are known to be, of those that are claimed.
    fn front(&self, seen: u64, claimed: u64) -> u64 {
        let is_published = |s: &u64| self.marks[self.slot(*s)].load(SeqCst) == self.mark(*s);
        seen + (seen..claimed).take_while(is_published).count() as u64
    }

    /// Adds up what the handler `h` receives, until the ring is halted and all that is claimed came.
    fn receive(&self, h: usize, upstreams: &[usize]) -> u64 {
        let mut waiting = Waiting::new(MOST_AT_ONCE.min(self.size));
        let (mut sum, mut taken, mut seen) = (0u64, 0, 0);
        loop {
            let found = self.claims.0.load(SeqCst);
            let claimed = found & !HALT_BIT;
            if claimed == taken && found != claimed {
                return sum;
            }
            let offered = self.least(upstreams).unwrap_or_else(|| self.front(seen, claimed));
            seen = offered;
            if offered == taken {
                waiting.wait();
                continue;
            }
            let upto = offered.min(taken + MOST_AT_ONCE);
            for s in taken..upto {
                let [first, second] = &self.payload[self.slot(s)];
                sum = sum.wrapping_add(first.load(SeqCst)).wrapping_add(second.load(SeqCst));
            }
            self.counts[h].0.store(upto, SeqCst);
            waiting.found(upto - taken);
            taken = upto;
        }
    }
}

/// One round of a stretch for each sender over a ring of its own, until the last handler has taken all.
pub fn round(order: &Order) -> Round {
    let shape = &order.topology.shape;
    let claim = order.topology.claim.min(order.size);
    let words = &Words::new(shape, order.size);
    thread::scope(|scope| {
        let upstreams = shape.upstreams.iter().enumerate();
        let handlers: Vec<_> = upstreams.map(|(h, ups)| scope.spawn(move || words.receive(h, ups))).collect();
        let begun = Instant::now();
        let senders: Vec<_> = (0..order.topology.producers).map(|_| scope.spawn(move || words.send_all(claim))).collect();
        let events = senders.into_iter().map(|sender| sender.join().expect("a count")).sum();
        words.claims.0.fetch_or(HALT_BIT, SeqCst);
        let sums: Vec<u64> = handlers.into_iter().map(|handler| handler.join().expect("a sum")).collect();
        let time = begun.elapsed();
        sums.into_iter().for_each(|sum| check_sum(sum, events));
        Round { events, time }
    })
}

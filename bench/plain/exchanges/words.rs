//! A ring of sequentially consistent words with a thread for each end: a cursor, and a count for each handler,
//! each on a cache line of its own. An event lies in two more words, or in plain memory.

use crate::topology::Shape;
use crate::waiting::{Pace, Waiting};
use crate::{Event, MOST_AT_ONCE, Order, Round, STRETCH, check_sum, event_at};
use std::cell::UnsafeCell;
use std::sync::atomic::{AtomicU64, Ordering::SeqCst};
use std::thread;
use std::time::Instant;

/// Where an event lies.
pub trait Slot: Default + Sync {
    fn write(&self, event: Event);
    fn read(&self) -> Event;
}

/// Two words.
#[derive(Default)]
pub struct Atomic([AtomicU64; 2]);

impl Slot for Atomic {
    fn write(&self, event: Event) {
        self.0[0].store(event.first, SeqCst);
        self.0[1].store(event.second, SeqCst);
    }

    fn read(&self) -> Event {
        Event {
            first: self.0[0].load(SeqCst),
            second: self.0[1].load(SeqCst),
        }
    }
}

/// Plain memory, which is written only while no handler may read it.
#[derive(Default)]
pub struct Plain(UnsafeCell<Event>);

unsafe impl Sync for Plain {}

impl Slot for Plain {
    fn write(&self, event: Event) {
        unsafe { *self.0.get() = event };
    }

    fn read(&self) -> Event {
        unsafe { *self.0.get() }
    }
}

#[repr(align(128))]
#[derive(Default)]
struct Lone(AtomicU64);

struct Words<S> {
    mask: u64,
    slots: Vec<S>,
    cursor: Lone,
    closed: Lone,
    counts: Vec<Lone>,
}

struct Sender<'a, S> {
    words: &'a Words<S>,
    finals: Vec<usize>,
    next: u64,
    gate: u64,
    pace: Pace,
}

impl<S: Slot> Words<S> {
    fn new(shape: &Shape, size: u64) -> Self {
        Words {
            mask: size - 1,
            slots: (0..size).map(|_| S::default()).collect(),
            cursor: Lone::default(),
            closed: Lone::default(),
            counts: shape.upstreams.iter().map(|_| Lone::default()).collect(),
        }
    }

    fn slot(&self, s: u64) -> &S {
        &self.slots[(s & self.mask) as usize]
    }

    fn least(&self, handlers: &[usize]) -> Option<u64> {
        handlers.iter().map(|h| self.counts[*h].0.load(SeqCst)).min()
    }

    /// Adds up what the handler `h` receives, until the ring is closed and all of it came.
    fn receive(&self, h: usize, upstreams: &[usize]) -> u64 {
        let mut waiting = Waiting::new(MOST_AT_ONCE.min(self.mask + 1));
        let (mut sum, mut taken) = (0u64, 0);
        loop {
            let closed = self.closed.0.load(SeqCst);
            let cursor = self.cursor.0.load(SeqCst);
            let offered = self.least(upstreams).unwrap_or(cursor);
            if offered == taken {
                if closed == 1 && cursor == taken {
                    return sum;
                }
                waiting.wait();
                continue;
            }
            let upto = offered.min(taken + MOST_AT_ONCE);
            for s in taken..upto {
                let event = self.slot(s).read();
                sum = sum.wrapping_add(event.first).wrapping_add(event.second);
            }
            self.counts[h].0.store(upto, SeqCst);
            waiting.found(upto - taken);
            taken = upto;
        }
    }
}

impl<S: Slot> Sender<'_, S> {
    fn claim(&mut self, n: u64) {
        while self.next + n > self.gate + self.words.mask + 1 {
            self.gate = self.words.least(&self.finals).unwrap_or(self.next);
            if self.next + n > self.gate + self.words.mask + 1 {
                self.pace.wait();
            }
        }
        self.pace.found(n);
    }

    fn send(&mut self, n: u64) {
        self.claim(n);
        for s in self.next..self.next + n {
            self.words.slot(s).write(event_at(s));
        }
        self.next += n;
        self.words.cursor.0.store(self.next, SeqCst);
    }
}

/// One round over a ring of its own, from the first claim until the last handler has taken all.
pub fn round<S: Slot>(order: &Order) -> Round {
    let shape = &order.topology.shape;
    let claim = order.topology.claim.min(order.size);
    let words = Words::<S>::new(shape, order.size);
    let mut sender = Sender {
        words: &words,
        finals: shape.finals(),
        next: 0,
        gate: 0,
        pace: Pace::new(order.size),
    };
    thread::scope(|scope| {
        let words = &words;
        let upstreams = shape.upstreams.iter().enumerate();
        let handlers: Vec<_> = upstreams.map(|(h, ups)| scope.spawn(move || words.receive(h, ups))).collect();
        let begun = Instant::now();
        loop {
            for _ in 0..STRETCH / claim {
                sender.send(claim);
            }
            if begun.elapsed() >= order.time {
                break;
            }
        }
        words.closed.0.store(1, SeqCst);
        let sums: Vec<u64> = handlers.into_iter().map(|handler| handler.join().expect("a sum")).collect();
        let time = begun.elapsed();
        sums.into_iter().for_each(|sum| check_sum(sum, sender.next));
        Round {
            events: sender.next,
            time,
        }
    })
}

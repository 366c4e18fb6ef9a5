//! A ring behind a `Mutex` with a thread for each end: a locked call for each claim, write, publication,
//! poll and completion, as the exchange by lock has. Several producers share the events out by claims.

use crate::topology::Shape;
use crate::waiting::{Pace, Waiting};
use crate::{Event, MOST_AT_ONCE, Order, Round, STRETCH, check_sum, event_at};
use std::sync::Mutex;
use std::thread;
use std::time::Instant;

struct Locked {
    slots: Vec<Event>,
    /// One more than the sequence that was last published in each slot.
    marks: Vec<u64>,
    next: u64,
    front: u64,
    closed: bool,
    completed: Vec<u64>,
}

enum Polled {
    Batch { first: u64, count: u64 },
    Nothing,
    Drained,
}

struct Ring {
    locked: Mutex<Locked>,
    mask: u64,
    finals: Vec<usize>,
}

impl Ring {
    fn new(shape: &Shape, size: u64) -> Ring {
        let locked = Locked {
            slots: vec![Event::default(); size as usize],
            marks: vec![0; size as usize],
            next: 0,
            front: 0,
            closed: false,
            completed: vec![0; shape.upstreams.len()],
        };
        Ring {
            locked: Mutex::new(locked),
            mask: size - 1,
            finals: shape.finals(),
        }
    }

    fn claim(&self, n: u64) -> Option<u64> {
        let mut locked = self.locked.lock().expect("a lock");
        let least = self.finals.iter().map(|h| locked.completed[*h]).min().unwrap_or(0);
        if locked.next + n > least + self.mask + 1 {
            return None;
        }
        locked.next += n;
        Some(locked.next - n)
    }

    fn write(&self, s: u64, event: Event) {
        self.locked.lock().expect("a lock").slots[(s & self.mask) as usize] = event;
    }

    fn publish(&self, lo: u64, hi: u64) {
        let mut locked = self.locked.lock().expect("a lock");
        for s in lo..=hi {
            locked.marks[(s & self.mask) as usize] = s + 1;
        }
        while locked.marks[(locked.front & self.mask) as usize] == locked.front + 1 {
            locked.front += 1;
        }
    }

    fn poll(&self, h: usize, upstreams: &[usize], room: &mut [Event]) -> Polled {
        let locked = self.locked.lock().expect("a lock");
        let offered = upstreams.iter().map(|u| locked.completed[*u]).min().unwrap_or(locked.front);
        let first = locked.completed[h];
        if offered == first {
            let drained = locked.closed && locked.front == first;
            return if drained { Polled::Drained } else { Polled::Nothing };
        }
        let count = (offered - first).min(room.len() as u64);
        for (event, s) in room.iter_mut().zip(first..first + count) {
            *event = locked.slots[(s & self.mask) as usize];
        }
        Polled::Batch { first, count }
    }

    fn complete(&self, h: usize, upto: u64) {
        self.locked.lock().expect("a lock").completed[h] = upto;
    }

    fn receive(&self, h: usize, upstreams: &[usize]) -> u64 {
        let mut room = vec![Event::default(); MOST_AT_ONCE.min(self.mask + 1) as usize];
        let mut waiting = Waiting::new(room.len() as u64);
        let mut sum = 0u64;
        loop {
            match self.poll(h, upstreams, &mut room) {
                Polled::Batch { first, count } => {
                    let batch = room.iter().take(count as usize);
                    sum = batch.fold(sum, |sum, event| sum.wrapping_add(event.first));
                    self.complete(h, first + count);
                    waiting.found(count);
                }
                Polled::Nothing => waiting.wait(),
                Polled::Drained => return sum,
            }
        }
    }

    fn send(&self, pace: &mut Pace, n: u64) {
        let lo = loop {
            match self.claim(n) {
                Some(lo) => break lo,
                None => pace.wait(),
            }
        };
        pace.found(n);
        for s in lo..lo + n {
            self.write(s, event_at(s));
        }
        self.publish(lo, lo + n - 1);
    }
}

/// One round over a ring of its own, from the first claim until the last handler has taken all.
pub fn round(order: &Order) -> Round {
    let shape = &order.topology.shape;
    let claim = order.topology.claim.min(order.size);
    let ring = &Ring::new(shape, order.size);
    thread::scope(|scope| {
        let upstreams = shape.upstreams.iter().enumerate();
        let handlers: Vec<_> = upstreams.map(|(h, ups)| scope.spawn(move || ring.receive(h, ups))).collect();
        let begun = Instant::now();
        let send_all = move || {
            let mut pace = Pace::new(order.size);
            loop {
                for _ in 0..STRETCH / claim / order.topology.producers {
                    ring.send(&mut pace, claim);
                }
                if begun.elapsed() >= order.time {
                    return;
                }
            }
        };
        let others: Vec<_> = (1..order.topology.producers).map(|_| scope.spawn(send_all)).collect();
        send_all();
        others.into_iter().for_each(|producer| producer.join().expect("a producer"));
        let events = {
            let mut locked = ring.locked.lock().expect("a lock");
            locked.closed = true;
            locked.next
        };
        let sums: Vec<u64> = handlers.into_iter().map(|handler| handler.join().expect("a sum")).collect();
        let time = begun.elapsed();
        sums.into_iter().for_each(|sum| check_sum(sum, events));
        Round { events, time }
    })
}

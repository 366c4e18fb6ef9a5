//! Rings and queues in plain Rust with nothing verified, to measure the exchanges against:
//! `exchanges KIND TOPOLOGY SIZE SECONDS ROUNDS` prints a line as `disruptor_bench` does.
//!
//! On one thread (topologies that begin with `core-`, or with `core1-`, `core8-` or `core16-` for events of
//! so many words): `ring`, counts and slots that handlers read in place, and `deque`, a `VecDeque` for each
//! edge of the graph, of events of two words alone. With a thread for each end: `words`, a ring of
//! sequentially consistent words, with one sender or several (`sendersP-`), `slots`, the same with one sender
//! and events in plain memory, `channel`, a bounded channel of std for each edge of the graph, and `mutex`, a
//! ring behind a `Mutex`.

mod channel;
mod deque;
mod mutex;
mod ring;
mod senders;
mod topology;
mod waiting;
mod words;

use std::env;
use std::process::exit;
use std::time::{Duration, Instant};
use topology::{Exchange, Topology};

/// How many events go through between two looks at the clock, about.
pub const STRETCH: u64 = 65_536;

/// The most events that a handler on a thread of its own takes at once.
pub const MOST_AT_ONCE: u64 = 1024;

#[derive(Clone, Copy, Default)]
pub struct Event {
    pub first: u64,
    pub second: u64,
}

pub fn event_at(sequence: u64) -> Event {
    Event {
        first: sequence,
        second: 0,
    }
}

/// What is measured, and for how long.
pub struct Order {
    pub topology: Topology,
    pub size: u64,
    pub time: Duration,
}

/// How many events went through, and how long they took.
pub struct Round {
    pub events: u64,
    pub time: Duration,
}

impl Round {
    fn per_second(&self) -> u128 {
        u128::from(self.events) * 1_000_000_000 / self.time.as_nanos().max(1)
    }
}

/// Ends the program where a handler did not add up the first sequences.
pub fn check_sum(sum: u64, events: u64) {
    check_total(sum, (0..events).fold(0u64, u64::wrapping_add));
}

/// Ends the program where a handler added up something else.
pub fn check_total(sum: u64, wanted: u64) {
    if sum != wanted {
        eprintln!("wrong sum");
        exit(5);
    }
}

/// An exchange on one thread.
pub trait OneThread {
    /// Claims, writes and publishes the next `n` events.
    fn send(&mut self, n: u64);

    /// Each handler takes all that it is offered.
    fn take_all(&mut self);

    /// What each handler added up.
    fn sums(&self) -> &[u64];
}

/// Rounds of laps: as many claims as fill the ring, or one, and then a turn for each handler.
fn one_thread(mut exchange: impl OneThread, order: &Order, rounds: usize) -> Vec<Round> {
    let claim = order.topology.claim.min(order.size);
    let claims = if order.topology.step { 1 } else { order.size / claim };
    let mut all = 0;
    let done = (0..rounds)
        .map(|_| {
            let before = all;
            let begun = Instant::now();
            loop {
                for _ in 0..STRETCH / (claims * claim) {
                    for _ in 0..claims {
                        exchange.send(claim);
                    }
                    exchange.take_all();
                    all += claims * claim;
                }
                let time = begun.elapsed();
                if time >= order.time {
                    let events = all - before;
                    return Round { events, time };
                }
            }
        })
        .collect();
    for sum in exchange.sums() {
        check_sum(*sum, all);
    }
    done
}

/// The rounds of the ring with so many words an event.
fn ring_rounds(words: u64, order: &Order, rounds: usize) -> Vec<Round> {
    let shape = &order.topology.shape;
    match words {
        1 => one_thread(ring::Ring::<0>::new(shape, order.size), order, rounds),
        8 => one_thread(ring::Ring::<7>::new(shape, order.size), order, rounds),
        16 => one_thread(ring::Ring::<15>::new(shape, order.size), order, rounds),
        _ => one_thread(ring::Ring::<1>::new(shape, order.size), order, rounds),
    }
}

fn rounds_of(kind: &str, order: &Order, rounds: usize) -> Option<Vec<Round>> {
    let shape = &order.topology.shape;
    match (kind, order.topology.exchange) {
        ("ring", Exchange::OneThread(words)) => Some(ring_rounds(words, order, rounds)),
        ("deque", Exchange::OneThread(2)) => Some(one_thread(deque::Deques::new(shape), order, rounds)),
        ("words", Exchange::OneSender) => Some((0..rounds).map(|_| words::round::<words::Atomic>(order)).collect()),
        ("slots", Exchange::OneSender) => Some((0..rounds).map(|_| words::round::<words::Plain>(order)).collect()),
        ("words", Exchange::Senders) => Some((0..rounds).map(|_| senders::round(order)).collect()),
        ("channel", Exchange::OneSender | Exchange::Senders) => Some((0..rounds).map(|_| channel::round(order)).collect()),
        ("mutex", Exchange::OneSender | Exchange::Lock) => Some((0..rounds).map(|_| mutex::round(order)).collect()),
        _ => None,
    }
}

fn measured(words: &[String]) -> Option<String> {
    let [kind, name, size, seconds, rounds] = words else {
        return None;
    };
    let order = Order {
        topology: Topology::named(name)?,
        size: size.parse().ok().filter(|size: &u64| size.is_power_of_two())?,
        time: Duration::try_from_secs_f64(seconds.parse().ok()?).ok()?,
    };
    let mut done = rounds_of(kind, &order, rounds.parse().ok().filter(|rounds| *rounds > 0)?)?;
    done.sort_by_key(Round::per_second);
    let Round { events, time } = &done[done.len() / 2];
    let rate = done[done.len() / 2].per_second();
    Some(format!("plain-{kind} {name} {size} {events} {:.6} {rate}", time.as_secs_f64()))
}

fn main() {
    let words: Vec<String> = env::args().skip(1).collect();
    match measured(&words) {
        Some(line) => println!("{line}"),
        None => {
            eprintln!("usage: exchanges KIND TOPOLOGY SIZE SECONDS ROUNDS");
            exit(1);
        }
    }
}

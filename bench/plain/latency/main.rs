//! How long an event takes through a pipeline of three threads with a bounded channel before each, which in std is
//! crossbeam's: `latency EVENTS NANOS` sends an event each so many nanoseconds, and prints how many nanoseconds each
//! took, from before it is sent until the third thread has it.

use std::io::{self, BufWriter, Write};
use std::sync::mpsc::{Receiver, SyncSender, sync_channel};
use std::thread;
use std::time::Instant;

const SLOTS: usize = 1024;

fn nanos_since(begun: Instant) -> u64 {
    begun.elapsed().as_nanos() as u64
}

fn hand_on(from: Receiver<u64>, to: SyncSender<u64>) {
    for sent in from {
        if to.send(sent).is_err() {
            return;
        }
    }
}

fn main() -> io::Result<()> {
    let words: Vec<u64> = std::env::args().skip(1).map(|word| word.parse().expect("a number")).collect();
    let &[events, gap] = words.as_slice() else {
        panic!("latency EVENTS NANOS");
    };
    let (first, one) = sync_channel(SLOTS);
    let (second, two) = sync_channel(SLOTS);
    let (third, three) = sync_channel(SLOTS);
    thread::spawn(move || hand_on(one, second));
    thread::spawn(move || hand_on(two, third));
    let begun = Instant::now();
    let noting = thread::spawn(move || three.iter().map(|sent| nanos_since(begun) - sent).collect::<Vec<u64>>());
    let mut due = nanos_since(begun);
    for _ in 0..events {
        due += gap;
        let mut now = nanos_since(begun);
        while now < due {
            now = nanos_since(begun);
        }
        first.send(now).expect("a receiver");
    }
    drop(first);
    let mut out = BufWriter::new(io::stdout().lock());
    for nanos in noting.join().expect("the last thread") {
        writeln!(out, "{nanos}")?;
    }
    Ok(())
}

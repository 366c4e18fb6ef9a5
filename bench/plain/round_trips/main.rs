//! How long an event takes to another thread and back over two bounded channels, which in std are crossbeam's: `round_trips TRIPS` sends an
//! event, which the other thread answers, and the next as soon as the answer is there. It prints how many nanoseconds each took.

use std::io::{self, BufWriter, Write};
use std::sync::mpsc::sync_channel;
use std::thread;
use std::time::Instant;

const SLOTS: usize = 1024;

fn nanos_since(begun: Instant) -> u64 {
    begun.elapsed().as_nanos() as u64
}

fn main() -> io::Result<()> {
    let trips = std::env::args().nth(1).and_then(|word| word.parse::<u64>().ok()).expect("round_trips TRIPS");
    let (there, asked) = sync_channel(SLOTS);
    let (back, answers) = sync_channel(SLOTS);
    let answering = thread::spawn(move || asked.iter().for_each(|sent: u64| back.send(sent).expect("who asks")));
    let begun = Instant::now();
    let trip = |_| {
        there.send(nanos_since(begun)).expect("who answers");
        let sent = answers.recv().expect("an answer");
        nanos_since(begun) - sent
    };
    let times: Vec<u64> = (0..trips).map(trip).collect();
    drop(there);
    answering.join().expect("who answers");
    let mut out = BufWriter::new(io::stdout().lock());
    times.iter().try_for_each(|nanos| writeln!(out, "{nanos}"))
}

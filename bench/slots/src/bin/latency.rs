//! How long an event takes through a pipeline of three over a ring of slots: `latency WAY EVENTS NANOS` sends an event each so many
//! nanoseconds, and prints how many nanoseconds each took, from before its claim until the third handler has it. WAY is `spinning`,
//! `yielding` or `parking`.

use rates::{nanos_since, plan, print, wait_named};
use std::error::Error;
use std::thread;
use std::time::Instant;
use verified_disruptor::{open, Broken, Receiver, Sender};

fn send(mut sender: Sender<u64>, events: u64, gap: u64, begun: Instant) {
    let mut due = nanos_since(begun);
    for _ in 0..events {
        due += gap;
        let mut now = nanos_since(begun);
        while now < due {
            now = nanos_since(begun);
        }
        sender.publish(|sent| *sent = now).expect("nobody halts the ring");
    }
}

fn note(mut last: Receiver<u64>, events: u64, begun: Instant) -> Result<Vec<u64>, Broken> {
    let mut times = Vec::with_capacity(events as usize);
    last.run(|sent, _, _| times.push(nanos_since(begun) - sent)).map(|()| times)
}

fn main() -> Result<(), Box<dyn Error>> {
    let words: Vec<String> = std::env::args().collect();
    let [_, way, events, gap] = &words[..] else {
        return Err("usage: latency WAY EVENTS NANOS".into());
    };
    let (events, gap) = (events.parse()?, gap.parse()?);
    let (sender, mut receivers, _halter) = open(&plan(vec![0, 1, 2], wait_named(way)?), || 0)?;
    let begun = Instant::now();
    let last = receivers.pop().expect("a third handler");
    let passing = receivers.into_iter().map(|mut it| thread::spawn(move || it.run(|_, _, _| ())));
    let passing: Vec<_> = passing.collect();
    let noting = thread::spawn(move || note(last, events, begun));
    send(sender, events, gap, begun);
    passing.into_iter().try_for_each(|it| it.join().expect("a handler"))?;
    print(&noting.join().expect("the last handler")?)?;
    Ok(())
}

//! Events a second over a ring of slots from Rust, each end on a thread of its own, measured as bench/c/rates.c does:
//!
//!     rates TOPOLOGY SIZE SECONDS ROUNDS
//!
//! Before its name a topology may have `bytesN-` for events of 16, 64, 256, 1024 or 4096 bytes.

use std::error::Error;
use std::thread;
use std::time::{Duration, Instant};
use verified_disruptor::{open, open_several, Plan, Receiver, Sender, Wait, MAX_LIMIT};

const STRETCH: u64 = 65_536;

/// An event of so many words, the first of which is its number.
struct Event<const WORDS: usize>([u64; WORDS]);

impl<const WORDS: usize> Event<WORDS> {
    fn at(number: u64) -> Event<WORDS> {
        let mut words = [0; WORDS];
        words[0] = number;
        Event(words)
    }
}

struct Order {
    plan: Plan,
    bytes: u64,
    // None where the ring has one sender.
    senders: Option<usize>,
    claim: u64,
    time: Duration,
}

/// The number after a word at the front of a name, and the rest of the name.
fn numbered<'a>(name: &'a str, word: &str) -> Result<(Option<u64>, &'a str), Box<dyn Error>> {
    Ok(match name.strip_prefix(word).and_then(|it| it.split_once('-')) {
        Some((number, rest)) => (Some(number.parse()?), rest),
        None => (None, name),
    })
}

fn read(name: &str, size: u64, seconds: f64) -> Result<Order, Box<dyn Error>> {
    let (bytes, name) = numbered(name, "bytes")?;
    let (senders, name) = numbered(name, "senders")?;
    let (shape, claim) = match name.split_once("-b") {
        Some((shape, claim)) => (shape, claim.parse()?),
        None => (name, 1),
    };
    let upstreams = match shape {
        "unicast" => vec![0],
        "pipeline" => vec![0, 1, 2],
        "multicast" => vec![0, 0, 0],
        "diamond" => vec![0, 0, 3],
        other => return Err(format!("no topology {other}").into()),
    };
    let plan = Plan { size, limit: MAX_LIMIT, upstreams, wait: Wait::Parking };
    let senders = senders.map(|count| count as usize);
    Ok(Order {
        plan,
        bytes: bytes.unwrap_or(16),
        senders,
        claim: size.min(claim),
        time: Duration::from_secs_f64(seconds),
    })
}

fn send<const WORDS: usize>(mut sender: Sender<Event<WORDS>>, claim: u64, time: Duration) -> u64 {
    let (begun, mut sent) = (Instant::now(), 0);
    while sent == 0 || begun.elapsed() < time {
        for _ in 0..STRETCH / claim {
            let filled = sender.publish_batch(claim, |batch| {
                batch.zip(sent..).for_each(|(event, n)| *event = Event::at(n));
            });
            filled.expect("nobody halts the ring");
            sent += claim;
        }
    }
    sent
}

/// One round over a ring of its own, from the first claim until the last handler has had all.
fn play<const WORDS: usize>(order: &Order) -> Result<f64, Box<dyn Error>> {
    let (senders, receivers, halter) = match order.senders {
        Some(count) => open_several(&order.plan, count, || Event::<WORDS>::at(0))?,
        None => {
            let (sender, receivers, halter) = open(&order.plan, || Event::<WORDS>::at(0))?;
            (vec![sender], receivers, halter)
        }
    };
    let handle = |mut receiver: Receiver<Event<WORDS>>| {
        let mut sum = 0;
        receiver.run(|event, _, _| sum += event.0.iter().sum::<u64>()).map(|()| sum)
    };
    let handlers: Vec<_> = receivers.into_iter().map(|receiver| thread::spawn(move || handle(receiver))).collect();
    let begun = Instant::now();
    let (claim, time) = (order.claim, order.time);
    let senders: Vec<_> = senders.into_iter().map(|sender| thread::spawn(move || send(sender, claim, time))).collect();
    let sent: Vec<u64> = senders.into_iter().map(|it| it.join().expect("it sends")).collect();
    // (the one sender closed its ring as it was dropped)
    halter.halt();
    let wanted: u64 = sent.iter().map(|count| count * (count - 1) / 2).sum();
    for handler in handlers {
        assert_eq!(handler.join().expect("it receives")?, wanted);
    }
    Ok(sent.iter().sum::<u64>() as f64 / begun.elapsed().as_secs_f64())
}

fn play_by_width(order: &Order) -> Result<f64, Box<dyn Error>> {
    match order.bytes {
        16 => play::<2>(order),
        64 => play::<8>(order),
        256 => play::<32>(order),
        1024 => play::<128>(order),
        4096 => play::<512>(order),
        other => Err(format!("no events of {other} bytes").into()),
    }
}

fn main() -> Result<(), Box<dyn Error>> {
    let words: Vec<String> = std::env::args().collect();
    let (topology, size, seconds, rounds) = match &words[..] {
        [_, topology, size, seconds, rounds] => (topology, size, seconds, rounds),
        _ => return Err("usage: rates TOPOLOGY SIZE SECONDS ROUNDS".into()),
    };
    let order = read(topology, size.parse()?, seconds.parse()?)?;
    let mut rates = (0..rounds.parse()?).map(|_| play_by_width(&order)).collect::<Result<Vec<f64>, _>>()?;
    rates.sort_by(f64::total_cmp);
    println!("rust-slots {topology} {size} {:.0}", rates[rates.len() / 2]);
    Ok(())
}

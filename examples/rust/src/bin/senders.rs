//! Three senders, a thread each, and two handlers by their names: the second one sees what the first one wrote into each event.

use std::error::Error;
use std::sync::atomic::{AtomicU64, Ordering};
use std::sync::Arc;
use std::thread;
use verified_disruptor::{Builder, Refusal};

const SENDERS: usize = 3;
const EVENTS: u64 = 300_000;
const CLAIM: u64 = 10;

#[derive(Default)]
struct Event {
    number: u64,
    square: u64,
}

fn main() -> Result<(), Box<dyn Error>> {
    let sum = Arc::new(AtomicU64::new(0));
    let squares = Arc::clone(&sum);
    let mut disruptor = Builder::new(1024, Event::default)
        .handle_mut("squares", |event: &mut Event, _sequence, _is_last| event.square = event.number * event.number)
        .after(["squares"])
        .handle("sum", move |event: &Event, _sequence, _is_last| {
            squares.fetch_add(event.square, Ordering::Relaxed);
        })
        .build_several(SENDERS)?;
    let threads: Vec<_> = disruptor
        .take()
        .into_iter()
        .map(|mut sender| {
            thread::spawn(move || {
                (0..EVENTS).step_by(CLAIM as usize).try_for_each(|sent| {
                    sender.publish_batch(CLAIM, |batch| batch.zip(sent..).for_each(|(event, number)| event.number = number))
                })
            })
        })
        .collect();
    let sent: Result<(), Refusal> = threads.into_iter().map(|thread| thread.join().expect("a sender's thread ends")).collect();
    disruptor.finish()?; // (it says who panicked)
    sent?;
    let of_one: u64 = (0..EVENTS).map(|number| number * number).sum();
    assert_eq!(sum.load(Ordering::Relaxed), SENDERS as u64 * of_one);
    println!("each handler had every event");
    Ok(())
}

//! A sender and three handlers on threads of the program's own: the second and the third follow the first.

use std::error::Error;
use std::thread;
use verified_disruptor::{open, Plan, Wait, MAX_LIMIT};

const EVENTS: u64 = 1_000_000;
const CLAIM: u64 = 10;

fn plan(size: u64) -> Plan {
    Plan { size, limit: MAX_LIMIT, upstreams: vec![0, 0b1, 0b1], wait: Wait::Parking }
}

fn main() -> Result<(), Box<dyn Error>> {
    if let Err(refusal) = open(&plan(1000), u64::default) {
        println!("a ring of 1000 slots: {}", refusal.name());
    }
    let (mut sender, receivers, halter) = open(&plan(1024), u64::default)?;
    let threads: Vec<_> = receivers
        .into_iter()
        .map(|mut receiver| {
            thread::spawn(move || {
                let mut sum = 0;
                receiver.run(|number, _sequence, _is_last| sum += number).map(|()| sum)
            })
        })
        .collect();
    for sent in (0..EVENTS).step_by(CLAIM as usize) {
        sender.publish_batch(CLAIM, |batch| batch.zip(sent..).for_each(|(event, number)| *event = number))?;
    }
    halter.halt();
    println!("a claim after the halt: {}", sender.try_publish(|_event| ()).unwrap_err().name());
    // Dropping the sender closes the ring: each handler is done once it had every event.
    drop(sender);
    for thread in threads {
        assert_eq!(thread.join().expect("a handler's thread ends")?, EVENTS * (EVENTS - 1) / 2);
    }
    println!("each handler had every event");
    Ok(())
}

//! How long an event takes to another thread and back over rings of slots: `round_trips WAY TRIPS` sends an event through one ring to a
//! handler that answers through another, and the next as soon as the answer is there. It prints how many nanoseconds each took. WAY is
//! `spinning`, `yielding` or `parking`.

use rates::{nanos_since, plan, print, wait_named};
use std::error::Error;
use std::thread;
use std::time::Instant;
use verified_disruptor::{open, Broken, Receiver, Sender};

fn send(sender: &mut Sender<u64>, sent: u64) {
    sender.publish(|event| *event = sent).expect("nobody halts the ring");
}

/// Answers each event, until no more come.
fn answer(mut there: Receiver<u64>, mut back: Sender<u64>) -> Result<(), Broken> {
    there.run(|sent, _, _| send(&mut back, *sent))
}

/// Sends the first event, and each other one once the last is answered; closes the ring after the last.
fn ask(there: Sender<u64>, mut back: Receiver<u64>, trips: usize) -> Result<Vec<u64>, Broken> {
    let (begun, mut times) = (Instant::now(), Vec::with_capacity(trips));
    let mut there = Some(there);
    there.iter_mut().for_each(|it| send(it, nanos_since(begun)));
    let answered = |sent: &u64, _: u64, _: bool| {
        times.push(nanos_since(begun) - sent);
        match &mut there {
            Some(it) if times.len() < trips => send(it, nanos_since(begun)),
            _ => there = None,
        }
    };
    back.run(answered).map(|()| times)
}

fn main() -> Result<(), Box<dyn Error>> {
    let words: Vec<String> = std::env::args().collect();
    let [_, way, trips] = &words[..] else {
        return Err("usage: round_trips WAY TRIPS".into());
    };
    let (trips, plan) = (trips.parse()?, plan(vec![0], wait_named(way)?));
    let (there, mut asked, _there_halter) = open(&plan, || 0)?;
    let (back, mut answers, _back_halter) = open(&plan, || 0)?;
    let asked = asked.pop().expect("a handler");
    let answering = thread::spawn(move || answer(asked, back));
    let times = ask(there, answers.pop().expect("a handler"), trips)?;
    answering.join().expect("who answers")?;
    print(&times)?;
    Ok(())
}

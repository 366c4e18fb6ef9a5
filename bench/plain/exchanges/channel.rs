//! Bounded channels, one for each edge of the graph, with a thread for each end: those of std, which are crossbeam's, or with
//! `--cfg crossbeam` those of crossbeam's own crate. A handler takes an event from each of its upstreams, and hands it on to each of its followers.

use crate::topology::Shape;
use crate::{Event, Order, Round, STRETCH, check_total, event_at};
#[cfg(crossbeam)]
use crossbeam_channel::{Receiver, Sender as SyncSender, bounded as sync_channel};
#[cfg(not(crossbeam))]
use std::sync::mpsc::{Receiver, SyncSender, sync_channel};
use std::thread;
use std::time::Instant;

#[derive(Default)]
struct Handler {
    upstreams: Vec<Receiver<Event>>,
    followers: Vec<SyncSender<Event>>,
}

impl Handler {
    fn receive(self) -> u64 {
        let (first, others) = self.upstreams.split_first().expect("an upstream");
        let mut sum = 0u64;
        for event in first {
            for other in others {
                other.recv().expect("the same event");
            }
            sum = sum.wrapping_add(event.first);
            send(&self.followers, event);
        }
        sum
    }
}

fn send(channels: &[SyncSender<Event>], event: Event) {
    for channel in channels {
        channel.send(event).expect("a receiver");
    }
}

/// The channels that a producer sends into, and the handlers.
fn connected(shape: &Shape, size: u64) -> (Vec<SyncSender<Event>>, Vec<Handler>) {
    let mut entry = Vec::new();
    let mut handlers: Vec<Handler> = shape.upstreams.iter().map(|_| Handler::default()).collect();
    for (h, upstreams) in shape.upstreams.iter().enumerate() {
        for u in upstreams.iter().map(|u| Some(*u)).chain(upstreams.is_empty().then_some(None)) {
            let (sender, receiver) = sync_channel(size as usize);
            handlers[h].upstreams.push(receiver);
            u.map_or(&mut entry, |u| &mut handlers[u].followers).push(sender);
        }
    }
    (entry, handlers)
}

/// One round over channels of its own, from the first event until the last handler has taken all. Each of several producers
/// sends a sequence of its own.
pub fn round(order: &Order) -> Round {
    let (entry, handlers) = connected(&order.topology.shape, order.size);
    thread::scope(|scope| {
        let handlers: Vec<_> = handlers.into_iter().map(|handler| scope.spawn(move || handler.receive())).collect();
        let begun = Instant::now();
        let send_all = move |channels: Vec<SyncSender<Event>>| {
            let mut sent = 0;
            while begun.elapsed() < order.time {
                (sent..sent + STRETCH / order.topology.producers).for_each(|s| send(&channels, event_at(s)));
                sent += STRETCH / order.topology.producers;
            }
            sent
        };
        let copies = (1..order.topology.producers).map(|_| entry.clone());
        let others: Vec<_> = copies.map(|channels| scope.spawn(move || send_all(channels))).collect();
        let mut sent = vec![send_all(entry)];
        sent.extend(others.into_iter().map(|producer| producer.join().expect("a producer")));
        let sums: Vec<u64> = handlers.into_iter().map(|handler| handler.join().expect("a sum")).collect();
        let time = begun.elapsed();
        let wanted = sent.iter().map(|n| n * (n - 1) / 2).fold(0u64, u64::wrapping_add);
        sums.into_iter().for_each(|sum| check_total(sum, wanted));
        let events = sent.iter().sum();
        Round { events, time }
    })
}

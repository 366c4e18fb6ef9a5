//! What no type says of a ring of slots.

use std::panic::{catch_unwind, AssertUnwindSafe};
use std::sync::atomic::{AtomicBool, AtomicUsize, Ordering};
use std::sync::Arc;
use std::time::Duration;
use verified_disruptor::{
    open, open_several, pin, Broken, Builder, Counts, Fault, Plan, Polled, Refusal, Senders, Wait, Watch, MAX_LIMIT,
};

fn plan(size: u64, upstreams: &[u64]) -> Plan {
    Plan { size, limit: MAX_LIMIT, upstreams: upstreams.to_vec(), wait: Wait::default() }
}

struct Counted(Arc<AtomicUsize>, u64);

impl Drop for Counted {
    fn drop(&mut self) {
        self.0.fetch_add(1, Ordering::SeqCst);
    }
}

#[test]
fn each_event_is_dropped_once_with_the_last_end() {
    let dropped = Arc::new(AtomicUsize::new(0));
    let own = Arc::clone(&dropped);
    let (mut sender, mut receivers, halter) = open(&plan(8, &[0]), move || Counted(Arc::clone(&own), 0)).unwrap();
    for k in 0..20u64 {
        sender.try_publish(|event| event.1 = k).unwrap();
        let found = receivers[0]
            .receive(8, |event, sequence, is_last| assert!(event.1 == k && sequence == k && is_last))
            .unwrap();
        assert_eq!(found, Polled::Handled(1));
    }
    assert_eq!(sender.progress(), Ok(Counts { begun: 20, done: 20 }));
    assert_eq!(receivers[0].progress(), Counts { begun: 20, done: 20 });
    drop(sender);
    drop(halter);
    assert_eq!(dropped.load(Ordering::SeqCst), 0);
    drop(receivers);
    assert_eq!(dropped.load(Ordering::SeqCst), 8);
}

#[test]
fn a_full_ring_has_no_room_until_the_handler_completes() {
    let (mut sender, mut receivers, halter) = open(&plan(4, &[0]), || 0u64).unwrap();
    sender.try_publish_batch(3, |batch| batch.for_each(|event| *event = 1)).unwrap();
    assert_eq!(sender.try_publish_batch(2, |_| ()), Err(Refusal::NoRoom));
    assert_eq!(sender.try_publish_batch(5, |_| ()), Err(Refusal::BadCount));
    let mut seen = Vec::new();
    let found = receivers[0].receive(2, |event, sequence, is_last| seen.push((*event, sequence, is_last)));
    assert_eq!(found, Ok(Polled::Handled(2)));
    assert_eq!(seen, [(1, 0, false), (1, 1, true)]);
    // (the claim goes round the end of the slots)
    sender.try_publish_batch(3, |batch| batch.zip(7..).for_each(|(event, n)| *event = n)).unwrap();
    seen.clear();
    receivers[0].receive(9, |event, sequence, is_last| seen.push((*event, sequence, is_last))).unwrap();
    assert_eq!(seen, [(1, 2, false), (7, 3, false), (8, 4, false), (9, 5, true)]);
    assert_eq!(receivers[0].receive(0, |_, _, _| ()), Err(Refusal::BadCount));
    halter.halt();
    assert_eq!(sender.try_publish(|_| ()), Err(Refusal::Halted));
    assert_eq!(receivers[0].receive(1, |_, _, _| ()), Ok(Polled::Idle));
    drop(sender);
    assert_eq!(receivers[0].receive(1, |_, _, _| ()), Ok(Polled::Drained));
}

#[test]
fn a_filling_that_panics_leaves_the_ring_in_order() {
    let (mut sender, mut receivers, _halter) = open(&plan(4, &[0]), || 5u64).unwrap();
    assert!(catch_unwind(AssertUnwindSafe(|| sender.publish(|_| panic!("it cannot be filled")))).is_err());
    sender.try_publish(|event| *event = 6).unwrap();
    let mut seen = Vec::new();
    receivers[0].receive(4, |event, _, _| seen.push(*event)).unwrap();
    assert_eq!(seen, [5, 6]);
}

#[test]
fn a_batch_goes_on_after_the_event_at_which_a_handler_panicked() {
    let (mut sender, mut receivers, _halter) = open(&plan(16, &[0, 1]), || 0u64).unwrap();
    sender.try_publish_batch(10, |batch| batch.zip(0..).for_each(|(event, n)| *event = n)).unwrap();
    let mut seen = Vec::new();
    let (first, second) = receivers.split_at_mut(1);
    let turn = catch_unwind(AssertUnwindSafe(|| {
        first[0].receive(16, |event, _, _| {
            assert!(*event != 3, "the fourth event");
            seen.push(*event);
        })
    }));
    assert!(turn.is_err());
    // (the handler after it has no more than what was handled)
    assert_eq!(second[0].receive(16, |_, _, _| ()), Ok(Polled::Handled(3)));
    assert_eq!(first[0].receive(16, |event, _, _| seen.push(*event)), Ok(Polled::Handled(6)));
    assert_eq!(seen, [0, 1, 2, 4, 5, 6, 7, 8, 9]);
    assert_eq!(second[0].receive(16, |_, _, _| ()), Ok(Polled::Handled(7)));
}

#[test]
fn a_panic_at_the_last_event_of_a_batch_is_gone_on_from() {
    let (mut sender, mut receivers, _halter) = open(&plan(4, &[0]), || 0u64).unwrap();
    sender.try_publish_batch(4, |_| ()).unwrap();
    assert!(catch_unwind(AssertUnwindSafe(|| receivers[0].receive(4, |_, s, _| assert!(s < 3)))).is_err());
    assert_eq!(receivers[0].progress(), Counts { begun: 4, done: 3 });
    assert_eq!(receivers[0].receive(4, |_, _, _| ()), Ok(Polled::Idle));
    assert_eq!(receivers[0].progress(), Counts { begun: 4, done: 4 });
    sender.try_publish_batch(4, |_| ()).unwrap();
}

#[test]
fn what_a_handler_that_panicked_left_comes_by_the_room_too() {
    let (mut sender, mut receivers, _halter) = open(&plan(16, &[0]), || 0u64).unwrap();
    let receiver = &mut receivers[0];
    sender.try_publish_batch(10, |_| ()).unwrap();
    assert!(catch_unwind(AssertUnwindSafe(|| receiver.receive(10, |_, s, _| assert!(s < 2)))).is_err());
    // (a refused call changes nothing)
    assert_eq!(receiver.receive(0, |_, _, _| ()), Err(Refusal::BadCount));
    assert_eq!(receiver.progress(), Counts { begun: 10, done: 2 });
    let mut seen = Vec::new();
    assert_eq!(receiver.receive(2, |_, s, is_last| seen.push((s, is_last))), Ok(Polled::Handled(2)));
    assert_eq!(receiver.progress(), Counts { begun: 10, done: 5 });
    assert_eq!(receiver.receive_mut(3, |_, s, is_last| seen.push((s, is_last))), Ok(Polled::Handled(3)));
    assert_eq!(receiver.receive(u64::MAX, |_, s, is_last| seen.push((s, is_last))), Ok(Polled::Handled(2)));
    assert_eq!(seen, [(3, false), (4, true), (5, false), (6, false), (7, true), (8, false), (9, true)]);
}

#[test]
fn a_receiver_that_is_dropped_halts_the_ring() {
    let (mut sender, mut receivers, _halter) = open(&plan(4, &[0, 1]), || 0u64).unwrap();
    let mut second = receivers.pop().unwrap();
    sender.publish(|event| *event = 1).unwrap();
    drop(receivers);
    assert_eq!(sender.publish(|_| ()), Err(Refusal::Halted));
    assert_eq!(second.run(|_, _, _| ()), Err(Broken));
}

#[test]
fn only_a_handler_alone_changes_events() {
    let (mut sender, mut receivers, _halter) = open(&plan(4, &[0, 0, 3]), || 1u64).unwrap();
    let alone: Vec<_> = receivers.iter().map(|receiver| receiver.is_alone()).collect();
    assert_eq!(alone, [false, false, true]);
    sender.publish(|event| *event = 2).unwrap();
    assert!(catch_unwind(AssertUnwindSafe(|| receivers[0].receive_mut(4, |event, _, _| *event = 3))).is_err());
    for receiver in &mut receivers[..2] {
        assert_eq!(receiver.receive(4, |event, _, _| assert_eq!(*event, 2)), Ok(Polled::Handled(1)));
    }
    assert_eq!(receivers[2].receive_mut(4, |event, _, _| *event += 1), Ok(Polled::Handled(1)));
}

#[test]
fn graphs_are_refused_by_name() {
    let fault = |builder: Builder<u64>| builder.build().err().unwrap();
    let one = || Builder::new(4, || 0).handle("a", |_, _, _| ());
    assert_eq!(fault(one().after(["b"]).handle("c", |_, _, _| ())), Fault::Unknown("b".into()));
    assert_eq!(fault(one().handle("a", |_, _, _| ())), Fault::Twice("a".into()));
    assert_eq!(fault(one().handle_mut("b", |_, _, _| ())), Fault::NotAlone("b".into()));
    assert_eq!(fault(Builder::new(5, || 0).handle("a", |_, _, _| ())), Fault::Refused(Refusal::BadSize));
    assert_eq!(fault(Builder::new(4, || 0)), Fault::Refused(Refusal::NoHandlers));
    let many = (0..65).fold(Builder::new(4, || 0), |all, k| all.handle(&k.to_string(), |_, _, _| ()));
    assert_eq!(fault(many.after(["64"]).handle("c", |_, _, _| ())), Fault::Refused(Refusal::TooMany));
    for senders in [0, 17, usize::MAX] {
        assert_eq!(one().build_several(senders).err(), Some(Fault::Refused(Refusal::BadProducers)));
    }
    assert_eq!(Refusal::BadSize.to_string(), "bad-size: the size is no power of two from 1 to 65536");
}

#[test]
fn a_handler_that_panics_halts_the_ring_and_is_named() {
    let seen = Arc::new(AtomicUsize::new(0));
    let own = Arc::clone(&seen);
    let mut disruptor = Builder::new(4, || 0u64)
        .handle("first", |event, _, _| assert!(*event < 10, "too large"))
        .and_then()
        .handle("second", move |event, _, _| own.store(*event as usize, Ordering::SeqCst))
        .build()
        .unwrap();
    let counts = ["first", "second"].map(|name| disruptor.watch_of(name).unwrap());
    let refused = (0..100).find_map(|k| disruptor.publish(|event| *event = k).err());
    assert_eq!(refused, Some(Refusal::Halted));
    let panicked = disruptor.finish().unwrap_err();
    assert_eq!(panicked.names(), ["first"]);
    // (the counts outlive the run)
    assert_eq!(counts.map(|it| it.count()), [10, 10]);
    assert!(catch_unwind(AssertUnwindSafe(|| panicked.resume())).is_err());
    assert!(seen.load(Ordering::SeqCst) < 10);
}

#[test]
fn who_follows_one_that_panics_has_what_it_completed_and_others_have_all() {
    let is_claimed = Arc::new(AtomicBool::new(false));
    let counted: [Arc<AtomicUsize>; 2] = Default::default();
    let (own, [counts, follows]) = (Arc::clone(&is_claimed), counted.clone());
    // (the first two events are handled only once the third is claimed, and that one is published only once the second failed)
    let fails = move |_: &u64, sequence, _| {
        while !own.load(Ordering::SeqCst) {
            std::thread::yield_now();
        }
        assert!(sequence < 1, "the second event");
    };
    let mut disruptor = Builder::new(4, || 0u64)
        .handle("fails", fails)
        .handle("counts", move |_, _, _| {
            counts.fetch_add(1, Ordering::SeqCst);
        })
        .after(["fails"])
        .handle("follows", move |_, _, _| {
            follows.fetch_add(1, Ordering::SeqCst);
        })
        .build()
        .unwrap();
    disruptor.publish_batch(2, |_| ()).unwrap();
    disruptor
        .publish(|_| {
            is_claimed.store(true, Ordering::SeqCst);
            std::thread::sleep(Duration::from_millis(30));
        })
        .unwrap();
    assert_eq!(disruptor.finish().unwrap_err().names(), ["fails"]);
    assert_eq!(counted.map(|it| it.load(Ordering::SeqCst)), [3, 1]);
}

// (one that it follows fails while the other one is on its way)
#[test]
fn who_follows_two_has_what_both_completed_up_to_the_cut() {
    let counted: [Arc<AtomicUsize>; 2] = Default::default();
    let [slow, follows] = counted.clone();
    let mut disruptor = Builder::new(1024, || 0u64)
        .handle("fails", |_, sequence, _| assert!(sequence < 500, "the event 500"))
        .handle("slow", move |_, sequence, _| {
            if sequence == 100 {
                std::thread::sleep(Duration::from_millis(300)); // (a panic takes a while)
            }
            slow.fetch_add(1, Ordering::SeqCst);
        })
        .and_then()
        .handle("follows", move |_, _, _| {
            follows.fetch_add(1, Ordering::SeqCst);
        })
        .build()
        .unwrap();
    disruptor.publish_batch(800, |_| ()).unwrap();
    assert_eq!(disruptor.finish().unwrap_err().names(), ["fails"]);
    assert_eq!(counted.map(|it| it.load(Ordering::SeqCst)), [800, 500]);
}

#[test]
fn several_senders_share_a_ring() {
    for wait in [Wait::Parking, Wait::Yielding] {
        let total = Arc::new(AtomicUsize::new(0));
        let own = Arc::clone(&total);
        let mut disruptor = Builder::new(64, || 0usize)
            .wait(wait)
            .handle_mut("doubles", |event: &mut usize, _, _| *event *= 2)
            .and_then()
            .handle_with(
                "adds",
                move || std::rc::Rc::new(own),
                |own, event, _, _| {
                    own.fetch_add(*event, Ordering::Relaxed);
                },
            )
            .build_several(3)
            .unwrap();
        let senders = disruptor.take();
        std::thread::scope(|scope| {
            for mut sender in senders {
                scope.spawn(move || {
                    (0..500).for_each(|k| sender.publish(|event| *event = k).unwrap());
                    (500..1000).step_by(4).for_each(|k| {
                        sender.publish_batch(4, |batch| batch.zip(k..).for_each(|(event, n)| *event = n)).unwrap();
                    });
                });
            }
        });
        disruptor.finish().unwrap();
        assert_eq!(total.load(Ordering::SeqCst), 3 * 999_000);
    }
}

fn run_of_several(senders: usize) -> (Senders<u64>, Watch) {
    let disruptor = Builder::new(8, || 0u64).handle("counts", |_, _, _| ()).build_several(senders).unwrap();
    let counts = disruptor.watch_of("counts").unwrap();
    (disruptor, counts)
}

#[test]
fn a_run_of_several_waits_for_the_senders_that_were_taken() {
    let (mut disruptor, counts) = run_of_several(3);
    for mut sender in disruptor.take() {
        std::thread::spawn(move || {
            std::thread::sleep(Duration::from_millis(30));
            (0..100).for_each(|_| sender.publish(|_| ()).unwrap());
        });
    }
    disruptor.finish().unwrap();
    assert_eq!(counts.count(), 300);
}

#[test]
fn a_run_of_several_waits_for_no_other_sender() {
    run_of_several(2).0.finish().unwrap();
    // (a halt ends the ring at once, of another thread too, and so does dropping it)
    for is_by_another in [false, true] {
        let (mut disruptor, counts) = run_of_several(2);
        let mut senders = disruptor.take();
        senders[1].publish(|_| ()).unwrap();
        if is_by_another {
            let halter = disruptor.halter();
            std::thread::spawn(move || halter.halt());
        } else {
            disruptor.halt();
        }
        disruptor.finish().unwrap();
        assert_eq!((senders[1].publish(|_| ()), counts.count()), (Err(Refusal::Halted), 1));
    }
    let (mut disruptor, _) = run_of_several(2);
    let mut senders = disruptor.take();
    drop(disruptor);
    assert_eq!(senders[0].publish(|_| ()), Err(Refusal::Halted));
}

#[test]
fn a_halted_ring_of_several_drains() {
    let (mut senders, mut receivers, halter) = open_several(&plan(8, &[0]), 2, || 0u64).unwrap();
    senders[1].publish(|event| *event = 1).unwrap();
    senders[0].publish(|event| *event = 2).unwrap();
    assert_eq!(senders[0].progress(), Err(Refusal::WrongEnd));
    halter.halt();
    assert_eq!(senders[0].publish(|_| ()), Err(Refusal::Halted));
    let mut seen = Vec::new();
    receivers[0].run(|event, _, _| seen.push(*event)).unwrap();
    assert_eq!(seen, [1, 2]);
}

#[test]
fn a_ring_of_several_ends_with_its_last_sender() {
    let (mut senders, mut receivers, _halter) = open_several(&plan(8, &[0]), 2, || 0u64).unwrap();
    senders.pop().unwrap().publish(|event| *event = 1).unwrap();
    assert_eq!(receivers[0].receive(8, |_, _, _| ()), Ok(Polled::Handled(1)));
    assert_eq!(receivers[0].receive(8, |_, _, _| ()), Ok(Polled::Idle));
    drop(senders);
    assert_eq!(receivers[0].run(|_, _, _| ()), Ok(()));
}

#[test]
fn a_thread_that_sleeps_is_woken() {
    let mut disruptor = Builder::new(4, || 0u64).handle("slow", |_, _, _| ()).build().unwrap();
    for k in 0..20 {
        std::thread::sleep(Duration::from_millis(3));
        disruptor.publish(|event| *event = k).unwrap();
    }
    disruptor.finish().unwrap();
}

#[test]
fn any_thread_may_watch_how_far_the_ends_came() {
    let (mut sender, mut receivers, _halter) = open(&plan(8, &[0]), || 0u64).unwrap();
    let (sent, received) = (sender.watch(), receivers[0].watch());
    sender.publish_batch(5, |_| ()).unwrap();
    receivers[0].receive(3, |_, _, _| ()).unwrap();
    let counts = std::thread::spawn(move || (sent.count(), received.count())).join().unwrap();
    assert_eq!(counts, (5, 3));
    let mut disruptor = Builder::new(8, || 0u64).handle("reads", |_: &u64, _, _| ()).build().unwrap();
    disruptor.publish(|_| ()).unwrap();
    let reads = disruptor.watch_of("reads").unwrap();
    let other = std::thread::spawn(move || {
        while reads.count() != 1 {
            std::thread::yield_now();
        }
    });
    other.join().unwrap();
    assert_eq!((disruptor.completed("reads"), disruptor.watch().count()), (Some(1), 1));
    assert!(disruptor.completed("writes").is_none() && disruptor.watch_of("writes").is_none());
}

#[test]
fn any_thread_asks_how_far_a_ring_is() {
    let (mut sender, mut receivers, halter) = open(&plan(4, &[0, 1]), || 0u64).unwrap();
    sender.publish_batch(3, |_| ()).unwrap();
    receivers[0].receive(2, |_, _, _| ()).unwrap();
    let asks = halter.clone();
    let counts = std::thread::spawn(move || (asks.cursor(), asks.completed(0), asks.completed(1))).join().unwrap();
    assert_eq!(counts, (3, Ok(2), Ok(0)));
    assert_eq!((halter.completed(2), halter.completed(usize::MAX)), (Err(Refusal::NoHandler), Err(Refusal::NoHandler)));
    let mut disruptor = Builder::new(8, || 0u64).handle("reads", |_, _, _| ()).build().unwrap();
    disruptor.publish_batch(2, |_| ()).unwrap();
    assert_eq!(disruptor.cursor(), 2);
    let (mut several, _) = run_of_several(2);
    several.take()[1].publish(|_| ()).unwrap();
    assert_eq!((several.cursor(), several.halter().cursor()), (1, 1));
}

#[test]
fn a_thread_may_be_kept_on_a_processor() {
    let pinned = std::thread::spawn(|| (0..1024).any(pin)).join().unwrap();
    assert!(pinned || !cfg!(target_os = "linux"));
    assert!(!pin(1024) && !pin(usize::MAX));
}

#[test]
fn a_deadline_ends_a_wait() {
    let short = Duration::from_millis(20);
    let (mut sender, mut receivers, halter) = open(&plan(4, &[0]), || 0u64).unwrap();
    assert_eq!(receivers[0].receive_timeout(4, short, |_, _, _| ()), Ok(Polled::Idle));
    sender.publish_batch_timeout(4, short, |batch| batch.for_each(|event| *event = 7)).unwrap();
    assert_eq!(sender.publish_batch_timeout(1, short, |_| ()), Err(Refusal::NoRoom));
    assert_eq!(receivers[0].receive_timeout(4, short, |event, _, _| assert_eq!(*event, 7)), Ok(Polled::Handled(4)));
    // (no deadline is so late that it is over)
    sender.publish_batch_timeout(4, Duration::MAX, |_| ()).unwrap();
    assert_eq!(receivers[0].receive_timeout(4, Duration::MAX, |_, _, _| ()), Ok(Polled::Handled(4)));
    halter.clone().halt();
    assert_eq!(sender.publish_batch_timeout(1, short, |_| ()), Err(Refusal::Halted));
    drop(sender);
    assert_eq!(receivers[0].receive_timeout(4, short, |_, _, _| ()), Ok(Polled::Drained));
}

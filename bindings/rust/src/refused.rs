//! What the types refuse, as tests: each of these would be unsound, but for the last, which would wait for ever. The first is right, and shows that the others fail by their own.
//!
//! ```
//! let plan = verified_disruptor::Plan { size: 4, limit: 4, upstreams: vec![0], wait: Default::default() };
//! let (mut sender, mut receivers, _halter) = verified_disruptor::open(&plan, String::new).unwrap();
//! sender.publish(|event| event.push('a')).unwrap();
//! let mut kept = None;
//! receivers[0].receive(4, |event, _, _| kept = Some(event.clone())).unwrap();
//! std::thread::spawn(move || sender.publish(|event| event.push('b')));
//! std::thread::spawn(move || receivers[0].is_alone());
//! let run = || verified_disruptor::Builder::new(4, String::new).handle("reads", |_, _, _| ()).build().unwrap();
//! let (mut one, mut other) = (run(), run());
//! std::mem::swap(&mut one, &mut other);
//! one.finish().unwrap();
//! ```
//!
//! A filler keeps an event:
//!
//! ```compile_fail
//! let plan = verified_disruptor::Plan { size: 4, limit: 4, upstreams: vec![0], wait: Default::default() };
//! let (mut sender, mut receivers, _halter) = verified_disruptor::open(&plan, String::new).unwrap();
//! let mut kept = None;
//! sender.publish(|event| kept = Some(event)).unwrap();
//! ```
//!
//! A filler hands its batch out:
//!
//! ```compile_fail
//! let plan = verified_disruptor::Plan { size: 4, limit: 4, upstreams: vec![0], wait: Default::default() };
//! let (mut sender, mut receivers, _halter) = verified_disruptor::open(&plan, String::new).unwrap();
//! let batch = sender.publish_batch(2, |batch| batch).unwrap();
//! ```
//!
//! A handler keeps an event:
//!
//! ```compile_fail
//! let plan = verified_disruptor::Plan { size: 4, limit: 4, upstreams: vec![0], wait: Default::default() };
//! let (mut sender, mut receivers, _halter) = verified_disruptor::open(&plan, String::new).unwrap();
//! let mut kept = None;
//! receivers[0].receive(4, |event, _, _| kept = Some(event)).unwrap();
//! ```
//!
//! Several handlers would read a cell at once:
//!
//! ```compile_fail
//! let plan = verified_disruptor::Plan { size: 4, limit: 4, upstreams: vec![0], wait: Default::default() };
//! let (mut sender, mut receivers, _halter) = verified_disruptor::open(&plan, || std::cell::Cell::new(1)).unwrap();
//! ```
//!
//! Two threads share a receiver:
//!
//! ```compile_fail
//! let plan = verified_disruptor::Plan { size: 4, limit: 4, upstreams: vec![0], wait: Default::default() };
//! let (mut sender, mut receivers, _halter) = verified_disruptor::open(&plan, String::new).unwrap();
//! std::thread::scope(|scope| drop(scope.spawn(|| receivers[0].is_alone())));
//! ```
//!
//! A run has the sender of another one:
//!
//! ```compile_fail
//! let run = || verified_disruptor::Builder::new(4, String::new).handle("reads", |_, _, _| ()).build().unwrap();
//! let (mut one, mut other) = (run(), run());
//! std::mem::swap(&mut *one, &mut *other);
//! ```

//! A ring whose handlers run.

use crate::builder::{Fault, Handler};
use crate::ffi::Counts;
use crate::open::Halter;
use crate::receiver::{Broken, Receiver};
use crate::refusal::Refusal;
use crate::sender::{Batch, Sender};
use crate::watch::Watch;
use std::any::Any;
use std::fmt;
use std::thread::{self, JoinHandle};
use std::time::Duration;

/// Handlers panicked: each by its name, with what it panicked with. The ring was halted, and nobody who follows one of them was
/// shown the event at which it panicked.
pub struct Panicked(pub Vec<(String, Box<dyn Any + Send>)>);

impl Panicked {
    /// The names of the handlers that panicked, in the order in which they were added.
    pub fn names(&self) -> Vec<&str> {
        self.0.iter().map(|(name, _)| &**name).collect()
    }

    /// Goes on with the first panic.
    pub fn resume(mut self) -> ! {
        std::panic::resume_unwind(self.0.remove(0).1)
    }
}

impl fmt::Display for Panicked {
    fn fmt(&self, f: &mut fmt::Formatter<'_>) -> fmt::Result {
        write!(f, "handlers panicked: {}", self.names().join(", "))
    }
}

impl fmt::Debug for Panicked {
    fn fmt(&self, f: &mut fmt::Formatter<'_>) -> fmt::Result {
        f.debug_tuple("Panicked").field(&self.names()).finish()
    }
}

impl std::error::Error for Panicked {}

struct Started {
    name: String,
    completed: Watch,
    thread: JoinHandle<Result<(), Broken>>,
}

pub(crate) struct Threads(Vec<Started>);

impl Threads {
    fn join(&mut self) -> Result<(), Panicked> {
        let joined = self.0.drain(..).map(|it| (it.name, it.thread.join()));
        let panicked: Vec<_> = joined.filter_map(|(name, back)| Some((name, back.err()?))).collect();
        if panicked.is_empty() {
            Ok(())
        } else {
            Err(Panicked(panicked))
        }
    }

    fn watch_of(&self, name: &str) -> Option<Watch> {
        self.0.iter().find(|it| it.name == name).map(|it| it.completed.clone())
    }
}

/// Starts a thread for each handler. Where one panics, its receiver is dropped, and so the ring is halted. Where one cannot be started,
/// the others have ended once that is answered.
pub(crate) fn start<T: Send + Sync + 'static, S>(
    handlers: Vec<Handler<T>>,
    receivers: Vec<Receiver<T>>,
    senders: S,
) -> Result<(Threads, S), Fault> {
    if let Some((it, _)) = handlers.iter().zip(&receivers).find(|(it, receiver)| it.is_changing && !receiver.is_alone())
    {
        return Err(Fault::NotAlone(it.name.clone()));
    }
    let mut threads = Threads(Vec::new());
    let mut rest = handlers.into_iter().zip(receivers);
    while let Some((Handler { name, work, .. }, mut receiver)) = rest.next() {
        let completed = receiver.watch();
        // (a thread's name has no zero)
        match thread::Builder::new().name(name.replace('\0', " ")).spawn(move || work(&mut receiver)) {
            Ok(thread) => threads.0.push(Started { name, completed, thread }),
            Err(why) => {
                // (without its receiver, those of the handlers after it and the senders, those before it end too)
                drop((rest, senders));
                let _ = threads.join();
                return Err(Fault::Thread(why.to_string()));
            }
        }
    }
    Ok((threads, senders))
}

/// A ring whose handlers run. Publish by it, as by a [`Sender`]. When it is finished or dropped the ring is closed, and it waits
/// until each handler had every event. Its sender cannot be taken out of it, since the handlers end once that closes the ring.
pub struct Disruptor<T: Send + Sync> {
    sender: Option<Sender<T>>,
    threads: Threads,
    halter: Halter<T>,
}

impl<T: Send + Sync> Disruptor<T> {
    pub(crate) fn new(sender: Sender<T>, threads: Threads, halter: Halter<T>) -> Disruptor<T> {
        Disruptor { sender: Some(sender), threads, halter }
    }

    fn end(&mut self) -> Result<(), Panicked> {
        self.sender = None;
        self.threads.join()
    }

    fn sender(&mut self) -> &mut Sender<T> {
        self.sender.as_mut().expect("it is not ended")
    }

    /// As [`Sender::publish`].
    pub fn publish<R>(&mut self, fill: impl FnOnce(&mut T) -> R) -> Result<R, Refusal> {
        self.sender().publish(fill)
    }

    /// As [`Sender::try_publish`].
    pub fn try_publish<R>(&mut self, fill: impl FnOnce(&mut T) -> R) -> Result<R, Refusal> {
        self.sender().try_publish(fill)
    }

    /// As [`Sender::publish_batch`].
    pub fn publish_batch<R>(&mut self, n: u64, fill: impl FnOnce(Batch<'_, T>) -> R) -> Result<R, Refusal> {
        self.sender().publish_batch(n, fill)
    }

    /// As [`Sender::publish_batch_timeout`].
    pub fn publish_batch_timeout<R>(
        &mut self,
        n: u64,
        timeout: Duration,
        fill: impl FnOnce(Batch<'_, T>) -> R,
    ) -> Result<R, Refusal> {
        self.sender().publish_batch_timeout(n, timeout, fill)
    }

    /// As [`Sender::try_publish_batch`].
    pub fn try_publish_batch<R>(&mut self, n: u64, fill: impl FnOnce(Batch<'_, T>) -> R) -> Result<R, Refusal> {
        self.sender().try_publish_batch(n, fill)
    }

    /// As [`Sender::watch`].
    pub fn watch(&self) -> Watch {
        self.sender.as_ref().expect("it is not ended").watch()
    }

    /// As [`Sender::progress`].
    pub fn progress(&mut self) -> Result<Counts, Refusal> {
        self.sender().progress()
    }

    /// Closes the ring, and waits until each handler had every event. Who drops the run instead is not told of panics.
    pub fn finish(mut self) -> Result<(), Panicked> {
        self.end()
    }

    /// Halts the ring: from now on a publication is refused.
    pub fn halt(&self) {
        self.halter.halt();
    }

    /// How many events are published, or how many several senders claimed.
    pub fn cursor(&self) -> u64 {
        self.halter.cursor()
    }

    /// What halts the ring, and tells how far it is, from any thread.
    pub fn halter(&self) -> Halter<T> {
        self.halter.clone()
    }

    /// How many events the handler with this name completed by now.
    pub fn completed(&self, name: &str) -> Option<u64> {
        Some(self.watch_of(name)?.count())
    }

    /// The same for any thread, and still there after the end.
    pub fn watch_of(&self, name: &str) -> Option<Watch> {
        self.threads.watch_of(name)
    }
}

impl<T: Send + Sync> Drop for Disruptor<T> {
    fn drop(&mut self) {
        let _ = self.end();
    }
}

/// A ring of several senders whose handlers run. Take the senders, each for a thread of its own, and finish it: that waits for them.
/// Where it is dropped instead, it is halted at once.
pub struct Senders<T: Send + Sync> {
    senders: Vec<Sender<T>>,
    threads: Threads,
    halter: Halter<T>,
}

impl<T: Send + Sync> Senders<T> {
    pub(crate) fn new(senders: Vec<Sender<T>>, threads: Threads, halter: Halter<T>) -> Senders<T> {
        Senders { senders, threads, halter }
    }

    /// The senders, the first time. [`Senders::finish`] waits until each is dropped.
    pub fn take(&mut self) -> Vec<Sender<T>> {
        std::mem::take(&mut self.senders)
    }

    /// Waits until each sender that was taken is dropped, or the ring is halted, and then until each handler had every event that was
    /// claimed. Drop a sender that you hold yourself first, or it waits for ever. Who drops the run instead is not told of panics.
    pub fn finish(mut self) -> Result<(), Panicked> {
        self.senders.clear();
        self.threads.join()
    }

    /// Halts the ring: from now on a publication is refused.
    pub fn halt(&self) {
        self.halter.halt();
    }

    /// How many events are published, or how many several senders claimed.
    pub fn cursor(&self) -> u64 {
        self.halter.cursor()
    }

    /// What halts the ring, and tells how far it is, from any thread.
    pub fn halter(&self) -> Halter<T> {
        self.halter.clone()
    }

    /// How many events the handler with this name completed by now.
    pub fn completed(&self, name: &str) -> Option<u64> {
        Some(self.watch_of(name)?.count())
    }

    /// The same for any thread, and still there after the end.
    pub fn watch_of(&self, name: &str) -> Option<Watch> {
        self.threads.watch_of(name)
    }
}

impl<T: Send + Sync> Drop for Senders<T> {
    fn drop(&mut self) {
        self.halter.halt();
        let _ = self.threads.join();
    }
}

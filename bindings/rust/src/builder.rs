//! A graph of handlers by their names, each on a thread of its own.

use crate::open::{open, open_several, Plan};
use crate::receiver::{Broken, Receiver};
use crate::refusal::Refusal;
use crate::running::{start, Disruptor, Senders};
use crate::waiting::Wait;
use crate::MAX_LIMIT;
use std::fmt;

/// Why a graph is not built.
#[derive(Clone, Debug, PartialEq, Eq)]
pub enum Fault {
    /// No handler before has this name.
    Unknown(String),
    /// Two handlers have this name.
    Twice(String),
    /// It would change events that another handler reads at the same time.
    NotAlone(String),
    /// The ring's own refusal.
    Refused(Refusal),
    /// A thread could not be started.
    Thread(String),
}

impl fmt::Display for Fault {
    fn fmt(&self, f: &mut fmt::Formatter<'_>) -> fmt::Result {
        match self {
            Fault::Unknown(name) => write!(f, "no handler before has the name {name}"),
            Fault::Twice(name) => write!(f, "two handlers have the name {name}"),
            Fault::NotAlone(name) => {
                write!(f, "{name} would change events that another handler reads at the same time")
            }
            Fault::Refused(refusal) => write!(f, "the ring is refused: {refusal}"),
            Fault::Thread(why) => write!(f, "a thread could not be started: {why}"),
        }
    }
}

impl std::error::Error for Fault {}

impl From<Refusal> for Fault {
    fn from(refusal: Refusal) -> Fault {
        Fault::Refused(refusal)
    }
}

pub(crate) type Work<T> = Box<dyn FnOnce(&mut Receiver<T>) -> Result<(), Broken> + Send>;

pub(crate) struct Handler<T> {
    pub name: String,
    pub is_changing: bool,
    pub work: Work<T>,
}

/// Builds a ring: handlers are added in order, and each follows those that the last `after` named, or none.
pub struct Builder<T> {
    plan: Plan,
    factory: Box<dyn FnMut() -> T>,
    handlers: Vec<Handler<T>>,
    after: u64,
    fault: Option<Fault>,
}

impl<T: Send + Sync + 'static> Builder<T> {
    /// For a ring of `size` slots, a power of two up to 65,536. The factory makes the event of each; they are filled again and
    /// again, and dropped with the last end.
    pub fn new(size: u64, factory: impl FnMut() -> T + 'static) -> Builder<T> {
        let plan = Plan { size, limit: MAX_LIMIT, upstreams: Vec::new(), wait: Wait::default() };
        Builder { plan, factory: Box::new(factory), handlers: Vec::new(), after: 0, fault: None }
    }

    /// How threads wait.
    pub fn wait(mut self, how: Wait) -> Self {
        self.plan.wait = how;
        self
    }

    /// How many events there may be at all.
    pub fn limit(mut self, limit: u64) -> Self {
        self.plan.limit = limit;
        self
    }

    fn add(mut self, name: &str, is_changing: bool, work: Work<T>) -> Self {
        if self.handlers.iter().any(|handler| handler.name == name) {
            self.fault.get_or_insert(Fault::Twice(name.to_owned()));
        }
        self.handlers.push(Handler { name: name.to_owned(), is_changing, work });
        self.plan.upstreams.push(self.after);
        self
    }

    /// Adds a handler, which is shown each event, its sequence, and whether it is the last that is there for now.
    pub fn handle(self, name: &str, handler: impl FnMut(&T, u64, bool) + Send + 'static) -> Self {
        self.add(name, false, Box::new(move |receiver| receiver.run(handler)))
    }

    /// Adds a handler that changes events in place. Each other handler comes before it or after it.
    pub fn handle_mut(self, name: &str, handler: impl FnMut(&mut T, u64, bool) + Send + 'static) -> Self {
        self.add(name, true, Box::new(move |receiver| receiver.run_mut(handler)))
    }

    /// Adds a handler with a state that need not be `Send`: `make` makes it on the handler's thread.
    pub fn handle_with<S>(
        self,
        name: &str,
        make: impl FnOnce() -> S + Send + 'static,
        mut handler: impl FnMut(&mut S, &T, u64, bool) + Send + 'static,
    ) -> Self {
        let work = move |receiver: &mut Receiver<T>| {
            let mut state = make();
            receiver.run(|event, sequence, is_last| handler(&mut state, event, sequence, is_last))
        };
        self.add(name, false, Box::new(work))
    }

    /// The handlers that come next follow these.
    pub fn after<'a>(mut self, names: impl IntoIterator<Item = &'a str>) -> Self {
        self.after = 0;
        for name in names {
            match self.handlers.iter().position(|handler| handler.name == name) {
                Some(k) if k < 64 => self.after |= 1 << k,
                // (a ring of so many is refused)
                Some(_) => {}
                None => {
                    self.fault.get_or_insert(Fault::Unknown(name.to_owned()));
                }
            }
        }
        self
    }

    /// The handlers that come next follow all that there are.
    pub fn and_then(mut self) -> Self {
        self.after = (0..self.handlers.len().min(64)).fold(0, |all, k| all | 1 << k);
        self
    }

    /// Opens the ring, and starts a thread for each handler.
    pub fn build(mut self) -> Result<Disruptor<T>, Fault> {
        if let Some(fault) = self.fault.take() {
            return Err(fault);
        }
        let (sender, receivers, halter) = open(&self.plan, &mut *self.factory)?;
        let (threads, sender) = start(self.handlers, receivers, sender)?;
        Ok(Disruptor::new(sender, threads, halter))
    }

    /// The same with several senders, 1 to 16, each for a thread of its own.
    pub fn build_several(mut self, senders: usize) -> Result<Senders<T>, Fault> {
        if let Some(fault) = self.fault.take() {
            return Err(fault);
        }
        let (senders, receivers, halter) = open_several(&self.plan, senders, &mut *self.factory)?;
        let (threads, senders) = start(self.handlers, receivers, senders)?;
        Ok(Senders::new(senders, threads, halter))
    }
}

//! The graphs of handlers and how the producer sends, by the names that `disruptor_bench` has.

/// The upstreams of each handler.
pub struct Shape {
    pub upstreams: Vec<Vec<usize>>,
}

/// What an event goes through.
#[derive(Clone, Copy, PartialEq)]
pub enum Exchange {
    /// With so many words an event.
    OneThread(u64),
    OneSender,
    Senders,
    Lock,
}

pub struct Topology {
    pub exchange: Exchange,
    pub producers: u64,
    pub shape: Shape,
    pub claim: u64,
    pub step: bool,
}

impl Shape {
    fn named(name: &str) -> Option<Shape> {
        let upstreams = match name {
            "unicast" => vec![vec![]],
            "pipeline" => chain(3),
            "multicast" => vec![vec![]; 3],
            "diamond" => vec![vec![], vec![], vec![0, 1]],
            _ => match (name.strip_prefix("chain"), name.strip_prefix("side")) {
                (Some(handlers), _) => chain(handlers.parse().ok()?),
                (_, Some(handlers)) => vec![vec![]; handlers.parse().ok()?],
                _ => return None,
            },
        };
        Some(Shape { upstreams })
    }

    /// The handlers that no handler follows.
    pub fn finals(&self) -> Vec<usize> {
        let is_followed = |h: &usize| self.upstreams.iter().any(|ups| ups.contains(h));
        (0..self.upstreams.len()).filter(|h| !is_followed(h)).collect()
    }
}

fn chain(handlers: usize) -> Vec<Vec<usize>> {
    (0..handlers).map(|h| h.checked_sub(1).into_iter().collect()).collect()
}

impl Topology {
    pub fn named(name: &str) -> Option<Topology> {
        let mut words = name.split('-');
        let first = words.next()?;
        let (exchange, producers) = match (first, first.strip_prefix("lock"), first.strip_prefix("senders")) {
            ("core", _, _) => (Exchange::OneThread(2), 1),
            ("core1", _, _) => (Exchange::OneThread(1), 1),
            ("core8", _, _) => (Exchange::OneThread(8), 1),
            ("core16", _, _) => (Exchange::OneThread(16), 1),
            (_, Some(producers), _) => (Exchange::Lock, producers.parse().ok()?),
            (_, _, Some(producers)) => (Exchange::Senders, producers.parse().ok()?),
            _ => (Exchange::OneSender, 1),
        };
        let shape = match exchange {
            Exchange::OneSender => first,
            _ => words.next()?,
        };
        let (claim, step) = match words.next() {
            None => (1, false),
            Some("step") => (1, true),
            Some(pace) => (pace.strip_prefix('b')?.parse().ok()?, false),
        };
        Some(Topology {
            exchange,
            producers,
            shape: Shape::named(shape)?,
            claim,
            step,
        })
    }
}

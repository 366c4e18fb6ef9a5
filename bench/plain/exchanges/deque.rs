//! A `VecDeque` for each edge of the graph, from the producer or from a handler to one that follows.

use crate::topology::Shape;
use crate::{Event, OneThread, event_at};
use std::collections::VecDeque;

pub struct Deques {
    /// The queues of each handler: one for each of its upstreams, or one from the producer.
    queues: Vec<Vec<VecDeque<Event>>>,
    /// The handler and its queue at the other end of each edge.
    from_producer: Vec<(usize, usize)>,
    from_handler: Vec<Vec<(usize, usize)>>,
    next: u64,
    sums: Vec<u64>,
}

impl Deques {
    pub fn new(shape: &Shape) -> Deques {
        let handlers = shape.upstreams.len();
        let mut from_producer = Vec::new();
        let mut from_handler = vec![Vec::new(); handlers];
        for (h, upstreams) in shape.upstreams.iter().enumerate() {
            if upstreams.is_empty() {
                from_producer.push((h, 0));
            }
            for (place, upstream) in upstreams.iter().enumerate() {
                from_handler[*upstream].push((h, place));
            }
        }
        let queues = shape.upstreams.iter();
        Deques {
            queues: queues.map(|ups| vec![VecDeque::new(); ups.len().max(1)]).collect(),
            from_producer,
            from_handler,
            next: 0,
            sums: vec![0; handlers],
        }
    }

    fn take(&mut self, h: usize) {
        while self.queues[h].iter().all(|queue| !queue.is_empty()) {
            let mut event = Event::default();
            for queue in &mut self.queues[h] {
                event = queue.pop_front().expect("an event");
            }
            self.sums[h] = self.sums[h].wrapping_add(event.first);
            for (to, place) in &self.from_handler[h] {
                self.queues[*to][*place].push_back(event);
            }
        }
    }
}

impl OneThread for Deques {
    fn send(&mut self, n: u64) {
        for s in self.next..self.next + n {
            for (to, place) in &self.from_producer {
                self.queues[*to][*place].push_back(event_at(s));
            }
        }
        self.next += n;
    }

    fn take_all(&mut self) {
        for h in 0..self.sums.len() {
            self.take(h);
        }
    }

    fn sums(&self) -> &[u64] {
        &self.sums
    }
}

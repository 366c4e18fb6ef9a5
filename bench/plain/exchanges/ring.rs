//! A ring on one thread: counts, and slots that the handlers read in place. It refuses nothing.

use crate::OneThread;
use crate::topology::Shape;

/// An event of one word and so many more.
#[derive(Clone, Copy)]
pub struct Words<const MORE: usize> {
    pub first: u64,
    /// Which handlers do not read.
    #[allow(dead_code)]
    pub more: [u64; MORE],
}

impl<const MORE: usize> Words<MORE> {
    fn at(sequence: u64) -> Words<MORE> {
        Words {
            first: sequence,
            more: [0; MORE],
        }
    }
}

pub struct Ring<const MORE: usize> {
    slots: Vec<Words<MORE>>,
    mask: u64,
    next: u64,
    completed: Vec<u64>,
    upstreams: Vec<Vec<usize>>,
    finals: Vec<usize>,
    /// What all final handlers were last seen to have completed.
    gate: u64,
    sums: Vec<u64>,
}

impl<const MORE: usize> Ring<MORE> {
    pub fn new(shape: &Shape, size: u64) -> Ring<MORE> {
        let handlers = shape.upstreams.len();
        Ring {
            slots: vec![Words::at(0); size as usize],
            mask: size - 1,
            next: 0,
            completed: vec![0; handlers],
            upstreams: shape.upstreams.clone(),
            finals: shape.finals(),
            gate: 0,
            sums: vec![0; handlers],
        }
    }

    fn least(&self, handlers: &[usize]) -> u64 {
        handlers.iter().map(|h| self.completed[*h]).min().unwrap_or(self.next)
    }

    fn take(&mut self, h: usize) {
        let upto = self.least(&self.upstreams[h]);
        let mut sum = self.sums[h];
        for s in self.completed[h]..upto {
            sum = sum.wrapping_add(self.slots[(s & self.mask) as usize].first);
        }
        self.sums[h] = sum;
        self.completed[h] = upto;
    }
}

impl<const MORE: usize> OneThread for Ring<MORE> {
    fn send(&mut self, n: u64) {
        if self.next + n > self.gate + self.slots.len() as u64 {
            self.gate = self.least(&self.finals);
            assert!(self.next + n <= self.gate + self.slots.len() as u64);
        }
        for s in self.next..self.next + n {
            self.slots[(s & self.mask) as usize] = Words::at(s);
        }
        self.next += n;
    }

    fn take_all(&mut self) {
        for h in 0..self.completed.len() {
            self.take(h);
        }
    }

    fn sums(&self) -> &[u64] {
        &self.sums
    }
}

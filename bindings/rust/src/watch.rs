//! What one watches.

use std::sync::atomic::{AtomicU64, Ordering};
use std::sync::Arc;

/// How many events an end published or completed, which any thread may ask at any time. It is never ahead of the end.
#[derive(Clone, Debug, Default)]
pub struct Watch(Arc<Line>);

// (alone in two cache lines, since its end writes it after each call)
#[derive(Debug, Default)]
#[repr(align(128))]
struct Line(AtomicU64);

impl Watch {
    /// So many.
    pub fn count(&self) -> u64 {
        self.0 .0.load(Ordering::Acquire)
    }

    /// Only its end calls this.
    pub(crate) fn set(&self, count: u64) {
        self.0 .0.store(count, Ordering::Release);
    }
}

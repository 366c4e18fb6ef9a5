#![doc = include_str!("../README.md")]
#![warn(missing_docs, unsafe_op_in_unsafe_fn)]

mod builder;
mod ffi;
mod open;
mod receiver;
mod refusal;
#[cfg(doctest)]
mod refused;
mod ring;
mod running;
mod sender;
mod slots;
mod waiting;
mod watch;

pub use builder::{Builder, Fault};
pub use ffi::Counts;
pub use open::{open, open_several, Halter, Plan};
pub use receiver::{Broken, Polled, Receiver};
pub use refusal::Refusal;
pub use running::{Disruptor, Panicked, Senders};
pub use sender::{Batch, Sender};
pub use waiting::{pin, Wait};
pub use watch::Watch;

/// How many sequences there may be in a ring at most.
pub const MAX_LIMIT: u64 = 1 << 62;

//! The calls of the proved library that a ring of slots needs. Each pointer comes with how many things lie there.

use std::ffi::c_void;

#[repr(C)]
#[derive(Default)]
pub(crate) struct Offer {
    pub kind: u32,
    pub end: u32,
    pub first: u64,
    pub count: u64,
}

/// How far an end came, by its own calls.
#[repr(C)]
#[derive(Clone, Copy, Debug, Default, PartialEq, Eq)]
pub struct Counts {
    /// How many sequences a sender claimed, or how many events a handler took.
    pub begun: u64,
    /// How many events a sender published, or how many a handler completed.
    pub done: u64,
}

/// What an end has, alone in two cache lines. It is freed once, and never copied.
#[repr(C, align(128))]
pub(crate) struct Handle {
    at: *mut c_void,
    state: u64,
    rest: [u64; 14],
}

impl Handle {
    pub(crate) const NEW: Handle = Handle { at: std::ptr::null_mut(), state: 0, rest: [0; 14] };

    pub(crate) fn several(count: usize) -> Vec<Handle> {
        (0..count).map(|_| Handle::NEW).collect()
    }
}

impl Drop for Handle {
    fn drop(&mut self) {
        // SAFETY: it is zero, or was opened, and nobody else has it.
        unsafe { disruptor_free_at(self, 1) }
    }
}

// SAFETY: that each end may move to another thread is proved in the library.
unsafe impl Send for Handle {}

#[rustfmt::skip]
extern "C" {
    pub(crate) fn disruptor_open_bytes_at(
        size: u64, limit: u64, bytes: usize, upstreams: *const u64, masks: usize, handlers: usize,
        sender: *mut Handle, senders: usize, receivers: *mut Handle, places: usize, count: usize, halter: *mut Handle, halters: usize,
    ) -> u32;
    pub(crate) fn disruptor_open_several_at(
        size: u64, limit: u64, upstreams: *const u64, masks: usize, handlers: usize,
        senders: *mut Handle, ends: usize, count: usize, receivers: *mut Handle, places: usize, rooms: usize, halter: *mut Handle, halters: usize,
    ) -> u32;
    pub(crate) fn disruptor_free_at(handle: *mut Handle, count: usize);
    pub(crate) fn disruptor_claim_at(sender: *mut Handle, senders: usize, n: u64, lo: *mut u64, places: usize) -> u32;
    pub(crate) fn disruptor_publish_slots_at(sender: *mut Handle, senders: usize, lo: u64, hi: u64) -> u32;
    pub(crate) fn disruptor_close_at(sender: *mut Handle, senders: usize) -> u32;
    pub(crate) fn disruptor_poll_slots_at(receiver: *mut Handle, receivers: usize, room: u64, offer: *mut Offer, offers: usize) -> u32;
    pub(crate) fn disruptor_complete_at(receiver: *mut Handle, receivers: usize, upto: u64) -> u32;
    pub(crate) fn disruptor_halt_at(halter: *mut Handle, halters: usize) -> u32;
    pub(crate) fn disruptor_cursor_at(halter: *mut Handle, halters: usize, count: *mut u64, places: usize) -> u32;
    pub(crate) fn disruptor_completed_at(halter: *mut Handle, halters: usize, handler: usize, count: *mut u64, places: usize) -> u32;
    pub(crate) fn disruptor_progress_at(handle: *mut Handle, handles: usize, counts: *mut Counts, places: usize) -> u32;
    pub(crate) fn disruptor_name_at(number: u32, text: *mut u8, room: usize) -> usize;
}

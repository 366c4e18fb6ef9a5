//! The memory of a ring: as many events as it has slots.

use std::cell::UnsafeCell;
use std::ptr;

pub(crate) struct Slots<T>(Box<[UnsafeCell<T>]>);

// SAFETY: the ring says who may touch which event when. Many handlers read one at once, each end may fill or change it, and the
// thread that drops the last end drops all.
unsafe impl<T: Send + Sync> Sync for Slots<T> {}
unsafe impl<T: Send> Send for Slots<T> {}

impl<T> Slots<T> {
    pub(crate) fn new(size: usize, mut factory: impl FnMut() -> T) -> Slots<T> {
        Slots((0..size).map(|_| UnsafeCell::new(factory())).collect())
    }

    pub(crate) fn len(&self) -> u64 {
        self.0.len() as u64
    }

    /// The events of a stretch of at most as many as there are slots: a run up to the last slot, and one from the first on.
    fn runs(&self, first: u64, count: u64) -> (*mut [T], *mut [T]) {
        let size = self.0.len();
        let at = first as usize & (size - 1);
        let front = (count as usize).min(size - at);
        let all = self.0.as_ptr() as *mut T;
        // SAFETY: both runs lie among the slots.
        let start = unsafe { all.add(at) };
        (ptr::slice_from_raw_parts_mut(start, front), ptr::slice_from_raw_parts_mut(all, count as usize - front))
    }

    /// # Safety
    /// For as long as these live nobody else touches the events of the stretch.
    #[allow(clippy::mut_from_ref)]
    pub(crate) unsafe fn own(&self, first: u64, count: u64) -> (&mut [T], &mut [T]) {
        let (front, back) = self.runs(first, count);
        // SAFETY: the two runs have no slot in common, and the caller sees to the rest.
        unsafe { (&mut *front, &mut *back) }
    }

    /// # Safety
    /// For as long as these live nobody changes the events of the stretch.
    pub(crate) unsafe fn read(&self, first: u64, count: u64) -> (&[T], &[T]) {
        let (front, back) = self.runs(first, count);
        // SAFETY: the caller sees to it.
        unsafe { (&*front, &*back) }
    }
}

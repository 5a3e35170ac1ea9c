//! Lanes: a ring with one thread that gives and one that takes. What was given is shown when it is published, so the
//! two threads need not touch one counter for each item.

use std::cell::UnsafeCell;
use std::mem::MaybeUninit;
use std::sync::atomic::{AtomicUsize, Ordering::*};
use std::sync::Arc;

#[repr(align(128))]
struct Counter(AtomicUsize);

struct Ring<T> {
    slots: Box<[UnsafeCell<MaybeUninit<T>>]>,
    capacity: usize,
    given: Counter,
    taken: Counter,
}

unsafe impl<T: Send> Sync for Ring<T> {}

impl<T> Ring<T> {
    fn slot(&self, number: usize) -> *mut T {
        self.slots[number & (self.slots.len() - 1)].get() as *mut T
    }
}

pub struct Giver<T> {
    ring: Arc<Ring<T>>,
    given: usize,
    taken: usize,
}

pub struct Taker<T> {
    ring: Arc<Ring<T>>,
    given: usize,
    taken: usize,
}

/// A lane that holds a number of items, which need no drop.
pub fn lane<T: Copy + Send>(capacity: usize) -> (Giver<T>, Taker<T>) {
    let mut slots = Vec::with_capacity(capacity.next_power_of_two());
    slots.resize_with(capacity.next_power_of_two(), || UnsafeCell::new(MaybeUninit::uninit()));
    let counter = || Counter(AtomicUsize::new(0));
    let ring = Arc::new(Ring { slots: slots.into(), capacity, given: counter(), taken: counter() });
    (Giver { ring: ring.clone(), given: 0, taken: 0 }, Taker { ring, given: 0, taken: 0 })
}

impl<T: Copy> Giver<T> {
    pub fn has_room(&mut self) -> bool {
        if self.given - self.taken == self.ring.capacity {
            self.taken = self.ring.taken.0.load(Acquire);
        }
        self.given - self.taken < self.ring.capacity
    }

    /// Gives an item, for which there has to be room.
    pub fn give(&mut self, item: T) {
        debug_assert!(self.given - self.taken < self.ring.capacity);
        unsafe { self.ring.slot(self.given).write(item) }
        self.given += 1;
    }

    pub fn publish(&self) {
        self.ring.given.0.store(self.given, Release);
    }
}

impl<T: Copy> Taker<T> {
    pub fn take(&mut self) -> Option<T> {
        if self.taken == self.given {
            self.given = self.ring.given.0.load(Acquire);
        }
        if self.taken == self.given {
            return None;
        }
        let item = unsafe { self.ring.slot(self.taken).read() };
        self.taken += 1;
        Some(item)
    }

    pub fn publish(&self) {
        self.ring.taken.0.store(self.taken, Release);
    }
}

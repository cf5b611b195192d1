//! The bounded queue of Dmitry Vyukov, for any number of senders and takers: each slot has a stamp, which says which push or pop
//! may use it next.

use std::cell::UnsafeCell;
use std::mem::MaybeUninit;
use std::sync::atomic::{fence, AtomicUsize, Ordering};

/// A place alone in two lines of the cache, so that the threads do not share a line without need.
#[repr(align(128))]
pub struct Alone<T>(pub T);

struct Slot<T> {
    stamp: AtomicUsize,
    value: UnsafeCell<MaybeUninit<T>>,
}

/// A place is an index below the capacity, and a lap in the bits above it.
pub struct Queue<T> {
    head: Alone<AtomicUsize>,
    tail: Alone<AtomicUsize>,
    slots: Box<[Slot<T>]>,
    lap: usize,
}

// SAFETY: a slot is written by the push that raised the tail to it, and read by the pop that raised the head to it.
unsafe impl<T: Send> Sync for Queue<T> {}

impl<T> Queue<T> {
    pub fn new(capacity: usize) -> Self {
        let slot = |place| Slot { stamp: AtomicUsize::new(place), value: UnsafeCell::new(MaybeUninit::uninit()) };
        Queue {
            head: Alone(AtomicUsize::new(0)),
            tail: Alone(AtomicUsize::new(0)),
            slots: (0..capacity).map(slot).collect(),
            lap: (capacity + 1).next_power_of_two(),
        }
    }

    /// The place after this one.
    fn after(&self, place: usize) -> usize {
        if (place & (self.lap - 1)) + 1 < self.slots.len() {
            place + 1
        } else {
            (place & !(self.lap - 1)).wrapping_add(self.lap)
        }
    }

    /// Whether a push would find it full. Plans alone ask.
    #[allow(dead_code)]
    pub fn is_full(&self) -> bool {
        let tail = self.tail.0.load(Ordering::Relaxed);
        self.head.0.load(Ordering::Relaxed).wrapping_add(self.lap) == tail
    }

    pub fn push(&self, value: T) -> Result<(), T> {
        let mut tail = self.tail.0.load(Ordering::Relaxed);
        loop {
            let slot = &self.slots[tail & (self.lap - 1)];
            let stamp = slot.stamp.load(Ordering::Acquire);
            if stamp == tail {
                let after = self.after(tail);
                match self.tail.0.compare_exchange_weak(tail, after, Ordering::SeqCst, Ordering::Relaxed) {
                    Ok(_) => {
                        // SAFETY: the stamp gave the slot to the one push that raised the tail.
                        unsafe { (*slot.value.get()).write(value) };
                        slot.stamp.store(tail + 1, Ordering::Release);
                        return Ok(());
                    }
                    Err(now) => tail = now,
                }
            } else {
                fence(Ordering::SeqCst);
                if stamp.wrapping_add(self.lap) == tail + 1 && self.head.0.load(Ordering::Relaxed).wrapping_add(self.lap) == tail {
                    return Err(value);
                }
                std::hint::spin_loop();
                tail = self.tail.0.load(Ordering::Relaxed);
            }
        }
    }

    pub fn pop(&self) -> Option<T> {
        let mut head = self.head.0.load(Ordering::Relaxed);
        loop {
            let slot = &self.slots[head & (self.lap - 1)];
            let stamp = slot.stamp.load(Ordering::Acquire);
            if stamp == head + 1 {
                let after = self.after(head);
                match self.head.0.compare_exchange_weak(head, after, Ordering::SeqCst, Ordering::Relaxed) {
                    Ok(_) => {
                        // SAFETY: the stamp gave the slot to the one pop that raised the head, after the push had written it.
                        let value = unsafe { (*slot.value.get()).assume_init_read() };
                        slot.stamp.store(head.wrapping_add(self.lap), Ordering::Release);
                        return Some(value);
                    }
                    Err(now) => head = now,
                }
            } else {
                fence(Ordering::SeqCst);
                if stamp == head && self.tail.0.load(Ordering::Relaxed) == head {
                    return None;
                }
                std::hint::spin_loop();
                head = self.head.0.load(Ordering::Relaxed);
            }
        }
    }
}

impl<T> Drop for Queue<T> {
    fn drop(&mut self) {
        while self.pop().is_some() {}
    }
}

//! The same as `ring_speed` in plain Rust: a ring with two counts, both ends in threads of their
//! own. Prints how many nanoseconds the numbers took from one thread to the other.
use std::cell::UnsafeCell;
use std::sync::atomic::{AtomicU64, Ordering::SeqCst};
use std::thread;
use std::time::Instant;

struct Ring<T> {
    pushed: AtomicU64,
    taken: AtomicU64,
    slots: Box<[UnsafeCell<Option<T>>]>,
}

// One thread alone has the `Tail`, and one the `Head`.
unsafe impl<T: Send> Sync for Ring<T> {}

struct Tail {
    count: u64,
    place: usize,
}

struct Head {
    count: u64,
    place: usize,
}

impl<T> Ring<T> {
    fn new(capacity: usize) -> (Ring<T>, Tail, Head) {
        let slots = (0..capacity).map(|_| UnsafeCell::new(None)).collect();
        let ring = Ring {
            pushed: AtomicU64::new(0),
            taken: AtomicU64::new(0),
            slots,
        };
        (ring, Tail { count: 0, place: 0 }, Head { count: 0, place: 0 })
    }

    fn push(&self, tail: &mut Tail, item: T) -> Result<(), T> {
        let taken = self.taken.load(SeqCst);
        if tail.count - taken == self.slots.len() as u64 || tail.count == u64::MAX {
            return Err(item);
        }
        unsafe { *self.slots[tail.place].get() = Some(item) };
        self.pushed.store(tail.count + 1, SeqCst);
        tail.count += 1;
        tail.place += 1;
        if tail.place == self.slots.len() {
            tail.place = 0;
        }
        Ok(())
    }

    fn pop(&self, head: &mut Head) -> Option<T> {
        if self.pushed.load(SeqCst) == head.count {
            return None;
        }
        let item = unsafe { (*self.slots[head.place].get()).take() };
        self.taken.store(head.count + 1, SeqCst);
        head.count += 1;
        head.place += 1;
        if head.place == self.slots.len() {
            head.place = 0;
        }
        item
    }
}

fn send(ring: &Ring<u64>, tail: &mut Tail, count: u64) {
    let mut number = 0;
    while number != count {
        match ring.push(tail, number) {
            Ok(()) => number += 1,
            Err(_) => thread::yield_now(),
        }
    }
}

fn receive(ring: &Ring<u64>, head: &mut Head, count: u64) -> bool {
    let mut number = 0;
    while number != count {
        match ring.pop(head) {
            Some(found) if found == number => number += 1,
            Some(_) => return false,
            None => thread::yield_now(),
        }
    }
    true
}

fn main() {
    let count = std::env::args().nth(1).expect("a count").parse().expect("a number");
    let (ring, mut tail, mut head) = Ring::new(256);
    let start = Instant::now();
    let in_order = thread::scope(|scope| {
        scope.spawn(|| send(&ring, &mut tail, count));
        receive(&ring, &mut head, count)
    });
    assert!(in_order);
    println!("{}", start.elapsed().as_nanos());
}

//! What `bench_calls` does, in plain Rust, as a mark to measure it against: `plain_feed CAPACITY PARCELS`.
//!
//! Sends parcels from one thread to another through a bounded queue, and prints how many were taken. The taker tells in an
//! atomic word how many it took, and the sender looks there after each push. A side that finds the queue full or empty lets the
//! other thread run and tries again. A parcel is a number and a copy of a
//! list of one change, which lies in the parcel; a longer list would lie on the heap.

mod queue;

use queue::{Alone, Queue};
use std::env;
use std::process::ExitCode;
use std::sync::atomic::{AtomicU64, Ordering};
use std::thread;

const GREATEST_CAPACITY: u64 = 1_024;
const MOST_UPDATES: u64 = 1_000_000;

/// How often a side tries before it gives up, since the other one has.
const TRIES: u64 = 10_000_000;

#[allow(dead_code)]
#[derive(Clone, Copy)]
enum Operation {
    Add(i64),
    Set(i64),
}

#[allow(dead_code)]
#[derive(Clone, Copy)]
struct Change {
    object: u16,
    operation: Operation,
}

/// The changes of an update. A single one is held in place.
#[allow(dead_code)]
#[derive(Clone)]
enum Changes {
    One(Change),
    More(Vec<Change>),
}

impl Changes {
    fn of(changes: Vec<Change>) -> Changes {
        match changes[..] {
            [change] => Changes::One(change),
            _ => Changes::More(changes),
        }
    }
}

struct Parcel {
    number: u64,
    #[allow(dead_code)]
    changes: Changes,
}

/// Pushes so many parcels of these changes, and looks after each. It answers how many of them it knows to be taken.
fn send_all(queue: &Queue<Parcel>, told: &AtomicU64, changes: &Changes, count: u64) -> Option<u64> {
    let mut known = 0;
    for number in 1..=count {
        push(queue, Parcel { number, changes: changes.clone() })?;
        known = told.load(Ordering::Acquire).min(number);
    }
    Some(known)
}

fn push(queue: &Queue<Parcel>, mut parcel: Parcel) -> Option<()> {
    for _ in 0..TRIES {
        match queue.push(parcel) {
            Ok(()) => return Some(()),
            Err(back) => {
                parcel = back;
                thread::yield_now();
            }
        }
    }
    None
}

/// Takes so many parcels, and tells after each. It answers the number of the last one.
fn take_all(queue: &Queue<Parcel>, told: &AtomicU64, count: u64) -> Option<u64> {
    let mut last = 0;
    for taken in 1..=count {
        last = pop(queue)?;
        told.store(taken, Ordering::Release);
    }
    Some(last)
}

fn pop(queue: &Queue<Parcel>) -> Option<u64> {
    for _ in 0..TRIES {
        if let Some(parcel) = queue.pop() {
            return Some(parcel.number);
        }
        thread::yield_now();
    }
    None
}

fn main() -> ExitCode {
    let words: Vec<String> = env::args().skip(1).collect();
    let numbers: Vec<u64> = words.iter().filter_map(|word| word.parse().ok()).collect();
    let [capacity, count] = numbers[..] else {
        eprintln!("usage: plain_feed CAPACITY PARCELS");
        return ExitCode::from(2);
    };
    if !(1..=GREATEST_CAPACITY).contains(&capacity) || count > MOST_UPDATES {
        eprintln!("plain_feed: no feed for {capacity} parcels takes {count}");
        return ExitCode::from(2);
    }
    let queue = Queue::new(capacity as usize);
    let told = Alone(AtomicU64::new(0));
    let changes = Changes::of(vec![Change { object: 0, operation: Operation::Set(1) }]);
    let (sent, taken) = thread::scope(|scope| {
        let sender = scope.spawn(|| send_all(&queue, &told.0, &changes, count));
        let taken = take_all(&queue, &told.0, count);
        (sender.join().expect("the sender ends"), taken)
    });
    let (Some(_), Some(taken)) = (sent, taken) else {
        eprintln!("plain_feed: a side gave up");
        return ExitCode::FAILURE;
    };
    println!("taken {taken}");
    ExitCode::SUCCESS
}

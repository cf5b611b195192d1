//! Callers that propose the sets of a plan, and appliers of the sites, in threads of their own.

use std::slice;
use std::sync::atomic::{AtomicBool, AtomicUsize, Ordering};
use std::sync::{Mutex, MutexGuard};
use std::thread;

use crate::plan::Plan;
use crate::queue::{Alone, Queue};
use crate::store::{Store, MOST_CHANGES};
use crate::updates::{apply_set, Change, Held, Log, Settled, Site};

/// How many turns a proposal has.
const TURNS: u64 = 1_000_000;

/// An update on its way to a site: a copy of its changes. One change is held in place.
enum Parcel {
    One(Change),
    More(Vec<Change>),
}

impl Parcel {
    fn of(changes: &[Change]) -> Parcel {
        match changes {
            &[change] => Parcel::One(change),
            _ => Parcel::More(changes.to_vec()),
        }
    }

    fn changes(&self) -> &[Change] {
        match self {
            Parcel::One(change) => slice::from_ref(change),
            Parcel::More(changes) => changes,
        }
    }
}

/// The way of the updates to a site, and of the number that it tells.
struct Feed {
    queue: Queue<Parcel>,
    told: Alone<AtomicUsize>,
}

/// What a site holds, and how many updates it applied.
pub struct Cell {
    pub held: Vec<Held>,
    pub applied: usize,
    results: [i64; MOST_CHANGES],
}

impl Cell {
    fn new(held: Vec<Held>) -> Cell {
        Cell { held, applied: 0, results: [0; MOST_CHANGES] }
    }

    fn apply(&mut self, changes: &[Change]) {
        apply_set(&mut self.held, changes, &mut self.results);
        self.applied += 1;
    }
}

/// What became of the proposals of a caller.
#[derive(Clone, Copy, Default)]
pub struct Counts {
    pub refused: usize,
    pub pending: usize,
}

/// A store that threads share. Of the sites in the book only what the primary knows of them is kept up.
struct Cluster {
    book: Mutex<Store>,
    cells: Vec<Mutex<Cell>>,
    feeds: Vec<Feed>,
    is_stopped: AtomicBool,
}

fn lock<T>(mutex: &Mutex<T>) -> MutexGuard<'_, T> {
    mutex.lock().expect("no thread panics with a lock")
}

impl Cluster {
    fn new(book: Store) -> Cluster {
        let cell = |site: &Site| Mutex::new(Cell::new(site.held.clone()));
        let feed = |site: &Site| Feed {
            queue: Queue::new(site.capacity),
            told: Alone(AtomicUsize::new(0)),
        };
        Cluster {
            cells: book.sites.iter().map(cell).collect(),
            feeds: book.sites.iter().map(feed).collect(),
            book: Mutex::new(book),
            is_stopped: AtomicBool::new(false),
        }
    }

    /// One turn: each site reports what it told; then the settlements that acknowledge the head; then each site is sent what
    /// its feed can take, but nothing behind a head that waits for it.
    fn turn(&self, book: &mut Store) -> usize {
        for (index, feed) in self.feeds.iter().enumerate() {
            book.learn(index, feed.told.0.load(Ordering::Acquire));
        }
        while let Ok(Settled::Acked) = book.settle_head() {}
        let head = book.acknowledged + 1;
        let waited_for = if book.decided == head { book.waited_for(head) } else { 0 };
        for (index, feed) in self.feeds.iter().enumerate() {
            let last = if waited_for >> index & 1 == 1 { head } else { book.log.len() };
            let site = &mut book.sites[index];
            // A copy for a full queue would be made in vain.
            while site.sent < last && !feed.queue.is_full() && feed.queue.push(Parcel::of(book.log.after(site.sent))).is_ok() {
                site.sent += 1;
            }
        }
        book.acknowledged
    }

    /// Proposes a set, and waits until it is acknowledged or the turns are used up.
    fn propose(&self, set: &[Change], counts: &mut Counts) {
        let mut book = lock(&self.book);
        let from = book.log.changes.len();
        book.log.changes.extend_from_slice(set);
        if book.number(from).is_err() {
            book.log.changes.truncate(from);
            counts.refused += 1;
            return;
        }
        let number = book.log.len();
        let mut acknowledged = self.turn(&mut book);
        drop(book);
        let mut turns = 1;
        while acknowledged < number {
            if turns == TURNS {
                counts.pending += 1;
                return;
            }
            thread::yield_now();
            acknowledged = self.turn(&mut lock(&self.book));
            turns += 1;
        }
    }

    /// Proposes each set whose place is that of the caller among so many.
    fn call(&self, sets: &Log, caller: usize, callers: usize) -> Counts {
        let mut counts = Counts::default();
        for place in (caller..sets.len()).step_by(callers) {
            self.propose(sets.after(place), &mut counts);
        }
        counts
    }

    /// Applies what comes to a site, until a turn that began after the stop finds nothing.
    fn applier(&self, place: usize) {
        let feed = &self.feeds[place];
        loop {
            let is_last = self.is_stopped.load(Ordering::SeqCst);
            let mut cell = lock(&self.cells[place]);
            let Some(parcel) = feed.queue.pop() else {
                drop(cell);
                if is_last {
                    return;
                }
                thread::yield_now();
                continue;
            };
            cell.apply(parcel.changes());
            feed.told.0.store(cell.applied, Ordering::Release);
        }
    }

    fn close(self) -> (Store, Vec<Cell>) {
        let cells = self.cells.into_iter().map(|cell| cell.into_inner().expect("no thread panics with a lock"));
        let cells = cells.collect();
        (self.book.into_inner().expect("no thread panics with a lock"), cells)
    }
}

/// Whether a site holds what its first updates make of the values at the start, and applied no fewer than it reported and no
/// more than it was sent.
pub fn agrees(store: &Store, place: usize, cell: &Cell) -> bool {
    let site = &store.sites[place];
    if cell.applied < site.reported || site.sent < cell.applied {
        return false;
    }
    let mut again = Cell::new(site.held.clone());
    for update in 0..cell.applied {
        again.apply(store.log.after(update));
    }
    again.held.iter().zip(&cell.held).all(|(held, other)| held.value == other.value)
}

/// Proposes the sets of a plan by so many callers. It gives the store and the sites that are left, and the counts of all callers.
pub fn run(plan: Plan, callers: usize) -> (Store, Vec<Cell>, Counts) {
    let cluster = Cluster::new(plan.store);
    let mut counts = Counts::default();
    thread::scope(|scope| {
        let (cluster, sets) = (&cluster, &plan.sets);
        for index in 0..cluster.cells.len() {
            scope.spawn(move || cluster.applier(index));
        }
        let calls: Vec<_> = (0..callers).map(|caller| scope.spawn(move || cluster.call(sets, caller, callers))).collect();
        let ended: Vec<_> = calls.into_iter().map(|call| call.join()).collect();
        cluster.is_stopped.store(true, Ordering::SeqCst);
        for counted in ended {
            let counted = counted.expect("no caller panics");
            counts.refused += counted.refused;
            counts.pending += counted.pending;
        }
    });
    let (store, cells) = cluster.close();
    (store, cells, counts)
}

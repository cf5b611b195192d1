//! What `bench_threads` does, in plain Rust, as a mark to measure it against: `plain_threads KIND SITES THREADS COUNT LIMIT`. It
//! prints a time in nanoseconds, and how much was done.
//!
//! The book lies under one lock: the log, and what each site was sent and has reported. A site lies under a lock of its own, and so
//! does the queue before it. Its applier, in a thread of its own, sleeps while the queue is empty. It takes all that has come, applies
//! one update after another, and reports them in the book. There it acknowledges what may be acknowledged, and sends what may be
//! sent. A caller sleeps until its update is acknowledged. Whoever is to be woken is woken once the lock of the book is free.

use std::collections::VecDeque;
use std::env;
use std::mem;
use std::process::ExitCode;
use std::sync::atomic::{AtomicBool, AtomicU64, AtomicUsize, Ordering};
use std::sync::{Condvar, Mutex, MutexGuard};
use std::thread::{self, Thread};
use std::time::{Duration, Instant};

const OBJECTS: usize = 16;
const CAPACITY: usize = 1_024;
const LARGEST_VALUE: i64 = 1_000_000_000;
const MOST_READS: u64 = 256;

#[derive(Clone, Copy)]
enum Operation {
    Add(i64),
    #[allow(dead_code)]
    Set(i64),
}

#[derive(Clone, Copy)]
struct Change {
    object: u16,
    operation: Operation,
}

/// The changes of an update. A single one is held in index.
#[derive(Clone)]
enum Changes {
    One(Change),
    #[allow(dead_code)]
    More(Vec<Change>),
}

impl Changes {
    fn as_slice(&self) -> &[Change] {
        match self {
            Changes::One(change) => std::slice::from_ref(change),
            Changes::More(changes) => changes,
        }
    }
}

/// An object's value, and how far all updates up to now moved it.
#[derive(Clone, Copy)]
struct Held {
    value: i64,
    travelled: u64,
}

fn result(held: &[Held], change: Change) -> i64 {
    match change.operation {
        Operation::Add(by) => held[usize::from(change.object)].value + by,
        Operation::Set(to) => to,
    }
}

fn first_held() -> Vec<Held> {
    vec![Held { value: 1_000, travelled: 0 }; OBJECTS]
}

/// Moves the objects, and answers how far. The changes of a set have an object each.
fn apply(held: &mut [Held], changes: &[Change]) -> u64 {
    let mut weight = 0;
    for &change in changes {
        let result = result(held, change);
        let held = &mut held[usize::from(change.object)];
        let distance = held.value.abs_diff(result);
        held.value = result;
        held.travelled += distance;
        weight += distance;
    }
    weight
}

/// What the book knows of a site. It is sent at most as many updates before it reports as its queue can hold.
struct Known {
    sent: usize,
    reported: usize,
    limit: Option<u64>,
}

struct Book {
    log: Vec<Changes>,
    /// How far the first so many updates moved all objects.
    weights: Vec<u64>,
    /// The objects at the end of the log, and as far as it is acknowledged.
    held: Vec<Held>,
    acknowledged_held: Vec<Held>,
    sites: Vec<Known>,
    acknowledged: usize,
    /// The sites that have a round at the head, one bit each, if that is decided.
    rounds: Option<u32>,
    /// The callers that sleep, in the order of their updates.
    waiting: VecDeque<(usize, Thread)>,
    is_stopped: bool,
}

impl Book {
    fn number(&mut self, changes: &Changes) -> Option<usize> {
        let list = changes.as_slice();
        if self.is_stopped || list.iter().any(|&change| result(&self.held, change).abs() > LARGEST_VALUE) {
            return None;
        }
        let weight = self.weights.last().expect("it begins with one") + apply(&mut self.held, list);
        self.weights.push(weight);
        self.log.push(changes.clone());
        Some(self.log.len())
    }

    /// The sites that would pass their limit if the head was acknowledged now.
    fn rounds_at(&self, head: usize) -> u32 {
        let mut rounds = 0;
        for (index, site) in self.sites.iter().enumerate() {
            if let Some(limit) = site.limit {
                if site.reported < head && self.weights[head] - self.weights[site.reported] > limit {
                    rounds |= 1 << index;
                }
            }
        }
        rounds
    }

    fn is_waited_for(&self, head: usize, rounds: u32) -> bool {
        self.sites.iter().enumerate().any(|(index, site)| rounds >> index & 1 == 1 && site.reported < head)
    }

    /// Acknowledges updates as long as that is allowed, and then sends each site what its queue can take, but nothing behind a head
    /// that waits for it. It answers who is to be woken.
    fn turn(&mut self, feeds: &[Alone<Feed>]) -> Woken {
        while self.acknowledged < self.log.len() {
            let head = self.acknowledged + 1;
            let rounds = match self.rounds {
                Some(rounds) => rounds,
                None => self.rounds_at(head),
            };
            if self.is_waited_for(head, rounds) {
                self.rounds = Some(rounds);
                break;
            }
            self.rounds = None;
            apply(&mut self.acknowledged_held, self.log[head - 1].as_slice());
            self.acknowledged = head;
        }
        let head = self.acknowledged + 1;
        let rounds = self.rounds.unwrap_or(0);
        let mut sleepers = 0;
        for (index, site) in self.sites.iter_mut().enumerate() {
            let waits = rounds >> index & 1 == 1 && site.reported < head;
            let last = if waits { head } else { self.log.len() };
            let last = last.min(site.reported + CAPACITY);
            if site.sent < last {
                let mut queue = lock(&feeds[index].0.queue);
                queue.updates.extend(self.log[site.sent..last].iter().cloned());
                site.sent = last;
                sleepers |= u32::from(mem::take(&mut queue.has_sleeper)) << index;
            }
        }
        let count = self.waiting.iter().take_while(|(number, _)| *number <= self.acknowledged).count();
        let callers = self.waiting.drain(..count).map(|(_, caller)| caller).collect();
        Woken { sites: sleepers, callers }
    }
}

/// Who is to be woken: sites, one bit each, and the callers whose updates are acknowledged now.
struct Woken {
    sites: u32,
    callers: Vec<Thread>,
}

/// The queue before a site.
#[derive(Default)]
struct Feed {
    queue: Mutex<Queue>,
    filled: Condvar,
}

#[derive(Default)]
struct Queue {
    updates: VecDeque<Changes>,
    has_sleeper: bool,
    is_stopped: bool,
}

impl Feed {
    /// Takes all that has come, as soon as something has. It answers whether it did: else the cluster is stopped.
    fn take(&self, batch: &mut VecDeque<Changes>) -> bool {
        let mut queue = lock(&self.queue);
        while queue.updates.is_empty() {
            if queue.is_stopped {
                return false;
            }
            queue.has_sleeper = true;
            queue = self.filled.wait(queue).expect("no thread panics with a lock");
        }
        mem::swap(batch, &mut queue.updates);
        true
    }
}

struct Site {
    held: Vec<Held>,
    applied: usize,
}

struct Cluster {
    book: Mutex<Book>,
    feeds: Vec<Alone<Feed>>,
    sites: Vec<Alone<Mutex<Site>>>,
}

/// A place alone in two lines of the cache, so that the threads do not share a line without need.
#[repr(align(128))]
struct Alone<T>(T);

fn lock<T>(mutex: &Mutex<T>) -> MutexGuard<'_, T> {
    mutex.lock().expect("no thread panics with a lock")
}

/// How many updates a caller has seen.
#[derive(Default)]
struct Session {
    seen: usize,
}

struct Query<'a> {
    site: &'a Mutex<Site>,
    marks: Vec<u64>,
    limit: u64,
    total: u64,
    sum: i64,
    reads: u64,
}

impl Query<'_> {
    fn read(&mut self, object: usize) -> Option<i64> {
        let site = lock(self.site);
        let held = site.held[object];
        let total = self.total + held.travelled.abs_diff(self.marks[object]);
        if self.reads == MOST_READS || total > self.limit {
            return None;
        }
        self.total = total;
        self.sum += held.value;
        self.reads += 1;
        Some(held.value)
    }
}

impl Cluster {
    fn new(job: &Job) -> Cluster {
        let known = |_| Known { sent: 0, reported: 0, limit: job.limit.checked_sub(1) };
        let book = Book {
            log: Vec::new(),
            weights: vec![0],
            held: first_held(),
            acknowledged_held: first_held(),
            sites: (0..job.sites).map(known).collect(),
            acknowledged: 0,
            rounds: None,
            waiting: VecDeque::new(),
            is_stopped: false,
        };
        let site = |_| Alone(Mutex::new(Site { held: first_held(), applied: 0 }));
        Cluster {
            book: Mutex::new(book),
            feeds: (0..job.sites).map(|_| Alone(Feed::default())).collect(),
            sites: (0..job.sites).map(site).collect(),
        }
    }

    fn wait(&self, number: usize) {
        let mut book = lock(&self.book);
        while book.acknowledged < number {
            drop(book);
            thread::park();
            book = lock(&self.book);
        }
    }

    /// Wakes whom a turn has found, once the lock of the book is free.
    fn wake(&self, woken: &Woken) {
        for (index, feed) in self.feeds.iter().enumerate() {
            if woken.sites >> index & 1 == 1 {
                feed.0.filled.notify_one();
            }
        }
        for caller in &woken.callers {
            caller.unpark();
        }
    }

    /// Numbers an update, and waits until it is acknowledged.
    fn propose(&self, session: &mut Session, changes: &Changes) -> Option<usize> {
        let mut book = lock(&self.book);
        let number = book.number(changes)?;
        let woken = book.turn(&self.feeds);
        let is_acknowledged = number <= book.acknowledged;
        if !is_acknowledged {
            book.waiting.push_back((number, thread::current()));
        }
        drop(book);
        self.wake(&woken);
        if !is_acknowledged {
            self.wait(number);
        }
        session.seen = session.seen.max(number);
        Some(number)
    }

    fn read(&self, session: &mut Session, site: usize, object: usize) -> Option<i64> {
        let site = lock(&self.sites[site].0);
        if site.applied < session.seen {
            return None;
        }
        session.seen = site.applied;
        Some(site.held[object].value)
    }

    fn begin(&self, site: usize, limit: u64) -> Query<'_> {
        let book = lock(&self.book);
        let marks = book.acknowledged_held.iter().map(|held| held.travelled).collect();
        Query { site: &self.sites[site].0, marks, limit, total: 0, sum: 0, reads: 0 }
    }

    /// Applies what comes to a site until the cluster is stopped. `told` is called with the number of each update applied.
    fn applier(&self, index: usize, told: impl Fn(usize)) {
        let mut batch = VecDeque::new();
        while self.feeds[index].0.take(&mut batch) {
            let mut applied = 0;
            for changes in batch.drain(..) {
                applied = self.apply(index, &changes);
                told(applied);
            }
            self.report(index, applied);
        }
    }

    fn apply(&self, index: usize, changes: &Changes) -> usize {
        let mut site = lock(&self.sites[index].0);
        apply(&mut site.held, changes.as_slice());
        site.applied += 1;
        site.applied
    }

    fn report(&self, index: usize, applied: usize) {
        let mut book = lock(&self.book);
        book.sites[index].reported = applied;
        let woken = book.turn(&self.feeds);
        drop(book);
        self.wake(&woken);
    }

    /// Proposals are refused from now on, and the appliers end once their queues are empty.
    fn stop(&self) {
        lock(&self.book).is_stopped = true;
        for feed in &self.feeds {
            lock(&feed.0.queue).is_stopped = true;
            feed.0.filled.notify_one();
        }
    }
}

struct Job {
    kind: String,
    sites: usize,
    threads: usize,
    count: usize,
    /// 0 stands for none, and else it is one less.
    limit: u64,
}

/// How long a writer rests between two updates beside readers, and nobody calls before a proposal that wakes sites.
const REST: Duration = Duration::from_micros(100);
const LONG_REST: Duration = Duration::from_micros(1_000);

/// The next set of a caller: it adds 1 to an object or takes 1 off it.
fn next_set(caller: usize, index: usize) -> Changes {
    let object = ((caller + index) % OBJECTS) as u16;
    let by = if (index / OBJECTS) % 2 == 0 { 1 } else { -1 };
    Changes::One(Change { object, operation: Operation::Add(by) })
}

/// Runs the appliers and beside them the work, and then stops the cluster.
fn serve<T>(job: &Job, told: impl Fn(usize, usize) + Sync, work: impl FnOnce(&Cluster) -> T) -> T {
    let cluster = Cluster::new(job);
    thread::scope(|scope| {
        let (cluster, told) = (&cluster, &told);
        for index in 0..job.sites {
            scope.spawn(move || cluster.applier(index, |number| told(index, number)));
        }
        let done = work(cluster);
        cluster.stop();
        done
    })
}

/// Has so many threads do the work, and answers how long that took and what they counted.
fn in_threads(threads: usize, work: impl Fn(usize) -> usize + Sync) -> (Duration, usize) {
    let count = AtomicUsize::new(0);
    let began = Instant::now();
    thread::scope(|scope| {
        let (count, work) = (&count, &work);
        for index in 0..threads {
            scope.spawn(move || count.fetch_add(work(index), Ordering::SeqCst));
        }
    });
    (began.elapsed(), count.into_inner())
}

fn read(cluster: &Cluster, site: usize, reads: usize) -> usize {
    let mut session = Session::default();
    let (mut answered, mut sum) = (0, 0);
    for index in 0..reads {
        if let Some(value) = cluster.read(&mut session, site, index % OBJECTS) {
            answered += 1;
            sum += value;
        }
    }
    if sum == 0 { 0 } else { answered }
}

fn ask(cluster: &Cluster, site: usize, reads: usize) -> usize {
    let (mut answered, mut sum) = (0, 0);
    for _ in 0..reads / 100 {
        let mut query = cluster.begin(site, 1_000_000_000_000);
        for index in 0..100 {
            query.read(index % OBJECTS);
        }
        answered += query.reads as usize;
        sum += query.sum;
    }
    if sum == 0 { 0 } else { answered }
}

fn reads(job: &Job) -> (Duration, usize) {
    serve(job, |_, _| {}, |cluster| {
        thread::sleep(Duration::from_millis(5));
        let is_ended = AtomicBool::new(false);
        thread::scope(|scope| {
            if job.kind == "reads-beside" {
                scope.spawn(|| write(cluster, &is_ended));
            }
            let done = in_threads(job.threads, |index| {
                let site = if job.kind == "reads-one" { 0 } else { index % job.sites };
                if job.kind == "queries" { ask(cluster, site, job.count) } else { read(cluster, site, job.count) }
            });
            is_ended.store(true, Ordering::SeqCst);
            done
        })
    })
}

/// Proposes updates until the readers have ended, with a rest after each.
fn write(cluster: &Cluster, is_ended: &AtomicBool) {
    let mut session = Session::default();
    let mut index = 0;
    while !is_ended.load(Ordering::SeqCst) {
        cluster.propose(&mut session, &next_set(0, index));
        index += 1;
        thread::sleep(REST);
    }
}

/// The middle of the times that updates took from the proposal until the last sleeping site had them.
fn wake(job: &Job) -> (Duration, usize) {
    let start = Instant::now();
    let stamps: Vec<_> = (0..job.sites).map(|_| (AtomicUsize::new(0), AtomicU64::new(0))).collect();
    let told = |index: usize, number: usize| {
        let (last, time) = &stamps[index];
        time.store(start.elapsed().as_nanos() as u64, Ordering::SeqCst);
        last.store(number, Ordering::SeqCst);
    };
    let mut took = serve(job, told, |cluster| {
        let mut session = Session::default();
        let mut took = Vec::new();
        for index in 0..job.count {
            thread::sleep(LONG_REST);
            let began = start.elapsed().as_nanos() as u64;
            let Some(number) = cluster.propose(&mut session, &next_set(0, index)) else { continue };
            let mut ended = 0;
            for (last, time) in &stamps {
                while last.load(Ordering::SeqCst) < number {
                    thread::sleep(LONG_REST);
                }
                ended = ended.max(time.load(Ordering::SeqCst));
            }
            took.push(ended.saturating_sub(began));
        }
        took
    });
    took.sort_unstable();
    let middle = took.get(took.len() / 2).copied().unwrap_or(0);
    (Duration::from_nanos(middle), took.len())
}

/// Callers that wait until their updates are acknowledged.
fn rounds(job: &Job) -> (Duration, usize) {
    serve(job, |_, _| {}, |cluster| {
        in_threads(job.threads, |caller| {
            let mut session = Session::default();
            (0..job.count).filter(|&index| cluster.propose(&mut session, &next_set(caller, index)).is_some()).count()
        })
    })
}

fn idle(job: &Job) -> (Duration, usize) {
    serve(job, |_, _| {}, |_| thread::sleep(Duration::from_millis(job.count as u64)));
    (Duration::ZERO, 0)
}

fn main() -> ExitCode {
    let words: Vec<String> = env::args().skip(1).collect();
    let numbers: Vec<usize> = words.iter().skip(1).filter_map(|word| word.parse().ok()).collect();
    let ([kind, ..], &[sites, threads, count, limit]) = (&words[..], &numbers[..]) else {
        eprintln!("usage: plain_threads KIND SITES THREADS COUNT LIMIT");
        return ExitCode::from(2);
    };
    let job = Job { kind: kind.clone(), sites, threads, count, limit: limit as u64 };
    let (took, done) = match kind.as_str() {
        "reads-own" | "reads-one" | "reads-beside" | "queries" => reads(&job),
        "wake" => wake(&job),
        "rounds" | "epochs" => rounds(&job),
        "idle" => idle(&job),
        _ => {
            eprintln!("plain_threads: there is no load {kind}");
            return ExitCode::from(2);
        }
    };
    println!("{} {done}", took.as_nanos());
    ExitCode::SUCCESS
}

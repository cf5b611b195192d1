//! cluster WAY LOAD THREADS SECONDS: measures a cluster of a program in Rust, or what its users would take instead, and prints a number.
//! bench/clients/clusters tells the loads, and makes this the src/main.rs of a crate. That has the feature `crates` where there are
//! `arc-swap` and `dashmap`.

use ordup::cluster::{Builder, Cluster, ObjectId, Scope, Session, SiteId, FOREVER};
use std::collections::HashMap;
use std::hint::black_box;
use std::sync::atomic::{AtomicBool, Ordering};
use std::sync::{Barrier, Mutex, RwLock};
use std::time::{Duration, Instant};
use std::{env, fs, thread};

const SITES: usize = 4;
const OBJECTS: u32 = 64;
const CLUSTERS: usize = 100;
const UPDATES: u64 = 100_000;

/// Calls of threads, each of which makes one for each object in a batch.
trait Way: Sync {
    /// How many updates there may be, after which a load ends.
    const MOST: u64 = u64::MAX;
    type Session: Default;
    fn read(&self, session: &mut Self::Session, at: usize);
    fn update(&self, session: &mut Self::Session);
}

struct Ordup {
    cluster: Cluster,
    objects: Vec<ObjectId>,
    sites: Vec<SiteId>,
}

impl Ordup {
    fn open(limit: Option<u64>) -> Ordup {
        let mut builder = Builder::new().unwrap();
        let objects = (0..OBJECTS).map(|at| builder.object(&format!("x{at}"), 0).unwrap()).collect();
        let sites: Vec<_> = (0..SITES).map(|at| builder.site(&format!("s{at}"), 1024).unwrap()).collect();
        if let Some(amount) = limit {
            sites.iter().for_each(|site| builder.limit(*site, Scope::All, amount).unwrap());
        }
        Ordup { cluster: builder.open().unwrap(), objects, sites }
    }
}

impl Way for Ordup {
    /// A log has a million at most.
    const MOST: u64 = 900_000;
    type Session = Session;

    fn read(&self, session: &mut Session, at: usize) {
        for object in &self.objects {
            black_box(self.cluster.read(session, self.sites[at], *object).unwrap());
        }
    }

    fn update(&self, session: &mut Session) {
        for (object, id) in (0..OBJECTS).zip(&self.objects) {
            self.cluster.propose(session, &[id.add(by(object))], FOREVER).unwrap();
        }
    }
}

/// Numbers, and how many updates were applied to them, where no other thread's line of the cache is.
#[repr(align(128))]
struct Array(Mutex<([i64; OBJECTS as usize], u64)>);

impl Way for [Array; SITES] {
    type Session = u64;

    fn read(&self, seen: &mut u64, at: usize) {
        for object in 0..OBJECTS as usize {
            let array = self[at].0.lock().unwrap();
            black_box(array.0[object]);
            *seen = array.1.max(*seen);
        }
    }

    fn update(&self, _: &mut u64) {
        for object in 0..OBJECTS as usize {
            for array in self {
                let mut array = array.0.lock().unwrap();
                array.0[object] += by(object as u32);
                array.1 += 1;
            }
        }
    }
}

fn by(object: u32) -> i64 {
    if object % 2 == 0 { 1 } else { -1 }
}

fn map() -> HashMap<u32, i64> {
    (0..OBJECTS).map(|object| (object, 0)).collect()
}

impl Way for RwLock<HashMap<u32, i64>> {
    type Session = ();

    fn read(&self, _: &mut (), _: usize) {
        for object in 0..OBJECTS {
            black_box(self.read().unwrap().get(&object).copied());
        }
    }

    fn update(&self, _: &mut ()) {
        for object in 0..OBJECTS {
            *self.write().unwrap().entry(object).or_default() += by(object);
        }
    }
}

#[cfg(feature = "crates")]
impl Way for arc_swap::ArcSwap<HashMap<u32, i64>> {
    type Session = ();

    fn read(&self, _: &mut (), _: usize) {
        for object in 0..OBJECTS {
            black_box(self.load().get(&object).copied());
        }
    }

    fn update(&self, _: &mut ()) {
        for object in 0..OBJECTS {
            self.rcu(|map| {
                let mut map = HashMap::clone(map);
                *map.entry(object).or_default() += by(object);
                map
            });
        }
    }
}

#[cfg(feature = "crates")]
impl Way for dashmap::DashMap<u32, i64> {
    type Session = ();

    fn read(&self, _: &mut (), _: usize) {
        for object in 0..OBJECTS {
            black_box(self.get(&object).map(|value| *value));
        }
    }

    fn update(&self, _: &mut ()) {
        for object in 0..OBJECTS {
            *self.entry(object).or_default() += by(object);
        }
    }
}

/// How many calls a second so many threads make, beside one that makes updates where there is a writer.
fn rate<W: Way>(way: &W, load: &str, threads: usize, seconds: f64) -> f64 {
    let (reads, has_writer) = (load.starts_with("reads-"), load == "reads-beside");
    let (start, is_over) = (Barrier::new(1 + threads + usize::from(has_writer)), AtomicBool::new(false));
    let call = |most: u64, batch: &dyn Fn(&mut W::Session)| {
        let (mut session, mut made) = (W::Session::default(), 0);
        start.wait();
        let begun = Instant::now();
        while made == 0 || !is_over.load(Ordering::Relaxed) && made < most {
            batch(&mut session);
            made += u64::from(OBJECTS);
        }
        is_over.fetch_or(made >= most, Ordering::Relaxed);
        made as f64 / begun.elapsed().as_secs_f64()
    };
    let write = |most| call(most, &|session| way.update(session));
    let read = |at| call(u64::MAX, &|session| way.read(session, at));
    let each = |me| match load {
        "reads-one" => read(0),
        _ if reads => read(me % SITES),
        _ => write(W::MOST / threads as u64),
    };
    thread::scope(|scope| {
        let (each, write) = (&each, &write);
        let callers: Vec<_> = (0..threads).map(|me| scope.spawn(move || each(me))).collect();
        if has_writer {
            scope.spawn(move || write(W::MOST));
        }
        start.wait();
        thread::sleep(Duration::from_secs_f64(seconds));
        is_over.store(true, Ordering::Relaxed);
        callers.into_iter().map(|caller| caller.join().unwrap()).sum()
    })
}

extern "C" {
    /// Microseconds of the processors, by the C library.
    fn clock() -> std::ffi::c_long;
}

/// Seconds of the processors in so many seconds without a call.
fn idle(seconds: f64) -> f64 {
    let it = Ordup::open(Some(0));
    it.cluster.propose(&mut Session::default(), &[it.objects[0].add(1)], FOREVER).unwrap();
    thread::sleep(Duration::from_millis(100));
    let used = || unsafe { clock() } as f64 * 1e-6;
    let before = used();
    thread::sleep(Duration::from_secs_f64(seconds));
    used() - before
}

/// How many bytes are resident, with pages as the processors of x86 have them.
fn resident() -> f64 {
    let said = fs::read_to_string("/proc/self/statm").unwrap();
    said.split(' ').nth(1).unwrap().parse::<f64>().unwrap() * 4096.0
}

fn of_a_cluster() -> f64 {
    let before = resident();
    let clusters: Vec<_> = (0..CLUSTERS).map(|_| Ordup::open(None)).collect();
    (resident() - before) / clusters.len() as f64
}

fn of_an_update() -> f64 {
    let (it, mut session, mut made) = (Ordup::open(None), Session::default(), 0);
    let before = resident();
    while made < UPDATES {
        it.update(&mut session);
        made += u64::from(OBJECTS);
    }
    it.cluster.finish(FOREVER).unwrap();
    (resident() - before) / made as f64
}

fn main() {
    let words: Vec<_> = env::args().collect();
    let (way, load, threads, seconds) = (&words[1][..], &words[2][..], words[3].parse().unwrap(), words[4].parse().unwrap());
    let limit = load.strip_prefix("round-").map(|amount| amount.parse().unwrap());
    let arrays = || [(); SITES].map(|()| Array(Mutex::new(([0; OBJECTS as usize], 0))));
    let number = match (way, load) {
        ("ordup", "idle") => idle(seconds),
        ("ordup", "memory") => of_a_cluster(),
        ("ordup", "memory-update") => of_an_update(),
        ("ordup", _) => rate(&Ordup::open(limit), load, threads, seconds),
        ("array", _) => rate(&arrays(), load, threads, seconds),
        ("map", _) => rate(&RwLock::new(map()), load, threads, seconds),
        #[cfg(feature = "crates")]
        ("arc-swap", _) => rate(&arc_swap::ArcSwap::from_pointee(map()), load, threads, seconds),
        #[cfg(feature = "crates")]
        ("dashmap", _) => rate(&map().into_iter().collect::<dashmap::DashMap<_, _>>(), load, threads, seconds),
        _ => panic!("there is no way {way}"),
    };
    println!("{number:.9}");
}

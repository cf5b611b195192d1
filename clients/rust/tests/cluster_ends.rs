//! What a cluster leaves behind, and what it takes at rest: one test in a process of its own.
#![cfg(target_os = "linux")]

use ordup::cluster::{Builder, Scope, Session, FOREVER};
use std::time::{Duration, Instant};
use std::{fs, thread};

fn threads() -> usize {
    fs::read_dir("/proc/self/task").unwrap().count()
}

/// How long the processors have worked for this process, in ticks of 10 ms.
fn ticks() -> u64 {
    let stat = fs::read_to_string("/proc/self/stat").unwrap();
    let fields: Vec<_> = stat.rsplit(')').next().unwrap().split_whitespace().collect();
    fields[11].parse::<u64>().unwrap() + fields[12].parse::<u64>().unwrap()
}

/// A thread may be seen for a moment after it was joined.
fn come_to(count: usize) -> bool {
    let end = Instant::now() + Duration::from_secs(10);
    while threads() != count && Instant::now() < end {
        thread::sleep(Duration::from_millis(1));
    }
    threads() == count
}

#[test]
fn a_cluster_at_rest_takes_nothing_and_a_dropped_one_leaves_no_thread() {
    let before = threads();
    let mut builder = Builder::new().unwrap();
    let (tea, shop) = (builder.object("tea", 40).unwrap(), builder.site("shop", 4).unwrap());
    let yard = builder.site("yard", 4).unwrap();
    builder.limit(shop, Scope::Count, 0).unwrap();
    let cluster = builder.open().unwrap();
    assert_eq!(threads(), before + 3);
    let mut session = Session::default();
    cluster.propose(&mut session, &[tea.add(1)], FOREVER).unwrap();
    cluster.read_when_level(&mut session, yard, tea, FOREVER).unwrap();
    let worked = thread::scope(|scope| {
        let waiting = scope.spawn(|| cluster.read_when_level(&mut Session { seen: 9 }, shop, tea, FOREVER));
        thread::sleep(Duration::from_millis(100));
        let from = ticks();
        thread::sleep(Duration::from_secs(2));
        let worked = ticks() - from;
        cluster.stop();
        assert!(waiting.join().unwrap().is_err());
        worked
    });
    assert!(worked <= 5, "it worked {worked} ticks of 200");
    drop(cluster);
    assert!(come_to(before));
    let cluster = builder.open().unwrap();
    cluster.propose(&mut session, &[tea.add(1)], FOREVER).unwrap();
    let mut closed = cluster.close().unwrap();
    assert!(come_to(before));
    drop(closed.successor().unwrap());
    drop(closed);
    assert!(come_to(before));
}

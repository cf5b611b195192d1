//! Threads of a cluster sleep and are woken, ORDUP_SLEEPS times: one test in a process of its own, whose sleeps are those that the system has
//! counted, also at a lock.
#![cfg(target_os = "linux")]

use ordup::cluster::{Builder, Error, Scope, Session, FOREVER};
use std::sync::atomic::{AtomicU64, Ordering};
use std::time::Duration;
use std::{env, fs, thread};

/// Longer than a wake-up takes: one that is lost is a call that does not end in this time.
const TIME: Duration = Duration::from_secs(60);

/// How often the threads of this process gave up their processor to wait.
fn sleeps() -> u64 {
    let tasks = fs::read_dir("/proc/self/task").unwrap().flatten();
    // A thread may end meanwhile.
    let statuses = tasks.filter_map(|task| fs::read_to_string(task.path().join("status")).ok());
    statuses.map(|status| field(&status, "\nvoluntary_ctxt_switches:")).sum()
}

fn field(status: &str, name: &str) -> u64 {
    status.split(name).nth(1).and_then(|rest| rest.split_whitespace().next()).map_or(0, |number| number.parse().unwrap())
}

#[test]
fn each_sleeper_is_woken() {
    let most = env::var("ORDUP_SLEEPS").map_or(20_000, |text| text.parse().unwrap());
    let mut builder = Builder::new().unwrap();
    let tea = builder.object("tea", 0).unwrap();
    let sites = ["shop", "yard", "dock"].map(|name| builder.site(name, 8).unwrap());
    builder.limit(sites[0], Scope::Count, 0).unwrap();
    builder.limit(sites[1], Scope::Count, 2).unwrap();
    let cluster = builder.open().unwrap();
    let (slept, updates, reads) = (AtomicU64::new(0), AtomicU64::new(0), AtomicU64::new(0));
    let goes_on = || slept.load(Ordering::SeqCst) < most;
    thread::scope(|scope| {
        let callers = [0, 1].map(|me| {
            let (cluster, goes_on, updates) = (&cluster, &goes_on, &updates);
            scope.spawn(move || {
                let mut session = Session::default();
                for turn in me.. {
                    if !goes_on() {
                        break;
                    }
                    // Each eighth update is left to the keeper.
                    match cluster.propose(&mut session, &[tea.add(1)], if turn % 8 == 0 { Duration::ZERO } else { TIME }) {
                        Ok(number) => assert_eq!(session.seen, number),
                        Err(Error::NotYet { number }) if turn % 8 == 0 => {
                            cluster.read_when_level(&mut Session { seen: number }, sites[0], tea, TIME).unwrap();
                            cluster.settle(&mut session, number, TIME).unwrap();
                        }
                        Err(why) => panic!("{why}"),
                    }
                    updates.fetch_add(1, Ordering::SeqCst);
                }
            })
        });
        for site in &sites[1..] {
            let (cluster, goes_on, reads) = (&cluster, &goes_on, &reads);
            scope.spawn(move || {
                let mut session = Session::default();
                while goes_on() {
                    // It waits for an update that is not there yet.
                    session.seen += 1;
                    match cluster.read_when_level(&mut session, *site, tea, TIME) {
                        Ok(seen) => assert_eq!(seen.value as u64, seen.applied),
                        Err(Error::Behind { .. }) if !goes_on() => break,
                        Err(why) => panic!("{why}"),
                    }
                    reads.fetch_add(1, Ordering::SeqCst);
                }
            });
        }
        let _stop = cluster.stop_on_drop(); // once the callers have ended, or one has panicked
        while goes_on() && callers.iter().all(|caller| !caller.is_finished()) {
            thread::sleep(Duration::from_millis(5));
            slept.store(sleeps(), Ordering::SeqCst);
        }
        callers.into_iter().for_each(|caller| caller.join().unwrap());
        cluster.finish(FOREVER).unwrap();
    });
    cluster.close().unwrap();
    println!("{} sleeps, {} updates, {} reads that waited", slept.into_inner(), updates.into_inner(), reads.into_inner());
}

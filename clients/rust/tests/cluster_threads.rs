//! Many threads at one cluster: what each reads is what it was promised, over some epochs, and the records are right.
//!
//! ORDUP_UPDATES is how many updates each caller makes in an epoch, and ORDUP_EPOCHS how many of these there are. ORDUP_PROGRAM is `ordup`,
//! which then audits the records too. The folder ORDUP_RECORDS, if it is named, gets them: `EPOCH_SITE.csv`.

use ordup::cluster::{Builder, Change, Cluster, Condition, Error, ObjectId, Refusal, Scope, Session, SiteId, FOREVER};
use ordup::{check, check_series, SeriesVerdict, Verdict};
use std::io::Write;
use std::path::Path;
use std::process::{Command, Stdio};
use std::sync::atomic::{AtomicBool, AtomicU64, Ordering};
use std::time::Duration;
use std::{env, fs, thread};

const CALLERS: usize = 4;

/// What all threads did.
#[derive(Default)]
struct Counts {
    later: AtomicU64,
    unmet: AtomicU64,
    reads: AtomicU64,
    behind: AtomicU64,
    queries: AtomicU64,
    over: AtomicU64,
    limits: AtomicU64,
}

fn count(which: &AtomicU64, more: usize) {
    which.fetch_add(more as u64, Ordering::Relaxed);
}

/// Each update adds 1 to its caller's own object and to `total`, which so is the number of the last update before it. Some take 1 of the
/// stock, if there is any.
struct Plan {
    own: Vec<ObjectId>,
    total: ObjectId,
    stock: ObjectId,
    sites: Vec<SiteId>,
    updates: u64,
    counts: Counts,
}

fn variable(name: &str, otherwise: u64) -> u64 {
    env::var(name).map_or(otherwise, |text| text.parse().unwrap())
}

impl Plan {
    fn open() -> (Plan, Cluster) {
        let updates = variable("ORDUP_UPDATES", 500);
        let mut builder = Builder::new().unwrap();
        let own: Vec<_> = (0..CALLERS).map(|me| builder.object(&format!("own{me}"), 0).unwrap()).collect();
        let (total, stock) = (builder.object("total", 0).unwrap(), builder.object("stock", updates as i64).unwrap());
        let group = builder.group("all_own", &own).unwrap();
        let sites: Vec<_> = (0..4).map(|site| builder.site(&format!("site{site}"), 1 << (2 * site)).unwrap()).collect();
        builder.limit(sites[0], Scope::Count, 0).unwrap();
        builder.limit(sites[1], Scope::All, 10).unwrap();
        builder.limit(sites[2], Scope::Object(total), 5).unwrap();
        builder.limit(sites[3], Scope::Group(group), 50).unwrap();
        let cluster = builder.open().unwrap();
        (Plan { own, total, stock, sites, updates, counts: Counts::default() }, cluster)
    }

    /// Proposes an update, and settles it where that did not wait. It answers whether the conditions were met.
    fn propose(&self, cluster: &Cluster, session: &mut Session, changes: &[Change], conditions: &[Condition], timeout: Duration) -> bool {
        let before = session.seen;
        match cluster.propose_if(session, changes, conditions, timeout) {
            Ok(number) => assert_eq!(session.seen, number),
            Err(Error::NotYet { number }) => {
                assert_eq!(timeout, Duration::ZERO);
                assert!(session.seen < number);
                cluster.settle(session, number, FOREVER).unwrap();
                assert_eq!(session.seen, number);
                count(&self.counts.later, 1);
            }
            Err(Error::Unmet { index: 0 }) => {
                assert_eq!((conditions.len(), session.seen), (1, before));
                count(&self.counts.unmet, 1);
                return false;
            }
            Err(why) => panic!("{why}"),
        }
        true
    }

    /// A caller: it sees what it did, at each site. It answers how many sales it made.
    fn call(&self, cluster: &Cluster, me: usize, session: &mut Session, done: &mut i64) -> u64 {
        let mut sales = 0;
        for update in 0..self.updates {
            let own = self.own[me];
            let changes = [own.add(1), self.total.add(1), self.stock.add(-1)];
            let timeout = if update % 8 == 3 { Duration::ZERO } else { FOREVER };
            let is_sale = update % 2 == 0 && self.propose(cluster, session, &changes, &[self.stock.at_least(0)], timeout);
            assert!(is_sale || self.propose(cluster, session, &changes[..2], &[], timeout));
            sales += u64::from(is_sale);
            *done += 1;
            let (site, before) = (self.sites[(update as usize + me) % self.sites.len()], session.seen);
            match cluster.read(session, site, own) {
                Ok(seen) => {
                    assert_eq!((seen.value, seen.applied >= before), (*done, true));
                    count(&self.counts.reads, 1);
                }
                Err(Error::Behind { applied }) => {
                    assert!(applied < before);
                    count(&self.counts.behind, 1);
                }
                Err(why) => panic!("{why}"),
            }
            assert_eq!(cluster.read_when_level(session, site, own, FOREVER).unwrap().value, *done);
            count(&self.counts.reads, 1);
        }
        sales
    }

    /// A reader at one site: its values are those after just the updates that the site had applied, and it never goes back.
    fn look(&self, cluster: &Cluster, site: SiteId, session: &mut Session) {
        let before = session.seen;
        let seen = cluster.read(session, site, self.total).unwrap();
        assert_eq!((seen.value, seen.applied >= before, session.seen), (seen.applied as i64, true, seen.applied));
        let objects: Vec<_> = [self.total, self.stock].iter().chain(&self.own).copied().collect();
        let snapshot = cluster.read_many(session, site, &objects).unwrap();
        assert_eq!(snapshot.values[0], snapshot.applied as i64);
        assert_eq!(snapshot.values[2..].iter().sum::<i64>(), snapshot.values[0]);
        assert!(snapshot.values[1] >= 0 && snapshot.applied >= seen.applied);
        count(&self.counts.reads, 2);
        for lag in cluster.lags(site).unwrap() {
            assert!(lag.lag <= lag.limit, "{lag:?}");
        }
        let (of, numbers) = (cluster.site_numbers(site).unwrap(), cluster.numbers());
        assert!(of.reported <= of.applied && of.applied <= of.sent && snapshot.applied <= of.applied && of.sent <= cluster.numbers().length);
        assert!(numbers.before <= numbers.acknowledged && numbers.acknowledged <= numbers.length);
    }

    fn query(&self, cluster: &Cluster, site: SiteId) {
        let mut query = cluster.query(site, 30).unwrap();
        let reads: Vec<_> = (0..3).map(|_| query.read(self.total)).take_while(|read| *read != over_import()).map(Result::unwrap).collect();
        let ended = query.end().unwrap();
        count(&self.counts.queries, 1);
        count(&self.counts.over, usize::from(reads.len() < 3));
        for read in &reads {
            assert!(read.value.abs_diff(ended.place as i64) <= read.import && read.total <= 30 && read.place == ended.place);
        }
        assert_eq!(ended.total, reads.iter().map(|read| read.import).sum::<u64>());
        assert_eq!((ended.sum, ended.reads), (reads.iter().map(|read| read.value).sum(), reads.len() as u64));
    }

    fn relimit(&self, cluster: &Cluster, amount: u64) {
        match cluster.relimit(self.sites[3], Scope::All, amount) {
            Ok(place) => {
                assert!(place > cluster.numbers().before);
                count(&self.counts.limits, 1);
            }
            Err(why) => assert!(matches!(why, Error::Refused(Refusal::HeadPending | Refusal::LagOver | Refusal::TooMany)), "{why}"),
        }
    }

    fn tell(&self, updates: i64, sales: u64) {
        let Counts { later, unmet, reads, behind, queries, over, limits } = &self.counts;
        println!(
            "{updates} updates, {later:?} settled later, {sales} with conditions met, {unmet:?} not met, {limits:?} limits changed, \
             {reads:?} reads, {behind:?} behind, {queries:?} queries, {over:?} over"
        );
    }

    /// All threads of an epoch. It answers how many sales were made.
    fn epoch(&self, cluster: &Cluster, sessions: &mut [Session], done: &mut [i64]) -> u64 {
        let (is_over, sales) = (AtomicBool::new(false), AtomicU64::new(0));
        thread::scope(|scope| {
            for site in &self.sites {
                let is_over = &is_over;
                scope.spawn(move || {
                    let (mut session, mut round) = (Session::default(), 0);
                    while !is_over.load(Ordering::SeqCst) {
                        self.look(cluster, *site, &mut session);
                        self.query(cluster, *site);
                        self.relimit(cluster, 20 + round % 40);
                        round += 1;
                        thread::yield_now();
                    }
                });
            }
            let callers: Vec<_> = sessions.iter_mut().zip(done.iter_mut()).enumerate().collect();
            let callers: Vec<_> = callers
                .into_iter()
                .map(|(me, (session, done))| scope.spawn(move || self.call(cluster, me, session, done)))
                .collect();
            let made: Vec<_> = callers.into_iter().map(|caller| caller.join()).collect();
            is_over.store(true, Ordering::SeqCst);
            sales.store(made.into_iter().map(|it| it.unwrap()).sum(), Ordering::SeqCst);
        });
        sales.into_inner()
    }
}

fn over_import<T>() -> Result<T, Error> {
    Err(Error::Refused(Refusal::OverImport))
}

/// What the program says of a record, or of a series, if there is one.
fn audited(words: &[&str], record: &str) {
    if let Some(program) = env::var_os("ORDUP_PROGRAM") {
        let mut child = Command::new(program).args(words).stdin(Stdio::piped()).stdout(Stdio::piped()).spawn().unwrap();
        child.stdin.take().unwrap().write_all(record.as_bytes()).unwrap();
        let said = child.wait_with_output().unwrap();
        assert!(said.status.success() && said.stdout.starts_with(b"yes "), "{said:?}");
    }
}

#[test]
fn four_callers_at_four_sites_over_some_epochs() {
    let (plan, mut cluster) = Plan::open();
    let (mut sessions, mut done, mut sales) = (vec![Session::default(); CALLERS], vec![0; CALLERS], 0);
    let (mut series, folder) = (vec![String::new(); plan.sites.len()], env::var_os("ORDUP_RECORDS"));
    for epoch in 0..variable("ORDUP_EPOCHS", 3) {
        sales += plan.epoch(&cluster, &mut sessions, &mut done);
        cluster.finish(FOREVER).unwrap();
        let mut closed = cluster.close().unwrap();
        for (at, (site, series)) in plan.sites.iter().zip(&mut series).enumerate() {
            let left = closed.read_many(&mut Session::default(), *site, &[plan.total, plan.stock]).unwrap().values;
            assert_eq!(left, [done.iter().sum(), plan.updates as i64 - sales as i64]);
            let (record, rounds) = (closed.record(*site).unwrap(), closed.site_numbers(*site).unwrap().rounds);
            assert_eq!(check(record.as_bytes()), Ok(Verdict::Yes { rounds }));
            match &folder {
                Some(folder) => fs::write(Path::new(folder).join(format!("{epoch}_{at}.csv")), record).unwrap(),
                None => {
                    audited(&["check"], &record);
                    series.push_str(&record);
                }
            }
        }
        cluster = closed.successor().unwrap();
    }
    assert_eq!(sales, plan.updates, "each bag of the stock is sold once");
    plan.tell(done.iter().sum(), sales);
    if folder.is_some() {
        return; // whoever has the records audits them
    }
    for series in series {
        assert!(matches!(check_series(series.as_bytes()), Ok(SeriesVerdict::Yes { .. })));
        audited(&["check", "--series"], &series);
    }
}

/// A site that has no applier, for which each update waits.
fn held_up() -> (Cluster, ObjectId, SiteId) {
    let mut builder = Builder::new().unwrap();
    let (tea, shop) = (builder.object("tea", 40).unwrap(), builder.site("shop", 4).unwrap());
    builder.limit(shop, Scope::Count, 0).unwrap();
    (builder.without_threads().open().unwrap(), tea, shop)
}

#[test]
fn a_stop_wakes_and_answers_who_waits() {
    let (cluster, tea, shop) = held_up();
    thread::scope(|scope| {
        let callers: Vec<_> = (0..3).map(|_| scope.spawn(|| cluster.propose(&mut Session::default(), &[tea.add(1)], FOREVER))).collect();
        let reader = scope.spawn(|| cluster.read_when_level(&mut Session { seen: 1 }, shop, tea, FOREVER));
        let finisher = scope.spawn(|| {
            while cluster.numbers().length < 3 {
                thread::yield_now();
            }
            cluster.finish(FOREVER)
        });
        while cluster.numbers().length < 3 {
            thread::yield_now();
        }
        thread::sleep(Duration::from_millis(20));
        cluster.stop();
        let mut numbers: Vec<_> = callers.into_iter().map(|caller| caller.join().unwrap()).collect();
        numbers.sort_by_key(|answer| format!("{answer:?}"));
        assert_eq!(numbers, [1, 2, 3].map(|number| Err(Error::NotYet { number })));
        assert_eq!(reader.join().unwrap(), Err(Error::Behind { applied: 0 }));
        assert_eq!(finisher.join().unwrap(), Err(Error::Unfinished));
    });
}

#[test]
fn a_panic_with_the_guard_wakes_who_waits() {
    let (cluster, tea, _) = held_up();
    thread::scope(|scope| {
        let waiting = scope.spawn(|| cluster.propose(&mut Session::default(), &[tea.add(1)], FOREVER));
        let panicking = scope.spawn(|| {
            let _stop = cluster.stop_on_drop();
            while cluster.numbers().length == 0 {
                thread::yield_now();
            }
            panic!("as the test wants");
        });
        assert!(panicking.join().is_err());
        assert_eq!(waiting.join().unwrap(), Err(Error::NotYet { number: 1 }));
    });
    cluster.close().unwrap();
}

#[test]
fn a_panic_of_a_caller_leaves_the_others() {
    let (plan, cluster) = Plan::open();
    thread::scope(|scope| {
        let others: Vec<_> = (1..CALLERS)
            .map(|me| {
                let (plan, cluster) = (&plan, &cluster);
                scope.spawn(move || plan.call(cluster, me, &mut Session::default(), &mut 0))
            })
            .collect();
        let panicking = scope.spawn(|| {
            let (mut session, mut query) = (Session::default(), cluster.query(plan.sites[0], 1000).unwrap());
            cluster.propose(&mut session, &[plan.own[0].add(1), plan.total.add(1)], FOREVER).unwrap();
            query.read(plan.total).unwrap();
            assert_eq!(cluster.propose(&mut session, &[plan.own[0].add(1), plan.total.add(1)], Duration::ZERO), Ok(0), "as the test wants");
        });
        assert!(panicking.join().is_err());
        others.into_iter().for_each(|other| assert!(other.join().is_ok()));
    });
    cluster.finish(FOREVER).unwrap();
    let closed = cluster.close().unwrap();
    for site in &plan.sites {
        assert!(matches!(check(closed.record(*site).unwrap().as_bytes()), Ok(Verdict::Yes { .. })));
    }
}

#[test]
fn a_stop_at_any_time_ends_all_waits() {
    for round in 0..60 {
        let (plan, cluster) = Plan::open();
        thread::scope(|scope| {
            for own in &plan.own {
                let (plan, cluster) = (&plan, &cluster);
                scope.spawn(move || {
                    let mut session = Session::default();
                    let why = loop {
                        let changes = [own.add(1), plan.total.add(1)];
                        let made = cluster.propose(&mut session, &changes, FOREVER);
                        let read = cluster.read_when_level(&mut session, plan.sites[3], *own, FOREVER);
                        if let Some(why) = made.err().or(read.err()) {
                            break why;
                        }
                    };
                    assert!(matches!(why, Error::Stopped | Error::NotYet { .. } | Error::Behind { .. }), "{why}");
                });
            }
            let late = scope.spawn(|| cluster.read_when_level(&mut Session { seen: u64::MAX }, plan.sites[1], plan.total, FOREVER));
            thread::sleep(Duration::from_micros(round * 50));
            cluster.stop();
            assert!(matches!(late.join().unwrap(), Err(Error::Behind { .. })));
        });
        let closed = cluster.close().unwrap();
        for site in &plan.sites {
            assert!(matches!(check(closed.record(*site).unwrap().as_bytes()), Ok(Verdict::Yes { .. })));
        }
    }
}

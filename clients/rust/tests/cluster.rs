//! What the calls of a cluster give, where nothing is wrong and where something is, by one thread. The answers are worked out by hand.

use ordup::cluster::{
    Builder, Charged, Closed, Cluster, Ended, Error, GroupId, Lag, Numbers, ObjectId, Query, Refusal, Scope, Seen, Session, SiteId,
    SiteNumbers, Snapshot, Unclosed, FOREVER,
};
use ordup::{check, check_series, SeriesVerdict, Verdict};
use std::sync::Arc;
use std::thread;
use std::time::{Duration, Instant};

const SOON: Duration = Duration::from_millis(20);

fn refused<T>(refusal: Refusal) -> Result<T, Error> {
    Err(Error::Refused(refusal))
}

/// 40 bags of tea and no rye. Each update waits for the shop; the yard waits for nobody.
struct Shop {
    builder: Builder,
    tea: ObjectId,
    rye: ObjectId,
    leaves: GroupId,
    shop: SiteId,
    yard: SiteId,
}

fn declared() -> Shop {
    let mut builder = Builder::new().unwrap();
    let (tea, rye) = (builder.object("tea", 40).unwrap(), builder.object("rye", 0).unwrap());
    let leaves = builder.group("leaves", &[tea, rye]).unwrap();
    let (shop, yard) = (builder.site("shop", 4).unwrap(), builder.site("yard", 4).unwrap());
    builder.limit(shop, Scope::Count, 0).unwrap();
    Shop { builder, tea, rye, leaves, shop, yard }
}

#[test]
fn what_may_go_to_another_thread() {
    fn is_send<T: Send>() {}
    fn is_shared<T: Send + Sync>() {}
    is_shared::<Cluster>();
    is_shared::<Closed>();
    is_shared::<Unclosed>();
    is_shared::<Session>();
    is_shared::<Error>();
    is_send::<Builder>();
    is_send::<Query<'static>>();
}

#[test]
fn declarations_and_their_refusals() {
    let Shop { mut builder, tea, rye, shop, .. } = declared();
    assert_eq!(builder.object("tea", 1), refused(Refusal::NameTaken));
    assert_eq!(builder.object("Tea", 1), refused(Refusal::BadName));
    assert_eq!(builder.object("", 1), refused(Refusal::BadName));
    assert_eq!(builder.object("oats", i64::MAX), refused(Refusal::OutOfRange));
    assert_eq!(builder.group("none", &[]), refused(Refusal::Empty));
    assert_eq!(builder.group("twice", &[tea, rye, tea]), refused(Refusal::Repeated));
    assert_eq!(builder.site("shop", 4), refused(Refusal::NameTaken));
    assert_eq!(builder.limit(shop, Scope::Count, 4), refused(Refusal::Repeated));
    assert_eq!(builder.limit(shop, Scope::All, u64::MAX), refused(Refusal::OutOfRange));
    assert_eq!(Builder::new().unwrap().open().err(), Some(Error::Refused(Refusal::Empty)));
    assert_eq!(builder.after(1_000_000_000_000_000_001).open().err(), Some(Error::Refused(Refusal::LogFull)));
    let cluster = builder.after(1_000_000_000_000_000_000).open().unwrap();
    assert_eq!(cluster.numbers().length, 1_000_000_000_000_000_000);
    assert_eq!(cluster.sites().len(), 2);
}

#[test]
fn ids_of_another_cluster_are_refused() {
    let Shop { mut builder, tea, .. } = declared();
    let mut many = Builder::new().unwrap();
    let objects: Vec<_> = (0..3).map(|at| many.object(&format!("x{at}"), 0).unwrap()).collect();
    let group = (0..2).map(|at| many.group(&format!("g{at}"), &objects).unwrap()).last().unwrap();
    let site = (0..3).map(|at| many.site(&format!("s{at}"), 1).unwrap()).last().unwrap();
    let (cluster, mut session, object) = (builder.open().unwrap(), Session::default(), objects[2]);
    let shop = cluster.sites().next().unwrap();
    assert_eq!(builder.limit(site, Scope::All, 1), refused(Refusal::UnknownSite));
    assert_eq!(builder.limit(shop, Scope::Object(object), 1), refused(Refusal::UnknownObject));
    assert_eq!(builder.limit(shop, Scope::Group(group), 1), refused(Refusal::UnknownGroup));
    assert_eq!(builder.group("other", &[object]), refused(Refusal::UnknownObject));
    assert_eq!(cluster.propose(&mut session, &[object.add(1)], FOREVER), refused(Refusal::UnknownObject));
    assert_eq!(cluster.propose(&mut session, &[tea.take(object)], FOREVER), refused(Refusal::UnknownObject));
    assert_eq!(cluster.propose_if(&mut session, &[tea.add(1)], &[object.at_most(9)], FOREVER), refused(Refusal::UnknownObject));
    assert_eq!(cluster.read(&mut session, site, tea), refused(Refusal::UnknownSite));
    assert_eq!(cluster.read(&mut session, shop, object), refused(Refusal::UnknownObject));
    assert_eq!(cluster.read_many(&mut session, site, &[tea]), refused(Refusal::UnknownSite));
    assert_eq!(cluster.read_many(&mut session, shop, &[tea, object]), refused(Refusal::UnknownObject));
    assert_eq!(cluster.query(site, 1).err(), Some(Error::Refused(Refusal::UnknownSite)));
    assert_eq!(cluster.query(shop, 1).unwrap().read(object), refused(Refusal::UnknownObject));
    assert_eq!(cluster.relimit(site, Scope::All, 1), refused(Refusal::UnknownSite));
    assert_eq!(cluster.site_numbers(site), refused(Refusal::UnknownSite));
    assert_eq!(cluster.lags(site), refused(Refusal::UnknownSite));
    assert_eq!(cluster.record(site), refused(Refusal::UnknownSite));
    assert_eq!(cluster.applier(site), refused(Refusal::UnknownSite));
    assert_eq!((session.seen, cluster.numbers()), (0, Numbers::default()));
}

#[test]
fn an_update_its_reads_and_its_numbers() {
    let Shop { mut builder, tea, rye, shop, yard, .. } = declared();
    let (cluster, mut session) = (builder.open().unwrap(), Session::default());
    assert_eq!(cluster.propose(&mut session, &[tea.add(-3), rye.set(3)], FOREVER), Ok(1));
    assert_eq!(session.seen, 1);
    assert_eq!(cluster.read(&mut session, shop, tea), Ok(Seen { value: 37, applied: 1 }));
    assert_eq!(cluster.read_when_level(&mut session, yard, tea, FOREVER), Ok(Seen { value: 37, applied: 1 }));
    assert_eq!(cluster.read_many(&mut session, shop, &[rye, tea, rye]), Ok(Snapshot { values: vec![3, 37, 3], applied: 1 }));
    assert_eq!(cluster.read_many(&mut session, shop, &[]), Ok(Snapshot { values: vec![], applied: 1 }));
    assert_eq!(cluster.propose(&mut session, &[tea.mul(2), rye.take(tea)], FOREVER), Ok(2));
    assert_eq!(cluster.propose(&mut session, &[tea.min(50), rye.max(40)], FOREVER), Ok(3));
    assert_eq!(cluster.read_many(&mut session, shop, &[tea, rye]), Ok(Snapshot { values: vec![50, 40], applied: 3 }));
    assert_eq!(cluster.settle(&mut session, 3, Duration::ZERO), Ok(()));
    assert_eq!(cluster.settle(&mut session, 4, FOREVER), refused(Refusal::OutOfRange));
    assert_eq!(cluster.settle(&mut session, 0, FOREVER), refused(Refusal::OutOfRange));
    assert_eq!(cluster.finish(FOREVER), Ok(()));
    cluster.read_when_level(&mut session, yard, tea, FOREVER).unwrap();
    assert_eq!(cluster.numbers(), Numbers { before: 0, length: 3, acknowledged: 3 });
    assert_eq!(cluster.site_numbers(shop), Ok(SiteNumbers { sent: 3, applied: 3, reported: 3, rounds: 3 }));
    let yards = cluster.site_numbers(yard).unwrap();
    assert_eq!((yards.sent, yards.applied, yards.rounds), (3, 3, 0));
    assert_eq!(format!("{cluster:?}"), "Cluster { sites: 2, numbers: Numbers { before: 0, length: 3, acknowledged: 3 } }");
}

#[test]
fn proposals_that_are_refused_number_nothing() {
    let Shop { mut builder, tea, rye, .. } = declared();
    let (cluster, mut session) = (builder.open().unwrap(), Session::default());
    assert_eq!(cluster.propose(&mut session, &[], FOREVER), refused(Refusal::Empty));
    assert_eq!(cluster.propose(&mut session, &[tea.add(1), tea.add(1)], FOREVER), refused(Refusal::Repeated));
    assert_eq!(cluster.propose(&mut session, &[tea.set(i64::MAX)], FOREVER), refused(Refusal::OutOfRange));
    let sale = [tea.add(-50), rye.add(1)];
    let propose = |conditions: &[_]| cluster.propose_if(&mut Session::default(), &sale, conditions, FOREVER);
    assert_eq!(propose(&[tea.at_least(0)]), Err(Error::Unmet { index: 0 }));
    assert_eq!(propose(&[rye.at_most(1), tea.at_most(-10), tea.at_least(-9)]), Err(Error::Unmet { index: 2 }));
    assert_eq!(propose(&[rye.at_most(0), tea.at_least(-9)]), Err(Error::Unmet { index: 0 }));
    assert_eq!(cluster.numbers().length, 0);
    assert_eq!(propose(&[rye.at_most(1), rye.at_least(1), tea.at_least(-10)]), Ok(1));
}

#[test]
fn a_time_that_is_over_tells_the_number_and_the_update_stands() {
    let Shop { mut builder, tea, shop, yard, .. } = declared();
    let cluster = builder.without_threads().open().unwrap();
    let mut session = Session::default();
    assert_eq!(cluster.propose(&mut session, &[tea.add(-3)], Duration::ZERO), Err(Error::NotYet { number: 1 }));
    let from = Instant::now();
    assert_eq!(cluster.propose(&mut session, &[tea.add(-4)], SOON), Err(Error::NotYet { number: 2 }));
    assert!(from.elapsed() >= SOON);
    assert_eq!(session.seen, 0);
    assert_eq!(cluster.settle(&mut session, 2, SOON), Err(Error::NotYet { number: 2 }));
    assert_eq!(cluster.finish(SOON), Err(Error::Unfinished));
    assert_eq!(cluster.relimit(shop, Scope::Count, 9), refused(Refusal::HeadPending));
    session.seen = 2;
    assert_eq!(cluster.read(&mut session, yard, tea), Err(Error::Behind { applied: 0 }));
    assert_eq!(cluster.read_many(&mut session, yard, &[tea]), Err(Error::Behind { applied: 0 }));
    assert_eq!(cluster.read_when_level(&mut session, yard, tea, SOON), Err(Error::Behind { applied: 0 }));
    assert_eq!(cluster.read_many_when_level(&mut session, yard, &[tea], SOON), Err(Error::Behind { applied: 0 }));
    thread::scope(|scope| {
        scope.spawn(|| cluster.keeper());
        scope.spawn(|| cluster.applier(shop));
        scope.spawn(|| cluster.applier(yard));
        let _stop = cluster.stop_on_drop();
        assert_eq!(cluster.settle(&mut session, 2, FOREVER), Ok(()));
        assert_eq!(cluster.read_when_level(&mut session, yard, tea, FOREVER), Ok(Seen { value: 33, applied: 2 }));
    });
    assert_eq!(cluster.propose(&mut session, &[tea.add(-4)], FOREVER), Err(Error::Stopped));
    cluster.close().unwrap();
}

#[test]
fn a_query_is_charged_for_what_its_site_misses() {
    let mut builder = Builder::new().unwrap();
    let (tea, rye) = (builder.object("tea", 40).unwrap(), builder.object("rye", 7).unwrap());
    let shop = builder.site("shop", 4).unwrap();
    let cluster = builder.without_threads().open().unwrap();
    assert_eq!(cluster.query(shop, u64::MAX).err(), Some(Error::Refused(Refusal::OutOfRange)));
    assert_eq!(cluster.propose(&mut Session::default(), &[tea.add(-3)], FOREVER), Ok(1));
    let mut query = cluster.query(shop, 5).unwrap();
    assert_eq!(query.read(tea), Ok(Charged { value: 40, import: 3, total: 3, place: 1, reads: 1 }));
    assert_eq!(query.read(rye), Ok(Charged { value: 7, import: 0, total: 3, place: 1, reads: 2 }));
    assert_eq!(query.read(tea), refused(Refusal::OverImport));
    let query = thread::scope(|scope| scope.spawn(move || query).join().unwrap());
    assert_eq!(query.end(), Ok(Ended { place: 1, sum: 47, total: 3, reads: 2 }));
    drop(cluster.query(shop, 5).unwrap());
}

#[test]
fn limits_change_and_lags_stand_beside_them() {
    let Shop { mut builder, tea, leaves, yard, .. } = declared();
    builder.limit(yard, Scope::Group(leaves), 9).unwrap();
    let cluster = builder.open().unwrap();
    assert_eq!(cluster.lags(yard), Ok(vec![Lag { scope: Scope::Group(leaves), limit: 9, lag: 0 }]));
    assert_eq!(cluster.relimit(yard, Scope::Object(tea), 5), Ok(1));
    assert_eq!(cluster.relimit(yard, Scope::Group(leaves), 0), Ok(1));
    let scopes: Vec<_> = cluster.lags(yard).unwrap().iter().map(|lag| (lag.scope, lag.limit)).collect();
    assert_eq!(scopes, [(Scope::Group(leaves), 0), (Scope::Object(tea), 5)]);
    assert_eq!(cluster.propose(&mut Session::default(), &[tea.add(-5)], FOREVER), Ok(1));
    assert_eq!(cluster.relimit(yard, Scope::All, 5), Ok(2));
    assert_eq!(cluster.relimit(yard, Scope::All, u64::MAX), refused(Refusal::OutOfRange));
    assert_eq!(cluster.lags(yard).unwrap().iter().map(|lag| lag.lag).max(), Some(0));
}

#[test]
fn a_lag_is_what_is_acknowledged_and_not_reported() {
    let mut builder = Builder::new().unwrap();
    let tea = builder.object("tea", 40).unwrap();
    let shop = builder.site("shop", 4).unwrap();
    builder.limit(shop, Scope::All, 9).unwrap();
    let cluster = builder.without_threads().open().unwrap();
    assert_eq!(cluster.propose(&mut Session::default(), &[tea.add(-4)], FOREVER), Ok(1));
    assert_eq!(cluster.propose(&mut Session::default(), &[tea.add(3)], FOREVER), Ok(2));
    assert_eq!(cluster.lags(shop), Ok(vec![Lag { scope: Scope::All, limit: 9, lag: 7 }]));
    assert_eq!(cluster.relimit(shop, Scope::All, 6), refused(Refusal::LagOver));
    assert_eq!(cluster.site_numbers(shop), Ok(SiteNumbers { sent: 2, applied: 0, reported: 0, rounds: 0 }));
}

#[test]
fn clusters_follow_one_another() {
    let Shop { mut builder, tea, shop, .. } = declared();
    let (mut cluster, mut session, mut series) = (builder.after(7).open().unwrap(), Session::default(), String::new());
    drop(builder);
    for epoch in 0..3 {
        assert_eq!(cluster.numbers(), Numbers { before: 7 + 2 * epoch, length: 7 + 2 * epoch, acknowledged: 7 + 2 * epoch });
        assert_eq!(cluster.propose(&mut session, &[tea.add(-3)], FOREVER), Ok(8 + 2 * epoch));
        assert_eq!(cluster.propose(&mut session, &[tea.add(1)], FOREVER), Ok(9 + 2 * epoch));
        assert_eq!(cluster.settle(&mut Session::default(), 7, FOREVER), Ok(()));
        let mut closed = cluster.close().unwrap();
        assert_eq!(closed.propose(&mut session, &[tea.add(1)], FOREVER), Err(Error::Stopped));
        assert_eq!(closed.read(&mut session, shop, tea).unwrap().value, 38 - 2 * epoch as i64);
        assert_eq!(closed.query(shop, 0).unwrap().read(tea).unwrap().import, 0);
        let record = closed.record(shop).unwrap();
        assert_eq!(check(record.as_bytes()), Ok(Verdict::Yes { rounds: 2 }));
        series += &record;
        cluster = closed.successor().unwrap();
    }
    assert_eq!(check_series(series.as_bytes()), Ok(SeriesVerdict::Yes { rounds: 6 }));
}

#[test]
fn no_successor_before_all_is_acknowledged() {
    let Shop { mut builder, tea, .. } = declared();
    let cluster = builder.without_threads().open().unwrap();
    assert_eq!(cluster.propose(&mut Session::default(), &[tea.add(1)], Duration::ZERO), Err(Error::NotYet { number: 1 }));
    assert_eq!(cluster.close().unwrap().successor().err(), Some(Error::Unfinished));
}

#[test]
fn things_are_dropped_in_any_order() {
    let Shop { mut builder, tea, shop, .. } = declared();
    let (first, second) = (builder.open().unwrap(), builder.open().unwrap());
    first.propose(&mut Session::default(), &[tea.add(1)], FOREVER).unwrap();
    drop(builder);
    let shared = Arc::new(second);
    let its = Arc::clone(&shared);
    let caller = thread::spawn(move || its.propose(&mut Session::default(), &[tea.add(2)], FOREVER));
    assert_eq!(caller.join().unwrap(), Ok(1));
    let mut closed = Arc::try_unwrap(shared).unwrap().close().unwrap();
    let (one, other) = (closed.successor().unwrap(), closed.successor().unwrap());
    let query = one.query(shop, 3).unwrap();
    drop(closed);
    drop(other);
    drop(first);
    drop(query);
    assert_eq!(one.read(&mut Session::default(), shop, tea).unwrap().value, 42);
}

#[test]
fn names_numbers_and_texts_of_errors() {
    assert_eq!((Refusal::UnknownObject.number(), Refusal::UnknownObject.name()), (6, "UnknownObject"));
    let refused: Box<dyn std::error::Error> = Error::Refused(Refusal::LagOver).into();
    assert_eq!(refused.to_string(), "refused 25 LagOver");
    assert_eq!(Error::NotYet { number: 7 }.to_string(), "update 7 is numbered, and not acknowledged yet");
    let unclosed = Unclosed { cluster: declared().builder.open().unwrap(), why: Error::Mixed };
    assert_eq!(unclosed.to_string(), "the cluster is not closed: a site does not agree with the log");
    assert_eq!(Error::from(unclosed), Error::Mixed);
}

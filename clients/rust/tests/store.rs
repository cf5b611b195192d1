//! What the calls give. The answers are worked out by hand, or are those of the transcripts in README.md and docs/FORMATS.md.

use ordup::{check, check_series, Answer, Certified, Change, Ended, Error, Read, Refused, Scope};
use ordup::{SeriesVerdict, Settled, SharedStore, Shown, Store, Verdict};

/// 40 bags of tea, and a shop that may lag by 6 of them.
fn shop() -> Store {
    let mut store = Store::new().unwrap();
    store.object("tea", 40).unwrap();
    store.site("south", 2).unwrap();
    store.limit("south", Scope::Object("tea"), 6).unwrap();
    store.start().unwrap();
    store
}

fn run(store: &mut Store, text: &str) -> String {
    let mut answers = Vec::new();
    store.run(text.as_bytes(), &mut answers).unwrap();
    String::from_utf8(answers).unwrap()
}

fn refused(number: u32, name: &str) -> Refused {
    Refused { number, name: name.into() }
}

#[test]
fn the_tour_of_the_readme_by_methods() {
    let mut store = shop();
    assert_eq!(store.propose(&[("tea", Change::Add(-5))]), Ok(1));
    assert_eq!(store.settle(), Ok(Settled::Acked { place: 1 }));
    assert_eq!(store.begin("look", "south", 5), Ok(1));
    let read = Read { query: "look".into(), object: "tea".into(), value: 40, imported: 5, total: 5 };
    assert_eq!(store.read("look", "tea"), Ok(read));
    assert_eq!(store.end("look"), Ok(Ended { query: "look".into(), place: 1, sum: 40, total: 5, reads: 1 }));
    assert_eq!(store.propose(&[("tea", Change::Add(2))]), Ok(2));
    assert_eq!(store.settle(), Ok(Settled::Round { place: 2, sites: vec!["south".into()] }));
    assert_eq!(store.settle(), Ok(Settled::Waiting { place: 2, sites: vec!["south".into()] }));
    assert_eq!((store.send("south"), store.send("south")), (Ok(1), Ok(2)));
    assert_eq!((store.apply("south"), store.apply("south")), (Ok(1), Ok(2)));
    assert_eq!(store.report("south"), Ok(2));
    assert_eq!(store.settle(), Ok(Settled::Acked { place: 2 }));
    let values = vec![("tea".to_string(), 37)];
    assert_eq!(store.show("south"), Ok(Shown { site: "south".into(), sent: 2, applied: 2, reported: 2, rounds: 1, values }));
    assert_eq!(store.certify("south"), Ok(Certified { site: "south".into(), rounds: 1, windows: vec![(0, 2)] }));
}

#[test]
fn the_other_commands_by_methods() {
    let mut store = Store::new().unwrap();
    for name in ["a", "b", "c", "d", "e", "f"] {
        store.object(name, 7).unwrap();
    }
    store.group("g", &["a", "b"]).unwrap();
    store.site("s", 2).unwrap();
    store.limit("s", Scope::Group("g"), 100).unwrap();
    store.limit("s", Scope::All, 1000).unwrap();
    store.limit("s", Scope::Count, 10).unwrap();
    store.start().unwrap();
    let changes = [
        ("a", Change::Add(-2)),
        ("b", Change::Set(-2)),
        ("c", Change::Mul(-2)),
        ("d", Change::Max(8)),
        ("e", Change::Min(-2)),
        ("f", Change::Take("a")),
    ];
    assert_eq!(store.propose(&changes), Ok(1));
    store.send("s").unwrap();
    store.apply("s").unwrap();
    let shown = store.show("s").unwrap();
    let values: Vec<_> = ["a", "b", "c", "d", "e", "f", "g"].map(|name| shown.value(name)).into();
    assert_eq!(values, [Some(5), Some(-2), Some(-14), Some(8), Some(-2), Some(7), None]);
    assert_eq!(store.relimit("s", Scope::Count, 3), Ok(1));
    store.begin("q", "s", 0).unwrap();
    assert_eq!(store.abandon("q"), Ok(()));
    assert_eq!(store.abandon("q"), Err(refused(18, "UnknownQuery").into()));
}

#[test]
fn a_refusal_changes_nothing() {
    let mut store = shop();
    assert_eq!(store.apply("south"), Err(Error::Refused(refused(16, "NothingToApply"))));
    assert_eq!(store.object("till", 0), Err(Error::Refused(refused(3, "AlreadyStarted"))));
    assert_eq!(store.propose(&[]), Err(Error::Refused(refused(11, "Empty"))));
    assert_eq!(store.propose(&[("tea", Change::Add(1))]), Ok(1));
}

#[test]
fn what_is_no_command_is_not_asked() {
    let mut store = shop();
    for text in ["", " ", "# settle", "settle\nsettle", "settle\n", "s\u{e9}ttle", "settle\t"] {
        assert_eq!(store.command(text), Err(Error::BadLine(text.into())));
    }
    let long = "settle".to_string() + &" ".repeat(4091);
    assert_eq!(store.command(&long), Err(Error::BadLine(long.clone())));
    assert_eq!(store.command(&long[1..]), Err(Error::Refused(refused(1, "Syntax"))));
    for name in ["", "South", "south\nsettle", "a b", "seventeen_letters", "1st", "a:b"] {
        assert_eq!(store.send(name), Err(Error::BadLine(name.into())));
        assert_eq!(store.propose(&[("tea", Change::Take(name))]), Err(Error::BadLine(name.into())));
        assert_eq!(store.relimit("south", Scope::Object(name), 1), Err(Error::BadLine(name.into())));
    }
    let mut outcomes = Vec::new();
    assert_eq!(store.commands(["propose add:tea:1", "#"], &mut outcomes), Err(Error::BadLine("#".into())));
    assert_eq!(outcomes, []);
    assert_eq!(store.propose(&[("tea", Change::Add(1))]), Ok(1));
}

#[test]
fn a_name_may_have_16_letters() {
    assert_eq!(Store::new().unwrap().object("sixteen_letters_", 0), Ok(()));
}

#[test]
fn each_name_of_a_limit_is_looked_at() {
    let mut store = Store::new().unwrap();
    let site = "south all 5\nsettle";
    for scope in [Scope::Object("tea"), Scope::Group("drinks"), Scope::All, Scope::Count] {
        assert_eq!(store.limit(site, scope, 1), Err(Error::BadLine(site.into())));
        assert_eq!(store.relimit(site, scope, 1), Err(Error::BadLine(site.into())));
    }
    let name = "tea 5\nsettle";
    for scope in [Scope::Object(name), Scope::Group(name)] {
        assert_eq!(store.limit("south", scope, 1), Err(Error::BadLine(name.into())));
        assert_eq!(store.relimit("south", scope, 1), Err(Error::BadLine(name.into())));
    }
}

#[test]
fn many_commands_have_their_answers_in_order() {
    let mut store = shop();
    let mut outcomes = Vec::new();
    store.commands(["settle", "propose add:tea:1", "bad", "settle"], &mut outcomes).unwrap();
    let wanted = [
        Err(refused(17, "NothingToSettle")),
        Ok(Answer::Proposed { place: 1 }),
        Err(refused(1, "Syntax")),
        Ok(Answer::Settled(Settled::Acked { place: 1 })),
    ];
    assert_eq!(outcomes, wanted);
}

#[test]
fn lines_have_their_answers() {
    let mut store = Store::new().unwrap();
    assert_eq!(run(&mut store, "object x 0\nsite a 2\nlimit a object x 5\nstart"), "ok object x\nok site a\nok limit a\nok start\n");
    assert_eq!(run(&mut store, "propose add:x:6\nsettle\n# nothing\n\nbad\0"), "ok proposed 1\nok round 1 a\nrefused 1 Syntax\n");
    assert_eq!(run(&mut store, ""), "");
}

#[test]
fn a_long_answer_comes_whole() {
    let mut store = Store::new().unwrap();
    for object in 0..256 {
        store.object(&format!("object_{object}"), -1_000_000_000).unwrap();
    }
    run(&mut store, "site a 1\nstart");
    let shown = run(&mut store, "show a\nshow a");
    assert_eq!(shown.lines().count(), 2);
    assert!(shown.len() > 11_000 && shown.ends_with("object_255=-1000000000\n"));
    assert_eq!(store.show("a").unwrap().values.len(), 256);
}

#[test]
fn a_record_is_told_and_checked() {
    let mut store = Store::new().unwrap();
    assert_eq!(store.record("a"), Err(Error::NotStarted));
    run(&mut store, "object x 0\nobject y 10\nsite a 4\nlimit a object x 5\nstart");
    assert_eq!(store.record("b"), Err(Error::UnknownSite));
    run(&mut store, "propose add:x:5\nsettle\npropose add:x:1\nsettle");
    let record = store.record("a").unwrap();
    let rows = [
        "ordup,1,a,2",
        "object,1,x,0",
        "object,2,y,10",
        "limit,1,object:x,5",
        "change,1,1,add:x:5",
        "change,2,1,add:x:1",
        "round,1,2,-",
        "window,1,0,2",
    ];
    assert_eq!(record.lines().collect::<Vec<_>>(), rows);
    assert_eq!(check(record.as_bytes()), Ok(Verdict::Yes { rounds: 1 }));
    let lighter = record.replace("x,5", "x,6");
    assert_eq!(check(lighter.as_bytes()), Ok(Verdict::No { row: 8, reason: "WindowLight".into() }));
    assert_eq!(check(b""), Ok(Verdict::Malformed { row: 1 }));
}

#[test]
fn a_series_is_checked() {
    let rows = [
        "ordup,2,a,2",
        "object,1,tea,40",
        "limit,1,object:tea,5@1",
        "limit,2,object:tea,3@2",
        "change,1,1,add:tea:-4",
        "change,2,1,add:tea:-2",
        "round,1,2,-",
        "window,1,0,2",
        "ordup,2,a,3",
        "object,1,tea,34",
        "limit,1,object:tea,4@1",
        "limit,2,object:tea,1@3",
        "change,1,1,add:tea:-3",
        "change,2,1,add:tea:-2",
        "change,3,1,add:tea:-1",
        "report,3,2,-",
        "round,1,2,-",
        "window,1,0,2",
    ];
    let series = rows.join("\n") + "\n";
    assert_eq!(check_series(series.as_bytes()), Ok(SeriesVerdict::Yes { rounds: 2 }));
    for (before, after, row) in [("tea,34", "tea,35", 2), (",a,3", ",b,3", 1)] {
        let verdict = SeriesVerdict::No { record: 2, row, reason: "NotNext".into() };
        assert_eq!(check_series(series.replace(before, after).as_bytes()), Ok(verdict));
    }
    let malformed = series.replace("report,3", "report,4");
    assert_eq!(check_series(malformed.as_bytes()), Ok(SeriesVerdict::Malformed { record: 2, row: 8 }));
    assert_eq!(check_series(b""), Ok(SeriesVerdict::Malformed { record: 1, row: 1 }));
}

#[test]
fn the_successor_is_declared() {
    let mut store = Store::new().unwrap();
    assert_eq!(store.next_declarations(), Err(Error::NotStarted));
    run(&mut store, "object x 0\nobject y 10\nsite a 4\nlimit a object x 5\nstart\npropose add:x:5 set:y:12");
    assert_eq!(store.next_declarations(), Err(Error::NotYet));
    run(&mut store, "settle\nrelimit a object x 7");
    let lines = store.next_declarations().unwrap();
    assert_eq!(lines, "object x 5\nobject y 12\nsite a 4\nlimit a object x 7\nstart\n");
    let mut following = Store::new().unwrap();
    assert_eq!(run(&mut following, &lines), "ok object x\nok object y\nok site a\nok limit a\nok start\n");
}

#[test]
fn a_long_record_comes_whole() {
    let mut store = shop();
    let before = store.record("south").unwrap();
    run(&mut store, &"propose add:tea:0\nsettle\n".repeat(10_000));
    let record = store.record("south").unwrap();
    assert!(record.len() > before.len() + 65_536 && record.ends_with("change,10000,1,add:tea:0\n"));
}

#[test]
fn threads_share_a_store() {
    fn is_send<T: Send>(it: T) -> T {
        it
    }
    fn is_sync<T: Sync>(it: T) -> T {
        it
    }
    let store = is_sync(SharedStore::from(is_send(shop())));
    let mut places: Vec<u64> = std::thread::scope(|scope| {
        let propose = || (0..1000).map(|_| store.lock().propose(&[("tea", Change::Add(1))]).unwrap()).collect::<Vec<_>>();
        let threads: Vec<_> = (0..8).map(|_| scope.spawn(propose)).collect();
        threads.into_iter().flat_map(|thread| thread.join().unwrap()).collect()
    });
    places.sort_unstable();
    assert_eq!(places, (1..=8000).collect::<Vec<_>>());
}

#[test]
fn a_thread_that_panics_leaves_the_store_whole() {
    let store = SharedStore::from(shop());
    let panic = || {
        let _guard = store.lock();
        panic!("as it is meant to");
    };
    assert!(std::thread::scope(|scope| scope.spawn(panic).join().is_err()));
    assert_eq!(store.lock().propose(&[("tea", Change::Add(1))]), Ok(1));
}

#[test]
fn two_stores_are_two() {
    let (mut one, mut other) = (shop(), shop());
    assert_eq!((one.propose(&[("tea", Change::Add(1))]), other.propose(&[("tea", Change::Add(1))])), (Ok(1), Ok(1)));
}

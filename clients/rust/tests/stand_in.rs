//! Refused memory, and what is closed, with the stand-in of clients/c for the library: ORDUP_LIB_DIR=.. cargo test --test stand_in

use ordup::{check, check_series, Answer, Error, Store};

#[test]
fn refused_memory_loses_nothing_and_a_dropped_store_is_closed() {
    let (mut store, mut answers) = (Store::new().unwrap(), Vec::new());
    assert_eq!(store.run(b"start\nsettle\n", &mut answers), Err(Error::NoMemory { taken: 6 }));
    assert_eq!(answers, b"ok start\n");
    drop(store);
    let (mut store, mut outcomes) = (Store::new().unwrap(), Vec::new());
    assert_eq!(store.commands(["start", "settle"], &mut outcomes), Err(Error::NoMemory { taken: 6 }));
    assert_eq!(outcomes, [Ok(Answer::Started)]);
    assert_eq!(store.record("a"), Err(Error::NoMemory { taken: 0 }));
    assert_eq!(check(b""), Err(Error::TooLong));
    assert_eq!(check_series(b""), Err(Error::NoMemory { taken: 0 }));
    drop(store);
    let mut store = Store::new().unwrap();
    assert_eq!(store.command("start"), Err(Error::NoMemory { taken: 0 }));
    assert_eq!(store.next_declarations().unwrap(), "closed 2, given again 0\n");
}

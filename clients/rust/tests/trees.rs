//! What is below a key, and work that is tried again.

mod common;

use common::{unit, Scratch, SOFTWARE};
use regtx_client::{Error, Key, Kind, Refusal, Requests, Store, Transaction, Value};
use std::cell::{Cell, RefCell};

const PATHS: [&str; 7] = [
    "",
    "T",
    r"T\A 50%",
    r"T\A 50%\x",
    r"T\A 50%\x\y",
    r"T\B",
    "U",
];

fn at(path: &str) -> Key<'_> {
    Key::new(1, path)
}

fn refused<T>(answer: Result<T, Error>, with: Refusal) -> bool {
    matches!(answer, Err(Error::Refused(why, _)) if why == with)
}

fn tree(scratch: &Scratch) -> Store {
    let store = scratch.store();
    for path in &PATHS[1..] {
        store.create_key(at(path)).unwrap();
    }
    store
}

#[test]
fn items_are_read() {
    let scratch = Scratch::new();
    let store = scratch.store();
    let wanted = [
        ("", Value::sz("d")),
        ("@", Value::new(Kind(8), [])),
        ("n", Value::dword(7)),
    ];
    for (name, value) in wanted.iter().rev() {
        store.set_value(SOFTWARE, name, value).unwrap();
    }
    let wanted = wanted.map(|(name, value)| (name.to_owned(), value));
    assert_eq!(store.items(SOFTWARE).unwrap(), wanted);
    assert_eq!(store.items(at("")).unwrap(), []);
    assert!(refused(store.items(at("None")), Refusal::NotFound));
    store.close().unwrap();
}

#[test]
fn trees_are_walked() {
    let scratch = Scratch::new();
    let store = tree(&scratch);
    assert_eq!(store.walk(at("")).unwrap(), PATHS);
    assert_eq!(store.walk(at(r"T\A 50%")).unwrap(), PATHS[2..5]);
    assert_eq!(store.walk(at("U")).unwrap(), ["U"]);
    assert!(refused(store.walk(at("None")), Refusal::NotFound));
    let wrong = store.walk(at("\n"));
    assert!(matches!(wrong, Err(Error::WrongName(..))), "{wrong:?}");
    store.close().unwrap();
}

#[test]
fn trees_are_deleted() {
    let scratch = Scratch::new();
    let store = tree(&scratch);
    assert!(refused(store.delete_tree(at("None")), Refusal::NotFound));
    assert!(refused(store.delete_tree(at("")), Refusal::Fixed));
    let session = store.session().unwrap();
    let tx = session.transaction(&unit(1)).unwrap();
    assert_eq!(tx.delete_tree(at(r"T\A 50%")).unwrap(), 3);
    assert_eq!(tx.walk(at("T")).unwrap(), ["T", r"T\B"]);
    assert!(refused(store.delete_tree(at("T")), Refusal::Conflict));
    assert!(tx.is_active().unwrap());
    assert_eq!(store.walk(at("")).unwrap(), PATHS);
    tx.rollback().unwrap();
    let before = store.flush().unwrap();
    assert_eq!(session.delete_tree(at("T")).unwrap(), 5);
    assert_eq!(store.flush().unwrap(), before + 1);
    session.end().unwrap();
    store.close().unwrap();
    assert_eq!(scratch.replies("keys 1:\n"), ["keys 1 U"]);
}

#[test]
fn work_is_tried_again() {
    let scratch = Scratch::new();
    let store = scratch.store();
    let session = store.session().unwrap();
    let calls = Cell::new(0);
    let work = |tx: &Transaction<'_>| {
        calls.set(calls.get() + 1);
        tx.set_value(SOFTWARE, "v", &Value::dword(calls.get()))
    };
    let other = session.transaction(&unit(1)).unwrap();
    other.set_value(SOFTWARE, "v", &Value::dword(0)).unwrap();
    for (tries, wanted) in [(3, 3), (1, 4), (0, 5)] {
        assert!(refused(
            store.transact(&unit(2), tries, work),
            Refusal::Conflict
        ));
        assert_eq!(calls.get(), wanted);
    }
    assert_eq!(store.value_names(SOFTWARE).unwrap(), [""; 0]);
    let other = RefCell::new(Some(other));
    let done = store.transact(&unit(2), 10, |tx| {
        if calls.get() == 7 {
            other.take();
        }
        work(tx)
    });
    assert_eq!((done.unwrap(), calls.get()), (Some(2), 8));
    assert_eq!(store.kept(&unit(2)).unwrap(), Some(2));
    drop(other);
    // another error isn't tried again
    let failed = session.transact(&unit(3), 10, |tx| {
        work(tx)?;
        tx.delete_key(at("None"))
    });
    assert!(refused(failed, Refusal::NotFound));
    assert_eq!(calls.get(), 9);
    assert_eq!(session.transact(&unit(3), 10, |_| Ok(())).unwrap(), None);
    session.end().unwrap();
    store.close().unwrap();
    assert_eq!(scratch.replies("get 0:Software v\n"), ["value 4 08000000"]);
}

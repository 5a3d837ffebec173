//! Transactions: commits, drops, conflicts, sessions, and what is kept of them.

mod common;

use common::{unit, Scratch, SOFTWARE};
use regtx_client::{Creation, Error, Key, Refusal, Requests, Value, Writes};

const SERVICES: Key = Key::new(1, "Services");

fn refused<T>(answer: &Result<T, Error>, with: Refusal) -> bool {
    matches!(answer, Err(Error::Refused(why, _)) if *why == with)
}

#[test]
fn a_commit_changes_all_hives_at_once() {
    let scratch = Scratch::new();
    let store = scratch.store();
    let tx = store.transaction(&unit(1)).unwrap();
    let created = tx.create_key(SERVICES).unwrap();
    assert_eq!(
        created,
        Creation::Created {
            levels: 1,
            accepted: ()
        }
    );
    assert_eq!(tx.create_key(SOFTWARE).unwrap(), Creation::Opened);
    tx.set_value(SOFTWARE, "v", &Value::dword(1)).unwrap();
    assert_eq!(tx.get_value(SOFTWARE, "v").unwrap().to_u32(), Some(1));
    assert!(refused(&store.get_value(SOFTWARE, "v"), Refusal::NotFound));
    assert!(refused(&store.key_info(SERVICES), Refusal::NotFound));
    assert_eq!(tx.unit(), &unit(1));
    assert_eq!(tx.commit().unwrap(), Some(2));
    assert_eq!(store.subkeys(Key::new(1, "")).unwrap(), ["Services"]);
    store.close().unwrap();
    let replies = scratch.replies("get 0:Software v\nkeys 1:\n");
    assert_eq!(replies, ["value 4 01000000", "keys 1 Services"]);
}

#[test]
fn a_drop_rolls_back() {
    let scratch = Scratch::new();
    let store = scratch.store();
    let write = || -> Result<(), Error> {
        let tx = store.transaction(&unit(1))?;
        tx.set_value(SOFTWARE, "v", &Value::dword(1))?;
        tx.delete_key(Key::new(0, "None"))
    };
    assert!(refused(&write(), Refusal::NotFound));
    // its claim is gone
    let tx = store.transaction(&unit(2)).unwrap();
    tx.set_value(SOFTWARE, "v", &Value::dword(2)).unwrap();
    tx.rollback().unwrap();
    assert_eq!(store.value_names(SOFTWARE).unwrap(), [""; 0]);
    assert_eq!(store.kept(&unit(1)).unwrap(), None);
    store.close().unwrap();
    assert_eq!(scratch.replies("values 0:Software\n"), ["values 0"]);
}

#[test]
fn two_sessions_conflict() {
    let scratch = Scratch::new();
    let store = scratch.store();
    let (one, two) = (store.session().unwrap(), store.session().unwrap());
    let first = one.transaction(&unit(1)).unwrap();
    let second = two.transaction(&unit(2)).unwrap();
    first.set_value(SOFTWARE, "v", &Value::dword(1)).unwrap();
    let lost = second.set_value(SOFTWARE, "w", &Value::dword(2));
    assert!(refused(&lost, Refusal::Conflict));
    second.create_key(SERVICES).unwrap();
    assert_eq!(first.commit().unwrap(), Some(2));
    second.set_value(SOFTWARE, "w", &Value::dword(2)).unwrap();
    assert_eq!(second.commit().unwrap(), Some(3));
    two.end().unwrap();
    drop(one);
    store.close().unwrap();
    let replies = scratch.replies("values 0:Software\nkeys 1:\n");
    assert_eq!(replies, ["values 2 v w", "keys 1 Services"]);
}

#[test]
fn a_write_alone_rolls_back_what_conflicts() {
    let scratch = Scratch::new();
    let store = scratch.store();
    let tx = store.transaction(&unit(1)).unwrap();
    let other = store.transaction(&unit(2)).unwrap();
    tx.set_value(SOFTWARE, "v", &Value::dword(1)).unwrap();
    other.create_key(SERVICES).unwrap();
    assert!(tx.is_active().unwrap());
    store.set_value(SOFTWARE, "v", &Value::dword(9)).unwrap();
    assert!(!tx.is_active().unwrap() && other.is_active().unwrap());
    assert!(refused(&tx.get_value(SOFTWARE, "v"), Refusal::NotActive));
    assert!(refused(&tx.commit(), Refusal::NotActive));
    assert_eq!(other.commit().unwrap(), Some(3));
    store.close().unwrap();
    let replies = scratch.replies(&format!("get 0:Software v\nkept {}\n", unit(1)));
    assert_eq!(replies, ["value 4 09000000", "E2 NotFound"]);
}

#[test]
fn outcomes_are_kept_for_later_runs() {
    let scratch = Scratch::new();
    let store = scratch.store();
    for (number, key) in [(1, SERVICES), (2, Key::new(1, "X"))] {
        let tx = store.transaction(&unit(number)).unwrap();
        tx.create_key(key).unwrap();
        tx.commit().unwrap();
    }
    // without writes nothing is kept
    assert_eq!(store.transaction(&unit(3)).unwrap().commit().unwrap(), None);
    store.close().unwrap();
    let store = scratch.open();
    let kept: Vec<_> = (1..=3)
        .map(|number| store.kept(&unit(number)).unwrap())
        .collect();
    assert_eq!(kept, [Some(2), Some(3), None]);
    store.close().unwrap();
}

#[test]
fn places_are_freed() {
    let scratch = Scratch::new();
    let mut store = scratch.store();
    for round in 0..1_100 {
        let tx = store.transaction(&unit(round)).unwrap();
        if round % 2 == 0 {
            tx.rollback().unwrap();
        } else {
            tx.commit().unwrap();
        }
    }
    for _ in 0..40 {
        let session = store.session().unwrap();
        session.create_key(SOFTWARE).unwrap();
        session.transaction(&unit(1)).unwrap().rollback().unwrap();
    }
    assert_eq!(store.fold().unwrap(), 1);
    let session = store.session().unwrap();
    session.transaction(&unit(1)).unwrap().rollback().unwrap();
    session.set_value(SOFTWARE, "v", &Value::dword(1)).unwrap();
    session.end().unwrap();
    // a fold also ends those that were leaked
    std::mem::forget(store.transaction(&unit(1)).unwrap());
    std::mem::forget(store.session().unwrap());
    assert_eq!(store.fold().unwrap(), 2);
    let sessions: Vec<_> = (1..32).map(|_| store.session().unwrap()).collect();
    store.set_value(SOFTWARE, "v", &Value::dword(2)).unwrap();
    drop(sessions);
    store.close().unwrap();
}

#[test]
fn one_helper_writes_alone_and_in_a_transaction() {
    fn fill(place: &impl Requests, name: &str) -> Result<(), Error> {
        place
            .set_value(SOFTWARE, name, &Value::dword(1))
            .map(|_| ())
    }
    let scratch = Scratch::new();
    let store = scratch.store();
    fill(&store, "alone").unwrap();
    let tx = store.transaction(&unit(1)).unwrap();
    fill(&tx, "within").unwrap();
    tx.commit().unwrap();
    assert_eq!(store.value_names(SOFTWARE).unwrap(), ["alone", "within"]);
    store.close().unwrap();
}

#[test]
fn a_large_transaction_is_refused_at_its_commit() {
    let scratch = Scratch::new();
    let store = scratch.store();
    let tx = store.transaction(&unit(1)).unwrap();
    let whole = (0..5).try_for_each(|number| {
        tx.set_value(
            SOFTWARE,
            &format!("v{number}"),
            &Value::binary(vec![0; 1_048_576]),
        )
    });
    assert!(refused(
        &whole.and_then(|()| tx.commit()),
        Refusal::TooLarge
    ));
    assert_eq!(store.value_names(SOFTWARE).unwrap(), [""; 0]);
    store.close().unwrap();
}

#[test]
fn writes_are_carried_out_together() {
    let scratch = Scratch::new();
    let store = scratch.store();
    let mut writes = Writes::new();
    writes.create_key(SERVICES).unwrap();
    for number in 0..600 {
        let name = format!("v{number}");
        writes
            .set_value(SERVICES, &name, &Value::binary(vec![0; 200]))
            .unwrap();
    }
    assert_eq!(
        store.transact_writes(&unit(1), 1, &writes).unwrap(),
        Some(2)
    );
    assert_eq!(store.value_names(SERVICES).unwrap().len(), 600);
    let mut wrong = Writes::new();
    wrong.create_key(Key::new(1, "A")).unwrap();
    wrong.delete_key(Key::new(1, "None")).unwrap();
    wrong.create_key(Key::new(1, "B")).unwrap();
    assert!(refused(
        &store.transact_writes(&unit(2), 1, &wrong),
        Refusal::NotFound
    ));
    assert!(refused(
        &store.once_writes(&unit(2), 1, &wrong),
        Refusal::NotFound
    ));
    let tx = store.transaction(&unit(2)).unwrap();
    assert!(refused(&tx.write_all(&wrong), Refusal::NotFound));
    tx.rollback().unwrap();
    assert_eq!(store.subkeys(Key::new(1, "")).unwrap(), ["Services"]);
    assert_eq!(
        store.transact_writes(&unit(3), 1, &Writes::new()).unwrap(),
        None
    );
    assert!(matches!(
        writes.create_key(Key::new(0, "ä")),
        Err(Error::WrongName(..))
    ));
    store.close().unwrap();
}

#[test]
fn a_unit_is_done_once() {
    let scratch = Scratch::new();
    let store = scratch.store();
    let mut times = 0;
    for _ in 0..2 {
        let number = store.once(&unit(1), 1, |tx| {
            times += 1;
            tx.create_key(SERVICES).map(|_| ())
        });
        assert_eq!(number.unwrap(), Some(2));
    }
    assert_eq!(times, 1);
    let mut writes = Writes::new();
    writes.delete_key(SERVICES).unwrap();
    for _ in 0..2 {
        assert_eq!(store.once_writes(&unit(2), 1, &writes).unwrap(), Some(3));
    }
    let session = store.session().unwrap();
    assert_eq!(session.once_writes(&unit(2), 1, &writes).unwrap(), Some(3));
    assert!(refused(
        &session.transact_writes(&unit(3), 1, &writes),
        Refusal::NotFound
    ));
    let failed = session.once(&unit(3), 1, |tx| tx.delete_key(SERVICES));
    assert!(refused(&failed, Refusal::NotFound));
    drop(session);
    assert_eq!(store.kept(&unit(3)).unwrap(), None);
    store.close().unwrap();
}

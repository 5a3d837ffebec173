//! Other processes: what Ctrl-C reaches, and stores after a fork.

mod common;

use common::{unit, Scratch, SOFTWARE};
use regtx_client::{Error, Key, Requests, Session, Store, Transaction, Value};
use std::fs;

extern "C" {
    fn fork() -> i32;
    fn waitpid(process: i32, status: *mut i32, options: i32) -> i32;
    fn _exit(status: i32) -> !;
}

/// The status of a process that has ended.
fn status_of(process: i32) -> i32 {
    let mut status = -1;
    // SAFETY: the status outlives the call
    assert_eq!(unsafe { waitpid(process, &mut status, 0) }, process);
    status
}

/// The process group of a process.
fn group_of(process: &str) -> String {
    let told = fs::read_to_string(format!("/proc/{process}/stat")).unwrap();
    // behind the name, which may have blanks: the state, the parent, the group
    let (_, rest) = told.rsplit_once(") ").unwrap();
    rest.split(' ').nth(2).unwrap().to_owned()
}

#[test]
fn a_run_has_a_process_group_of_its_own() {
    let scratch = Scratch::new();
    scratch.store().close().unwrap();
    let (store, victim) = scratch.open_to_kill();
    assert_eq!(group_of(&victim.0), victim.0);
    assert_ne!(group_of("self"), victim.0);
    store.close().unwrap();
}

fn is_refused<T>(answer: Result<T, Error>) -> bool {
    matches!(answer, Err(Error::OtherProcess))
}

/// How many calls aren't refused of what another process opened.
fn misused(store: &Store, session: &Session, tx: &Transaction) -> i32 {
    let refused = [
        is_refused(store.get_value(SOFTWARE, "v")),
        is_refused(store.set_value(SOFTWARE, "v", &Value::dword(9))),
        is_refused(store.session()),
        is_refused(store.transaction(&unit(9))),
        is_refused(store.kept(&unit(9))),
        is_refused(store.flush()),
        is_refused(store.at(None)),
        is_refused(session.subkeys(SOFTWARE)),
        is_refused(session.transaction(&unit(9))),
        is_refused(tx.get_value(SOFTWARE, "v")),
        is_refused(tx.is_active()),
    ];
    refused.iter().map(|refused| i32::from(!refused)).sum()
}

#[test]
fn a_fork_refuses_what_it_did_not_open() {
    let scratch = Scratch::new();
    let store = scratch.store();
    store.set_value(SOFTWARE, "v", &Value::dword(7)).unwrap();
    let session = store.session().unwrap();
    let tx = store.transaction(&unit(1)).unwrap();
    tx.create_key(Key::new(0, "Mine")).unwrap();
    let mut others = Vec::new();
    for _ in 0..10 {
        // SAFETY: the new process makes calls of the client alone, and leaves without unwinding
        let process = unsafe { fork() };
        if process == 0 {
            let mut wrong = misused(&store, &session, &tx);
            wrong += i32::from(!is_refused(tx.commit()));
            wrong += i32::from(!is_refused(session.end()));
            wrong += i32::from(store.close().is_err());
            unsafe { _exit(wrong) }
        }
        others.push(process);
    }
    for _ in 0..500 {
        assert_eq!(store.get_value(SOFTWARE, "v").unwrap().to_u32(), Some(7));
    }
    for other in others {
        assert_eq!(status_of(other), 0);
    }
    assert_eq!(tx.commit().unwrap(), Some(3));
    session.end().unwrap();
    store.close().unwrap();
    let replies = scratch.replies("keys 0:\nget 0:Software v\n");
    assert_eq!(replies, ["keys 2 Mine Software", "value 4 07000000"]);
}

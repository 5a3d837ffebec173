//! Runs that can't begin, that end early, or that fail at their end.

mod common;

use common::{unit, Scratch, ID, SOFTWARE};
use regtx_client::{Error, Options, Refusal, Requests, Store, Value};
use std::io::ErrorKind;
use std::thread;
use std::time::Duration;

#[test]
fn a_missing_program_is_told() {
    let scratch = Scratch::new();
    let (folder, options) = (
        scratch.at("store"),
        Options::new().program(scratch.at("none")),
    );
    let opened = Store::open(&folder, &options).map(|_| ());
    for answer in [opened, Store::create(&folder, &ID, 1, &options)] {
        assert!(matches!(answer, Err(Error::Io(why)) if why.kind() == ErrorKind::NotFound));
    }
}

#[test]
fn other_programs_are_told() {
    let scratch = Scratch::new();
    let open = |program: &str| Store::open(scratch.at("store"), &Options::new().program(program));
    assert!(matches!(open("true"), Err(Error::Ended(_))));
    assert!(matches!(open("echo"), Err(Error::Reply(text)) if text.starts_with("wait 0 run ")));
    let folder = scratch.at("no").join("folder");
    let none = Store::create(folder, &ID, 1, &scratch.options());
    assert!(matches!(none, Err(Error::CannotMake(_))));
}

#[test]
fn a_store_in_use_is_waited_for() {
    let scratch = Scratch::new();
    let store = scratch.store();
    assert!(matches!(
        Store::open(scratch.at("store"), &scratch.options()),
        Err(Error::CannotOpen(_))
    ));
    assert!(matches!(
        Store::open(scratch.at("store"), &scratch.options().wait(1)),
        Err(Error::CannotOpen(_))
    ));
    let other = thread::spawn(move || {
        thread::sleep(Duration::from_millis(100));
        store.close()
    });
    Store::open(scratch.at("store"), &scratch.options().wait(60))
        .unwrap()
        .close()
        .unwrap();
    other.join().unwrap().unwrap();
}

#[test]
fn two_stores_end_by_themselves() {
    let (one, two) = (Scratch::new(), Scratch::new());
    let (first, second) = (one.store(), two.store());
    first.close().unwrap();
    second.set_value(SOFTWARE, "v", &Value::dword(1)).unwrap();
    second.close().unwrap();
}

#[test]
fn a_folder_may_begin_with_a_hyphen() {
    let scratch = Scratch::new();
    let (home, program) = (scratch.at(""), scratch.program.display());
    let lines = format!("cd '{}' && exec '{program}' \"$@\"", home.display());
    let options = Options::new().program(scratch.script("inside", &lines));
    Store::create("--help", &ID, 1, &options).unwrap();
    Store::open("--help", &options).unwrap().close().unwrap();
}

#[test]
fn a_refused_request_is_no_failure_of_the_run() {
    let scratch = Scratch::new();
    let store = scratch.store();
    store.get_value(SOFTWARE, "v").unwrap_err();
    store.close().unwrap();
}

#[test]
fn a_killed_run_has_ended() {
    let scratch = Scratch::new();
    scratch.store().close().unwrap();
    let (store, victim) = scratch.open_to_kill();
    victim.kill();
    assert!(matches!(
        store.get_value(SOFTWARE, "v"),
        Err(Error::Ended(_))
    ));
    assert!(matches!(store.flush(), Err(Error::Ended(_))));
    assert!(matches!(store.close(), Err(Error::Ended(_))));
}

#[test]
fn a_commit_without_an_answer_is_unknown() {
    let scratch = Scratch::new();
    scratch.store().close().unwrap();
    let (store, victim) = scratch.open_to_kill();
    let tx = store.transaction(&unit(7)).unwrap();
    tx.set_value(SOFTWARE, "v", &Value::dword(1)).unwrap();
    // its moment is known, so that no other line is sent before the commit
    store.at(Some(7)).unwrap();
    victim.kill();
    let answer = tx.commit();
    let Err(Error::CommitUnknown(asked, cause)) = answer else {
        panic!("{answer:?}")
    };
    assert_eq!(asked, unit(7));
    assert!(matches!(*cause, Error::Ended(_)));
    drop(store);
    let store = scratch.open();
    assert_eq!(store.kept(&unit(7)).unwrap(), None);
    store.close().unwrap();
}

#[test]
fn some_refusals_leave_a_commit_unknown() {
    for why in [
        "E1 NoMemory",
        "E13 DiskFault",
        "E14 Faulted",
        "committed",
        "ok",
    ] {
        let store = Scratch::new().fake(&["ok", "ok", why, "ok"], "exit 1");
        let tx = store.transaction(&unit(1)).unwrap();
        tx.set_value(SOFTWARE, "v", &Value::dword(1)).unwrap();
        assert!(
            matches!(tx.commit(), Err(Error::CommitUnknown(..))),
            "{why}"
        );
    }
    let store = Scratch::new().fake(&["ok", "ok", "E11 JournalFull", "ok"], "exit 1");
    let tx = store.transaction(&unit(1)).unwrap();
    tx.set_value(SOFTWARE, "v", &Value::dword(1)).unwrap();
    assert!(matches!(
        tx.commit(),
        Err(Error::Refused(Refusal::JournalFull, _))
    ));
    store.close().unwrap();
}

#[test]
fn what_a_drop_meets_is_told_later() {
    let store = Scratch::new().fake(&["ok", "E9 NoSuchHandle", "accepted 5"], "exit 1");
    drop(store.transaction(&unit(1)).unwrap());
    let told = store.set_value(SOFTWARE, "v", &Value::dword(1));
    assert!(matches!(
        told,
        Err(Error::Refused(Refusal::NoSuchHandle, _))
    ));
    // that call sent nothing
    assert_eq!(store.set_value(SOFTWARE, "v", &Value::dword(1)).unwrap(), 5);
    store.close().unwrap();

    let store = Scratch::new().fake(&["ok", "E9 NoSuchHandle"], "exit 1");
    drop(store.session().unwrap());
    assert!(matches!(
        store.close(),
        Err(Error::Refused(Refusal::NoSuchHandle, _))
    ));

    let store = Scratch::new().fake(&["ok", "E9 NoSuchHandle"], "exit 1");
    let told = store.transaction(&unit(1)).unwrap().rollback();
    assert!(matches!(
        told,
        Err(Error::Refused(Refusal::NoSuchHandle, _))
    ));
    store.close().unwrap();
}

#[test]
fn the_end_of_a_run_is_judged() {
    let closed = |end: &str| Scratch::new().fake(&[], end).close();
    closed("exit 0").unwrap();
    let fault = closed("echo 'E13 DiskFault'; exit 1");
    assert!(matches!(fault, Err(Error::Refused(Refusal::DiskFault, _))));
    assert!(matches!(closed("exit 1"), Err(Error::Ended(_))));
    assert!(matches!(closed("exit 2"), Err(Error::Ended(_))));
    assert!(matches!(closed("kill -KILL $$"), Err(Error::Ended(_))));
    assert!(matches!(closed("echo E13; exit 1"), Err(Error::Reply(text)) if text == "E13"));
}

#[test]
fn hints_are_in_the_errors() {
    let scratch = Scratch::new();
    // what a program tells on standard error, if it is asked to
    let telling = |text: &str| {
        let tell = "tell() { test \"$REGTX_HINTS\" = 1 && echo \"regtx: $1\" >&2; }";
        Options::new().program(scratch.script("telling", &format!("{tell}\n{text}")))
    };
    let options = telling("tell one; tell two; echo cannot open store; exit 1");
    let why = Store::open("store", &options).unwrap_err();
    assert_eq!(why.hints(), "regtx: one; regtx: two");
    let shown = "cannot open store (regtx: one; regtx: two)";
    assert_eq!(why.to_string(), shown);
    let options = telling("tell why; echo cannot make store; exit 1");
    let made = Store::create("store", &ID, 1, &options);
    assert!(matches!(made, Err(Error::CannotMake(hints)) if hints == "regtx: why"));
    let options = telling(
        "echo opened 0; read line; tell full; echo E13 DiskFault; read line; echo E14 Faulted\n\
         read line; tell end; exit 3",
    );
    let store = Store::open("store", &options).unwrap();
    let told = [store.flush(), store.flush()].map(|answer| answer.unwrap_err().to_string());
    assert_eq!(told, ["E13 DiskFault (regtx: full)", "E14 Faulted"]);
    let ended = store.close();
    assert!(matches!(ended, Err(Error::Ended(hints)) if hints == "regtx: end"));
}

#[test]
fn replies_are_read_whole() {
    for reply in [
        "value 4",
        "value x -",
        "value 4 0",
        "value 4 0g",
        "value 4 00 ",
        "E2",
        "ok",
        "",
    ] {
        let store = Scratch::new().fake(&[reply], "exit 0");
        let answer = store.get_value(SOFTWARE, "v");
        assert!(
            matches!(&answer, Err(Error::Reply(text)) if text == reply),
            "{answer:?}"
        );
    }
    for reply in [
        "keys 2 a",
        "keys 0 a",
        "keys 1 %00",
        "keys 1 %00zz",
        "keys",
        "values 0",
    ] {
        let store = Scratch::new().fake(&[reply], "exit 0");
        assert!(
            matches!(store.subkeys(SOFTWARE), Err(Error::Reply(_))),
            "{reply}"
        );
    }
    // half a reply, of a run that was killed in the midst of it
    let scratch = Scratch::new();
    let half = scratch.script(
        "half",
        "echo 'opened 0'\nread -r at\necho ok\nread -r line\nprintf 'accepted 1'",
    );
    let store = Store::open("store", &Options::new().program(half)).unwrap();
    assert!(matches!(
        store.set_value(SOFTWARE, "v", &Value::dword(1)),
        Err(Error::Ended(_))
    ));
}

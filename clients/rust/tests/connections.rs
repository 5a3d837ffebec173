//! Stores that a server has: what several connections see, and how they end.

mod common;

use common::{unit, Scratch, Served, SOFTWARE};
use regtx_client::{Error, Key, Options, Refusal, Requests, Store, Transaction, Value, Writes};
use std::fs;
use std::io::{ErrorKind, Read, Write};
use std::os::unix::fs::MetadataExt;
use std::os::unix::net::UnixListener;
use std::os::unix::process::CommandExt;
use std::path::Path;
use std::process::{Command, Stdio};
use std::thread::{self, JoinHandle};
use std::time::Duration;

const MOMENT: u64 = 133_536_834_155_000_000;
const THREADS: usize = 4;
const TURNS: u32 = 10;
/// A value of so many bytes makes a longer line than a server takes.
const TOO_LONG: usize = 2_100_000;

fn refused<T>(answer: &Result<T, Error>, with: Refusal) -> bool {
    matches!(answer, Err(Error::Refused(why, _)) if *why == with)
}

/// A server that says the first of these at once, and each other one after something came. What
/// came each time is its answer.
fn saying(socket: &Path, parts: &'static [&str]) -> JoinHandle<Vec<String>> {
    let listener = UnixListener::bind(socket).unwrap();
    thread::spawn(move || {
        let mut client = listener.accept().unwrap().0;
        let (mut come, mut bytes) = (Vec::new(), vec![0; 1 << 16]);
        client.write_all(parts[0].as_bytes()).unwrap();
        for part in &parts[1..] {
            let size = client.read(&mut bytes).unwrap();
            come.push(String::from_utf8(bytes[..size].to_vec()).unwrap());
            client.write_all(part.as_bytes()).unwrap();
        }
        come
    })
}

/// What the calls of a connection to such a server answer, and what came there.
fn talk<T>(parts: &'static [&str], calls: impl FnOnce(Store) -> T) -> (T, Vec<String>) {
    let scratch = Scratch::new();
    let server = saying(&scratch.at("fake"), parts);
    let store = Store::connect(scratch.at("fake"), &Options::new()).unwrap();
    let answer = calls(store);
    (answer, server.join().unwrap())
}

#[test]
fn two_connections_use_one_store() {
    let scratch = Scratch::new();
    let served = Served::new(&scratch, &[]);
    let (one, two) = (served.connect(), served.connect());
    assert_eq!(one.opened_at(), 0);
    one.create_key(SOFTWARE).unwrap();
    assert_eq!(two.subkeys(Key::new(0, "")).unwrap(), ["Software"]);
    let (first, second) = (
        one.transaction(&unit(1)).unwrap(),
        two.transaction(&unit(2)).unwrap(),
    );
    first.set_value(SOFTWARE, "v", &Value::dword(1)).unwrap();
    let lost = second.set_value(SOFTWARE, "w", &Value::dword(2));
    assert!(refused(&lost, Refusal::Conflict));
    assert!(refused(&two.get_value(SOFTWARE, "v"), Refusal::NotFound));
    assert_eq!(first.commit().unwrap(), Some(2));
    second.set_value(SOFTWARE, "w", &Value::dword(2)).unwrap();
    assert_eq!(second.commit().unwrap(), Some(3));
    assert_eq!(one.value_names(SOFTWARE).unwrap(), ["v", "w"]);
    assert_eq!(two.kept(&unit(1)).unwrap(), Some(2));
    assert_eq!(served.connect().opened_at(), 3);
    one.close().unwrap();
    two.close().unwrap();
    assert_eq!(served.end("-TERM"), Some(0));
    assert_eq!(scratch.replies("keys 0:\n"), ["keys 1 Software"]);
}

#[test]
fn a_session_is_a_connection() {
    let scratch = Scratch::new();
    let served = Served::new(&scratch, &["-n", "2"]);
    let mut store = served.connect();
    store.create_key(SOFTWARE).unwrap();
    assert!(refused(&store.fold(), Refusal::Unsupported));
    store.at(Some(MOMENT)).unwrap();
    let session = store.session().unwrap();
    assert!(refused(&store.session(), Refusal::NoSeat));
    let more = Store::connect(served.socket(), &Options::new());
    assert!(refused(&more, Refusal::NoSeat));
    session.create_key(Key::new(1, "Timed")).unwrap();
    let written = store.key_info(Key::new(1, "Timed")).unwrap().written;
    assert_eq!(written, MOMENT);
    let tx = session.transaction(&unit(1)).unwrap();
    tx.set_value(SOFTWARE, "v", &Value::dword(1)).unwrap();
    drop(tx);
    session.end().unwrap();
    // its place is free once it has ended
    for _ in 0..5 {
        let session = store.session().unwrap();
        let tx = session.transaction(&unit(1)).unwrap();
        tx.set_value(SOFTWARE, "v", &Value::dword(1)).unwrap();
        drop(tx);
    }
    store.close().unwrap();
    served.connect().close().unwrap();
    assert_eq!(served.end("-TERM"), Some(0));
}

#[test]
fn a_line_that_is_too_long_is_not_sent() {
    let scratch = Scratch::new();
    let served = Served::new(&scratch, &[]);
    let store = served.connect();
    let value = Value::binary(vec![0; TOO_LONG]);
    let too_long = store.set_value(Key::new(0, ""), "v", &value);
    assert!(refused(&too_long, Refusal::TooLarge));
    let tx = store.transaction(&unit(1)).unwrap();
    let too_long = tx.set_value(Key::new(0, ""), "v", &value);
    assert!(refused(&too_long, Refusal::TooLarge));
    tx.create_key(SOFTWARE).unwrap();
    assert_eq!(tx.commit().unwrap(), Some(1));
    store.close().unwrap();
    assert_eq!(served.end("-TERM"), Some(0));
}

#[test]
fn what_is_accepted_of_a_connection_that_is_dropped_stays() {
    let scratch = Scratch::new();
    let served = Served::new(&scratch, &[]);
    let store = served.connect();
    store.create_key(SOFTWARE).unwrap();
    let tx = store.transaction(&unit(1)).unwrap();
    tx.create_key(Key::new(1, "Open")).unwrap();
    std::mem::forget(tx);
    drop(store);
    let store = served.connect();
    let tx = store.transaction(&unit(1)).unwrap();
    tx.create_key(Key::new(1, "Open")).unwrap();
    assert_eq!(tx.commit().unwrap(), Some(2));
    drop(store);
    assert_eq!(served.end("-TERM"), Some(0));
    let replies = scratch.replies("keys 0:\nkeys 1:\n");
    assert_eq!(replies, ["keys 1 Software", "keys 1 Open"]);
}

#[test]
fn connections_that_do_not_begin_are_told() {
    let scratch = Scratch::new();
    let nobody = Store::connect(scratch.at("none"), &Options::new());
    assert!(matches!(nobody, Err(Error::Io(why)) if why.kind() == ErrorKind::NotFound));
    let told = |first: &'static [&str]| {
        let scratch = Scratch::new();
        let server = saying(&scratch.at("fake"), first);
        let why = Store::connect(scratch.at("fake"), &Options::new()).unwrap_err();
        server.join().unwrap();
        why
    };
    assert_eq!(told(&["E10 NoSeat\n"]).to_string(), "E10 NoSeat");
    assert!(matches!(
        told(&["E14 Faulted\n"]),
        Error::Refused(Refusal::Faulted, _)
    ));
    let ended = "the run ended early (the server ended the connection)";
    assert_eq!(told(&[""]).to_string(), ended);
    assert_eq!(told(&["opened 7"]).to_string(), ended);
    assert!(matches!(told(&["hello\n"]), Error::Reply(text) if text == "hello"));
}

/// Runs a program, which succeeds.
fn run(words: &[&str]) {
    let ran = Command::new(words[0]).args(&words[1..]).status().unwrap();
    assert!(ran.success(), "{words:?}");
}

#[test]
fn a_server_of_another_user_is_not_trusted() {
    // some user that isn't root
    const NOBODY: u32 = 65_534;
    if fs::metadata("/proc/self").unwrap().uid() != 0 {
        return;
    }
    let scratch = Scratch::new();
    let folder = scratch.at("theirs");
    let socket = folder.join("socket");
    fs::create_dir(&folder).unwrap();
    run(&["chown", &NOBODY.to_string(), folder.to_str().unwrap()]);
    let mut broker = Command::new(std::env::var("REGTXD").unwrap())
        .arg(&socket)
        .args(["sh", "-c", "echo ready; cat >/dev/null"])
        .uid(NOBODY)
        .stdout(Stdio::piped())
        .spawn()
        .unwrap();
    let mut said = [0; 6];
    broker.stdout.take().unwrap().read_exact(&mut said).unwrap();
    let timed = Options::new().timeout(Duration::from_millis(100));
    for options in [Options::new(), Options::new().server_uid(1)] {
        let why = Store::connect(&socket, &options).unwrap_err();
        assert!(matches!(why, Error::NotTrusted(NOBODY)));
    }
    // this program never says that the store is open
    let trusted = Store::connect(&socket, &timed.server_uid(NOBODY));
    assert!(matches!(trusted, Err(Error::Ended(why)) if why == "the server took too long"));
    run(&["kill", &broker.id().to_string()]);
    broker.wait().unwrap();
}

#[test]
fn a_lost_connection_has_ended() {
    for said in ["", "value 4 0100", "line 1: not understood\n"] {
        let parts = Box::leak(Box::new(["opened 0\n", said]));
        let (store, came) = talk(parts, |store| {
            let answer = store.get_value(SOFTWARE, "v");
            assert!(
                matches!(answer, Err(Error::Ended(why)) if why == "the server ended the connection")
            );
            assert!(matches!(store.subkeys(SOFTWARE), Err(Error::Ended(_))));
            assert!(matches!(store.session(), Err(Error::Ended(_))));
            store
        });
        assert_eq!(came, ["get 0:Software v\n"]);
        assert!(matches!(store.close(), Err(Error::Ended(_))));
    }
}

#[test]
fn a_commit_without_an_answer_is_unknown() {
    fn committed(parts: &'static [&str]) -> Result<Option<u64>, Error> {
        let (answer, _) = talk(parts, |store| {
            store.at(Some(5)).unwrap();
            let tx = store.transaction(&unit(1)).unwrap();
            tx.set_value(SOFTWARE, "v", &Value::dword(1)).unwrap();
            tx.commit()
        });
        answer
    }
    let (opened, ok) = ("opened 0\n", "ok\n");
    for reply in ["", "committed", "E14 Faulted\nok\n", "E1 NoMemory\nok\n"] {
        let parts = Box::leak(Box::new([opened, ok, ok, ok, reply]));
        let answer = committed(parts);
        assert!(
            matches!(&answer, Err(Error::CommitUnknown(asked, _)) if *asked == unit(1)),
            "{reply}: {answer:?}"
        );
    }
    // the reply to the line after it isn't needed
    assert_eq!(
        committed(&["opened 0\n", "ok\n", "ok\n", "ok\n", "committed 3\n"]).unwrap(),
        Some(3)
    );
    let full = committed(&[
        "opened 0\n",
        "ok\n",
        "ok\n",
        "ok\n",
        "E12 HistoryFull\nok\n",
    ]);
    assert!(refused(&full, Refusal::HistoryFull));
}

#[test]
fn a_commit_that_is_not_sent_is_not_done() {
    let (answer, came) = talk(&["opened 0\n", "ok\n", ""], |store| {
        let tx = store.transaction(&unit(1)).unwrap();
        assert!(matches!(tx.get_value(SOFTWARE, "v"), Err(Error::Ended(_))));
        tx.commit()
    });
    assert!(matches!(answer, Err(Error::Ended(_))));
    assert_eq!(came.len(), 2);
}

#[test]
fn a_reply_that_takes_too_long_ends_the_connection() {
    let scratch = Scratch::new();
    let server = saying(&scratch.at("fake"), &["opened 0\n", "", ""]);
    let options = Options::new().timeout(Duration::from_millis(100));
    let store = Store::connect(scratch.at("fake"), &options).unwrap();
    let late = store.flush();
    assert!(matches!(late, Err(Error::Ended(why)) if why == "the server took too long"));
    assert!(matches!(store.flush(), Err(Error::Ended(_))));
    // the server sees its end, and no second line
    assert_eq!(server.join().unwrap(), ["flush\n", ""]);
    assert!(matches!(store.close(), Err(Error::Ended(_))));
}

/// The number that a call answers, and the first words of the lines that came each time. The moment
/// of writes is told before, so that no other line tells it.
fn sent(
    parts: &'static [&str],
    call: impl FnOnce(&Store) -> Result<Option<u64>, Error>,
) -> (Option<u64>, Vec<String>) {
    let (answer, came) = talk(parts, |store| {
        store.at(Some(5))?;
        call(&store)
    });
    let first = |line: &str| line.split(' ').next().unwrap().to_owned();
    let words = came[1..].iter().map(|lines| {
        let words: Vec<_> = lines.lines().map(first).collect();
        words.join(" ")
    });
    (answer.unwrap(), words.collect())
}

#[test]
fn lines_are_sent_together() {
    let key = Key::new(0, "K");
    let (mut one, mut two) = (Writes::new(), Writes::new());
    one.delete_key(key).unwrap();
    two.delete_key(key).unwrap().delete_value(key, "v").unwrap();
    let work = |tx: &Transaction<'_>| tx.delete_key(key);
    let (number, words) = sent(
        &["opened 0\n", "ok\n", "ok\nok\ncommitted 1\nok\n"],
        |store| store.transact_writes(&unit(1), 1, &one),
    );
    assert_eq!(number, Some(1));
    assert_eq!(words, ["begin tx commit close"]);
    let (number, words) = sent(
        &["opened 0\n", "ok\n", "ok\nok\nok\n", "committed 2\nok\n"],
        |store| store.transact_writes(&unit(1), 1, &two),
    );
    assert_eq!(number, Some(2));
    assert_eq!(words, ["begin tx tx", "commit close"]);
    let (number, words) = sent(
        &[
            "opened 0\n",
            "ok\n",
            "ok\nE2 NotFound\n",
            "ok\n",
            "committed 3\nok\n",
        ],
        |store| store.once(&unit(1), 1, work),
    );
    assert_eq!(number, Some(3));
    assert_eq!(words, ["begin kept", "tx", "commit close"]);
    let (number, words) = sent(
        &[
            "opened 0\n",
            "ok\n",
            "ok\nE2 NotFound\n",
            "ok\ncommitted 4\nok\n",
        ],
        |store| store.once_writes(&unit(1), 1, &one),
    );
    assert_eq!(number, Some(4));
    assert_eq!(words, ["begin kept", "tx commit close"]);
    let (number, words) = sent(
        &["opened 0\n", "ok\n", "ok\ncommitted 9\n", "ok\n"],
        |store| store.once(&unit(1), 1, work),
    );
    assert_eq!(number, Some(9));
    assert_eq!(words, ["begin kept", "close"]);
}

#[test]
fn a_transaction_that_the_server_ended_is_begun_again() {
    let (answer, came) = talk(
        &[
            "opened 0\n",
            "ok\n",
            "E9 NoSuchHandle\n",
            "E9 NoSuchHandle\n",
            "ok\n",
            "ok\n",
            "committed 1\nok\n",
        ],
        |store| {
            let delete = |tx: &Transaction<'_>| tx.delete_key(Key::new(0, "K"));
            // the moment is 0 at first, so that no line tells it
            store.at(Some(0))?;
            store.transact(&unit(1), 2, delete)
        },
    );
    assert_eq!(answer.unwrap(), Some(1));
    assert_eq!(came[1..3], ["tx 0 delete 0:K\n", "close 0\n"]);
    assert_eq!(came.len(), 6);
}

#[test]
fn a_label_that_is_in_use_is_not_given_again() {
    // the second transaction is refused, and what is sent with its begin must not reach the first
    let (answer, came) = talk(
        &[
            "opened 0\n",
            "ok\n",
            "E1 NoMemory\n",
            "E7 Conflict\nE9 NoSuchHandle\nE9 NoSuchHandle\nE9 NoSuchHandle\n",
        ],
        |store| {
            let mut writes = Writes::new();
            writes.delete_key(Key::new(0, "K"))?;
            store.at(Some(0))?;
            let refused = store.transaction(&unit(1))?.rollback();
            assert!(matches!(refused, Err(Error::Refused(Refusal::NoMemory, _))));
            store.transact_writes(&unit(1), 1, &writes)
        },
    );
    assert!(refused(&answer, Refusal::Conflict));
    assert!(came[0].starts_with("begin 0 ") && came[1] == "close 0\n");
    assert!(came[2].starts_with("begin 1 ") && came[2].ends_with("\ncommit 1\nclose 1\n"));
}

#[test]
fn threads_count_together() {
    fn count(tx: &Transaction<'_>) -> Result<(), Error> {
        // from this on no other transaction writes values of the key, so that what is read stays
        tx.set_value(SOFTWARE, "turn", &Value::dword(0))?;
        let count = tx.get_value(SOFTWARE, "count")?.to_u32().unwrap();
        tx.set_value(SOFTWARE, "count", &Value::dword(count + 1))
    }
    let scratch = Scratch::new();
    let served = Served::new(&scratch, &[]);
    let store = served.connect();
    store.create_key(SOFTWARE).unwrap();
    store
        .set_value(SOFTWARE, "count", &Value::dword(0))
        .unwrap();
    let threads: Vec<_> = (0..THREADS)
        .map(|thread| {
            // a store goes to another thread
            let store = served.connect();
            thread::spawn(move || {
                for turn in 0..TURNS {
                    let number = (thread as u128) << 64 | u128::from(turn);
                    store.transact(&unit(number), 1_000, count).unwrap();
                }
                store.once(&unit(1 << 100), 40, count).unwrap()
            })
        })
        .collect();
    let done: Vec<_> = threads
        .into_iter()
        .map(|each| each.join().unwrap())
        .collect();
    assert!(done[0].is_some() && done.iter().all(|number| *number == done[0]));
    let counted = store.get_value(SOFTWARE, "count").unwrap().to_u32();
    assert_eq!(counted, Some(THREADS as u32 * TURNS + 1));
    store.close().unwrap();
    assert_eq!(served.end("-TERM"), Some(0));
}

#[test]
fn a_unit_at_hand_elsewhere_is_waited_for() {
    let scratch = Scratch::new();
    let served = Served::new(&scratch, &[]);
    let (store, other) = (served.connect(), served.connect());
    let held = other.transaction(&unit(1)).unwrap();
    held.create_key(SOFTWARE).unwrap();
    let twice = |tx: &Transaction<'_>| tx.create_key(Key::new(1, "Twice")).map(|_| ());
    assert!(refused(&store.once(&unit(1), 2, twice), Refusal::Conflict));
    let waiting = thread::spawn(move || {
        let number = store.once(&unit(1), 20, twice).unwrap();
        (store, number)
    });
    assert_eq!(held.commit().unwrap(), Some(1));
    let (store, number) = waiting.join().unwrap();
    assert_eq!(number, Some(1));
    assert_eq!(store.subkeys(Key::new(1, "")).unwrap(), [""; 0]);
    drop((store, other));
    assert_eq!(served.end("-TERM"), Some(0));
}

#[test]
fn a_killed_server_is_told_and_work_is_done_once() {
    let scratch = Scratch::new();
    let mut served = Served::new(&scratch, &[]);
    for life in 0..4_u128 {
        let store = served.connect();
        let create = |tx: &Transaction<'_>| tx.create_key(Key::new(0, "K")).map(|_| ());
        let number = store.once(&unit(life), 1, create).unwrap();
        // a creation of a key that is there writes nothing
        assert_eq!(number.is_some(), life == 0);
        let write =
            |tx: &Transaction<'_>| tx.set_value(Key::new(0, "K"), "v", &Value::dword(life as u32));
        let number = store.once(&unit(100 + life), 1, write).unwrap();
        if life % 2 == 0 {
            assert_eq!(served.kill_program(), Some(1));
        } else {
            assert_eq!(served.end("-KILL"), None);
        }
        assert!(matches!(
            store.once(&unit(100 + life), 1, write),
            Err(Error::Ended(_))
        ));
        drop(store);
        served = Served::again(&scratch, &[]);
        let again = served.connect().once(&unit(100 + life), 1, write).unwrap();
        assert_eq!(again, number);
    }
    assert_eq!(served.end("-TERM"), Some(0));
    assert_eq!(scratch.replies("get 0:K v\n"), ["value 4 03000000"]);
}

//! Those who follow or watch a server's store, and backups.

mod common;

use common::{unit, Scratch, Served, SOFTWARE};
use regtx_client::{Error, Key, Options, Refusal, Requests, Store, Value};
use std::fs;
use std::io::{BufRead, BufReader, Write};
use std::net::Shutdown;
use std::os::unix::net::UnixListener;
use std::path::Path;
use std::thread;
use std::time::Duration;

const MOMENT: u64 = 133_536_834_155_000_000;

fn refused<T>(answer: &Result<T, Error>, with: Refusal) -> bool {
    matches!(answer, Err(Error::Refused(why, _)) if *why == with)
}

/// A server whose first client is told that the store is open, and whose next one is told these
/// texts: the first at once, and each other one after a line of these came.
fn saying(socket: &Path, said: &'static [&str], wanted: &'static [&str]) -> Store {
    let listener = UnixListener::bind(socket).unwrap();
    thread::spawn(move || {
        let mut first = listener.accept().unwrap().0;
        first.write_all(b"opened 3\n").unwrap();
        let mut client = listener.accept().unwrap().0;
        let mut lines = BufReader::new(client.try_clone().unwrap()).lines();
        client.write_all(said[0].as_bytes()).unwrap();
        for (text, line) in said[1..].iter().zip(wanted) {
            assert_eq!(lines.next().unwrap().unwrap(), *line);
            client.write_all(text.as_bytes()).unwrap();
        }
        client.shutdown(Shutdown::Both).unwrap();
        // the first one stays until its client goes
        let _ = BufReader::new(first).lines().next();
    });
    Store::connect(socket, &Options::new().timeout(Duration::from_secs(60))).unwrap()
}

#[test]
fn a_backup_is_a_store() {
    let scratch = Scratch::new();
    let folder = scratch.at("backups");
    fs::create_dir(&folder).unwrap();
    let served = Served::with_backups(&scratch, &folder);
    let store = served.connect();
    store.create_key(SOFTWARE).unwrap();
    assert_eq!(store.backup("one").unwrap(), 1);
    store.create_key(Key::new(1, "Later")).unwrap();
    assert!(refused(&store.backup("one"), Refusal::Conflict));
    let stats = store.stats().unwrap();
    assert_eq!((stats.number, stats.durable), (2, 2));
    assert_eq!((stats.clients, stats.waiting), (1, 0));
    assert!(stats.room > 65);
    for name in ["", ".a", "a b", "a/b"] {
        assert!(refused(&store.backup(name), Refusal::BadName));
    }
    assert!(matches!(store.backup("ä"), Err(Error::WrongName(..))));
    assert_eq!(store.subkeys(Key::new(1, "")).unwrap(), ["Later"]);
    let copy = Store::open(folder.join("one"), &scratch.options()).unwrap();
    assert_eq!(copy.opened_at(), 1);
    assert_eq!(copy.subkeys(Key::new(0, "")).unwrap(), ["Software"]);
    assert!(copy.subkeys(Key::new(1, "")).unwrap().is_empty());
    assert_eq!(served.end("-TERM"), Some(0));
}

#[test]
fn what_is_no_servers_is_not_followed() {
    let scratch = Scratch::new();
    let store = scratch.store();
    assert!(refused(&store.backup("one"), Refusal::Unsupported));
    assert!(refused(&store.stats(), Refusal::Unsupported));
    assert!(refused(&store.follow(0), Refusal::Unsupported));
    assert!(refused(&store.watch(SOFTWARE), Refusal::Unsupported));
    assert_eq!(store.subkeys(Key::new(0, "")).unwrap(), ["Software"]);
}

#[test]
fn changes_come_as_they_are_durable() {
    let scratch = Scratch::new();
    let served = Served::new(&scratch, &[]);
    let store = served.connect();
    store.at(Some(MOMENT)).unwrap();
    store.create_key(SOFTWARE).unwrap();
    let tx = store.transaction(&unit(1)).unwrap();
    tx.set_value(SOFTWARE, "a b", &Value::dword(7)).unwrap();
    tx.create_key(Key::new(1, "B")).unwrap();
    assert_eq!(tx.commit().unwrap(), Some(2));
    assert!(refused(&store.backup("one"), Refusal::Unsupported));
    let mut follower = store.follow(0).unwrap();
    let watcher = store.watch(Key::new(1, "B")).unwrap();
    assert_eq!(watcher.number(), 2);
    let first = follower.next().unwrap().unwrap();
    assert_eq!((first.number, first.moment, first.unit), (1, MOMENT, None));
    assert_eq!(first.lines, ["create 0:Software"]);
    let second = follower.next().unwrap().unwrap();
    assert_eq!((second.number, second.unit), (2, Some(unit(1))));
    let lines = ["set 0:Software a%0020b 4 07000000", "create 1:B"];
    assert_eq!(second.lines, lines);
    let ahead = store.follow(99).unwrap().next().unwrap();
    assert!(matches!(ahead, Err(Error::CannotFollow(2))));
    let followed = thread::spawn(move || {
        let numbers: Vec<u64> = follower.by_ref().map(|each| each.unwrap().number).collect();
        (numbers, follower.number())
    });
    let watched = thread::spawn(move || watcher.map(|each| each.unwrap()).collect::<Vec<u64>>());
    store.create_key(Key::new(1, "B\\C")).unwrap();
    store.create_key(Key::new(1, "D")).unwrap();
    store.flush().unwrap();
    store.close().unwrap();
    assert_eq!(served.end("-TERM"), Some(0));
    assert_eq!(followed.join().unwrap(), (vec![3, 4], 4));
    assert_eq!(watched.join().unwrap(), [3]);
}

/// What begins once it has a place: one who has gone may have it a little longer, until its session
/// has ended.
fn soon<T>(begin: impl Fn() -> Result<T, Error>) -> T {
    for _ in 0..3_000 {
        match begin() {
            Err(Error::Refused(Refusal::NoSeat, _)) => thread::sleep(Duration::from_millis(10)),
            begun => return begun.unwrap(),
        }
    }
    panic!("no place becomes free");
}

#[test]
fn another_thread_ends_one_who_follows() {
    let scratch = Scratch::new();
    let served = Served::new(&scratch, &["-n", "2"]);
    let store = served.connect();
    for _ in 0..5 {
        let mut follower = soon(|| store.follow(0));
        let end = follower.ender().unwrap();
        let waiting = thread::spawn(move || follower.next().is_none());
        end.end();
        assert!(waiting.join().unwrap());
        // one that is dropped frees its place
        drop(soon(|| store.watch(SOFTWARE)));
    }
    store.close().unwrap();
    assert_eq!(served.end("-TERM"), Some(0));
}

#[test]
fn it_goes_on_after_a_pause() {
    let scratch = Scratch::new();
    let said: &[&str] = &[
        "opened 3\n",
        "change 4 5 1 -\ncreate 0:A\nfollowed 4\n",
        "change 5 5 0 -\nfollowed 5\n",
    ];
    let store = saying(&scratch.at("fake"), said, &["follow 3", "follow 4"]);
    let mut follower = store.follow(3).unwrap();
    let numbers: Vec<u64> = follower.by_ref().map(|each| each.unwrap().number).collect();
    assert_eq!((numbers, follower.number()), (vec![4, 5], 5));
}

#[test]
fn a_watcher_is_told_after_a_pause() {
    let scratch = Scratch::new();
    let said: &[&str] = &[
        "opened 3\n",
        "watching 3\nchanged 5\nfollowed 6\n",
        "watching 8\nchanged 9\nE2 NotFound after 12\n",
    ];
    let asked = &["watch 0:Software", "watch 0:Software"];
    let store = saying(&scratch.at("fake"), said, asked);
    let mut watcher = store.watch(SOFTWARE).unwrap();
    let numbers: Vec<Option<u64>> = watcher.by_ref().map(Result::ok).collect();
    assert_eq!(numbers, [Some(5), Some(8), Some(9), None]);
    assert_eq!(watcher.number(), 9);
    assert!(watcher.next().is_none());
}

#[test]
fn a_loss_is_no_end() {
    for (said, told) in [
        (&["opened 3\n", ""][..], 0),
        (&["opened 3\n", "change 4 5 2 -\ncreate 0:A\n"], 0),
        (&["opened 3\n", "change 4 5 1 -\ncreate 0"], 0),
        (&["opened 3\n", "change 4 5 1 -\ncreate 0:A\n"], 1),
    ] {
        let scratch = Scratch::new();
        let store = saying(&scratch.at("fake"), said, &["follow 3"]);
        let changes: Vec<_> = store.follow(3).unwrap().collect();
        assert_eq!(changes.len(), told + 1);
        assert!(matches!(changes[told], Err(Error::Ended(_))));
    }
}

#[test]
fn what_is_said_instead_is_told() {
    let scratch = Scratch::new();
    let none = saying(&scratch.at("none"), &["E10 NoSeat\n"], &[]);
    assert!(refused(&none.follow(3), Refusal::NoSeat));
    let said = &["opened 3\n", "E1 NoMemory\n"];
    let full = saying(&scratch.at("full"), said, &["follow 3"]);
    let changes: Vec<_> = full.follow(3).unwrap().collect();
    assert!(refused(&changes[0], Refusal::NoMemory));
    assert_eq!(changes.len(), 1);
    let said = &["opened 3\n", "what\n"];
    let wrong = saying(&scratch.at("wrong"), said, &["watch 0:Software"]);
    assert!(matches!(wrong.watch(SOFTWARE), Err(Error::Reply(_))));
}

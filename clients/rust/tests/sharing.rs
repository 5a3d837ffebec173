//! What threads share: a store, and a pool of connections.

mod common;

use common::{unit, Scratch, Served, SOFTWARE};
use regtx_client::{
    Error, FollowEnd, Follower, Key, Options, Pool, Pooled, Refusal, Requests, Session, Store,
    Transaction, Value, Watcher, Writes,
};
use std::mem;
use std::sync::atomic::{AtomicUsize, Ordering};
use std::thread;
use std::time::Duration;

const THREADS: usize = 8;
const TURNS: u32 = 10;
const MOMENT: u64 = 133_536_834_155_000_000;

fn is_shared<T: Send + Sync>() {}
fn is_sent<T: Send>() {}

fn count(tx: &Transaction<'_>) -> Result<(), Error> {
    // from this on no other transaction writes values of the key, so that what is read stays
    tx.set_value(SOFTWARE, "turn", &Value::dword(0))?;
    let count = tx.get_value(SOFTWARE, "count")?.to_u32().unwrap();
    tx.set_value(SOFTWARE, "count", &Value::dword(count + 1))
}

fn begin_to_count(store: &Store) {
    store.create_key(SOFTWARE).unwrap();
    store
        .set_value(SOFTWARE, "count", &Value::dword(0))
        .unwrap();
}

fn counted(store: &Store) -> Option<u32> {
    store.get_value(SOFTWARE, "count").unwrap().to_u32()
}

fn number(thread: usize, turn: u32) -> u128 {
    (thread as u128) << 64 | u128::from(turn)
}

#[test]
fn types_are_shared_and_sent() {
    is_shared::<Store>();
    is_shared::<Session<'_>>();
    is_shared::<Pool>();
    is_shared::<Pooled<'_>>();
    is_shared::<Options>();
    is_shared::<Error>();
    is_shared::<Writes>();
    is_sent::<Transaction<'_>>();
    is_sent::<Follower>();
    is_sent::<Watcher>();
    is_sent::<FollowEnd>();
}

#[test]
fn threads_share_a_run() {
    let scratch = Scratch::new();
    let store = scratch.store();
    begin_to_count(&store);
    let shared = &store;
    thread::scope(|scope| {
        for thread in 0..THREADS {
            scope.spawn(move || {
                let session = shared.session().unwrap();
                for turn in 0..TURNS {
                    let unit = unit(number(thread, turn));
                    // of the first session, and of one of its own
                    let done = match turn % 2 {
                        0 => shared.transact(&unit, 10_000, count),
                        _ => session.transact(&unit, 10_000, count),
                    };
                    done.unwrap();
                }
            });
        }
    });
    assert_eq!(counted(&store), Some(THREADS as u32 * TURNS));
    store.close().unwrap();
}

#[test]
fn a_transaction_goes_to_another_thread() {
    let scratch = Scratch::new();
    let store = scratch.store();
    let tx = store.transaction(&unit(1)).unwrap();
    tx.set_value(SOFTWARE, "v", &Value::dword(1)).unwrap();
    let done = thread::scope(|scope| scope.spawn(move || tx.commit()).join().unwrap());
    assert!(done.unwrap().is_some());
    assert_eq!(store.value_names(SOFTWARE).unwrap(), ["v"]);
    store.close().unwrap();
}

#[test]
fn a_pool_has_so_many_connections() {
    const MOST: usize = 3;
    let scratch = Scratch::new();
    // a fourth one would find no place
    let served = Served::new(&scratch, &["-n", "3"]);
    let pool = Pool::new(served.socket(), &Options::new(), MOST);
    begin_to_count(&pool.get().unwrap());
    let (taken, most) = (AtomicUsize::new(0), AtomicUsize::new(0));
    thread::scope(|scope| {
        for thread in 0..THREADS {
            let (pool, taken, most) = (&pool, &taken, &most);
            scope.spawn(move || {
                for turn in 0..TURNS {
                    let store = pool.get().unwrap();
                    most.fetch_max(taken.fetch_add(1, Ordering::SeqCst) + 1, Ordering::SeqCst);
                    let unit = unit(number(thread, turn));
                    store.transact(&unit, 10_000, count).unwrap();
                    taken.fetch_sub(1, Ordering::SeqCst);
                }
            });
        }
    });
    assert!(most.into_inner() <= MOST);
    assert_eq!(counted(&pool.get().unwrap()), Some(THREADS as u32 * TURNS));
    pool.close();
    // all places are free once it is closed
    let stores: Vec<Store> = (0..MOST).map(|_| served.connect()).collect();
    drop(stores);
    assert_eq!(served.end("-TERM"), Some(0));
}

#[test]
fn a_connection_comes_back_as_a_new_one() {
    let scratch = Scratch::new();
    let served = Served::new(&scratch, &["-n", "1"]);
    let pool = Pool::new(served.socket(), &Options::new(), 1);
    let store = pool.get().unwrap();
    begin_to_count(&store);
    store.at(Some(MOMENT)).unwrap();
    let tx = store.transaction(&unit(1)).unwrap();
    tx.set_value(SOFTWARE, "count", &Value::dword(7)).unwrap();
    // nobody ends it, so its connection isn't given on: else the next one would meet a conflict
    mem::forget(tx);
    drop(store);
    let store = pool.get().unwrap();
    store.transact(&unit(2), 1, count).unwrap();
    assert_eq!(counted(&store), Some(1));
    assert_ne!(store.key_info(SOFTWARE).unwrap().written, MOMENT);
    let opened_at = store.opened_at();
    drop(store);
    // the same connection, to which the change of its last user is later
    assert_eq!(pool.get().unwrap().opened_at(), opened_at);
    assert_eq!(served.end("-TERM"), Some(0));
}

#[test]
fn a_pool_outlives_a_server() {
    let scratch = Scratch::new();
    let options = Options::new().timeout(Duration::from_secs(60));
    let pool = Pool::new(scratch.at("socket"), &options, 1);
    // twice, since a place that isn't given back would be waited for
    for _ in 0..2 {
        assert!(matches!(pool.get(), Err(Error::Io(_))));
    }
    let served = Served::new(&scratch, &[]);
    begin_to_count(&pool.get().unwrap());
    assert_eq!(served.end("-TERM"), Some(0));
    let served = Served::again(&scratch, &[]);
    // the idle one was ended
    pool.get().unwrap().transact(&unit(1), 1, count).unwrap();
    let store = pool.get().unwrap();
    assert_eq!(served.kill_program(), Some(1));
    assert!(matches!(store.flush(), Err(Error::Ended(_))));
    drop(store);
    let served = Served::again(&scratch, &[]);
    assert_eq!(counted(&pool.get().unwrap()), Some(1));
    assert_eq!(served.end("-TERM"), Some(0));
}

#[test]
fn a_thread_that_panics_gives_its_place_back() {
    let scratch = Scratch::new();
    let served = Served::new(&scratch, &["-n", "1"]);
    let pool = Pool::new(served.socket(), &Options::new(), 1);
    let ended = thread::scope(|scope| {
        let panics = || {
            let store = pool.get().unwrap();
            store.create_key(SOFTWARE).unwrap();
            std::panic::resume_unwind(Box::new("on purpose"));
        };
        scope.spawn(panics).join().is_err()
    });
    assert!(ended);
    let store = pool.get().unwrap();
    assert_eq!(store.subkeys(Key::new(0, "")).unwrap(), ["Software"]);
    let refused = store.get_value(SOFTWARE, "v");
    assert!(matches!(refused, Err(Error::Refused(Refusal::NotFound, _))));
    drop(store);
    assert_eq!(served.end("-TERM"), Some(0));
}

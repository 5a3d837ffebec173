//! Threads that hand each other receipts, and read what these made durable.
use crate::registries::calls::{Answer, Calls, key};
use crate::registries::device::{Device, NO_FAILURE};
use crate::registries::playing::{Left, Scene, play as play_scene};
use crate::registries::steps::Wrong;
use flusher::{OpenGate, run_beside};
use histories::Start;
use ktm_calls::{Key, Receipt, Registry, Session};
use refusals::Refusal;
use shared_store::{Worker, run_workers};
use std::alloc::Global;
use std::process::Abort;
use std::sync::atomic::{AtomicU64, Ordering};
use std::sync::{Mutex, Wait};
use std::test::Fail;
use std::thread::{self, Threads};
use store_engine::StoreEngine;

/// How many threads there are: as many as there may be sessions.
pub const THREADS: usize = 32;

// the keys that threads write, one for each
const KEYS: [&str; THREADS] = [
    "0", "1", "2", "3", "4", "5", "6", "7", "8", "9", "A", "B", "C", "D", "E", "F", "G", "H", "I",
    "J", "K", "L", "M", "N", "O", "P", "Q", "R", "S", "T", "U", "V",
];

// how often a thread writes; each round accepts two changes. The last one ends with a commit, not with a flush: whoever
// sleeps then has nobody after it who would make its change durable
const ROUNDS: u8 = 21;

// how many are accepted: a key for each thread, and its rounds
const ACCEPTED: u64 = THREADS as u64 * (1 + 2 * ROUNDS as u64);

// whose receipts a thread learns after each round, as distances from it
const NEIGHBOURS: [usize; 3] = [1, 6, 17];

// how often a thread lets others run before it writes, below this
const LONGEST_PAUSE: usize = 20;

// the room of a journal without changes, in bytes
const EMPTY: u64 = 65;

/// What threads share beside the registry: whether a flusher runs, and how often something was wrong.
#[derive(Drop)]
pub struct Sharing {
    with_flusher: bool,
    // how often a call was refused or had another answer than it must have
    wrong: AtomicU64,
    // how often something was read that a receipt's change isn't in
    stale: AtomicU64,
    // how many receipts were learnt after all had written
    learnt: AtomicU64,
    // the number of the flusher's end, and the room of the journal at the end
    stopped: AtomicU64,
    room: AtomicU64,
}

impl Sharing {
    fn new(with_flusher: bool) -> Sharing {
        Sharing {
            with_flusher,
            wrong: AtomicU64::new(0),
            stale: AtomicU64::new(0),
            learnt: AtomicU64::new(0),
            stopped: AtomicU64::new(0),
            room: AtomicU64::new(0),
        }
    }

    // this must be so
    fn judge(&self, right: bool) {
        if !right {
            self.wrong.fetch_add(1, Ordering::SeqCst);
        }
    }
}

// what one thread hands to the others: the receipt of its last round
#[derive(Drop)]
struct Slot<O: Start> {
    session: Option<Session<O>>,
    receipt: Option<Receipt<O>>,
    round: u8,
}

impl<O: Start> Slot<O> {
    fn empty() -> Slot<O> {
        Slot {
            session: None,
            receipt: None,
            round: 0,
        }
    }

    // the thread has written
    fn hand(&mut self, receipt: Receipt<O>, round: u8) {
        self.receipt = Some(receipt);
        self.round = round;
    }

    // a session learns the receipt, if there is one; the round that it is of
    fn teach(&self, session: &mut Session<O>) -> u8 {
        if let Some(receipt) = &self.receipt {
            session.learn(receipt);
        }
        self.round
    }
}

// what threads do
#[derive(Clone, Copy)]
enum Stage {
    // each writes, and learns what others hand it meanwhile
    Write,
    // each learns what all have written
    Read,
}

// threads with a slot for each
#[derive(Drop)]
struct Exchange<'a, O: Start> {
    alloc: Global,
    stage: Stage,
    sharing: &'a Sharing,
    slots: &'a [Mutex<Slot<O>>],
}

impl<'a, E: StoreEngine, O: Start, R: Wait> Worker<E, O, R> for Exchange<'a, O> {
    fn work(&self, rt: &R, registry: &Registry<E, O>, index: usize) {
        let calls = Calls {
            rt,
            alloc: self.alloc,
            registry,
        };
        let worked = match self.stage {
            Stage::Write => self.write_all(&calls, index),
            Stage::Read => self.read_all(&calls, index),
        };
        self.sharing.judge(worked.is_ok());
    }
}

impl<'a, O: Start> Exchange<'a, O> {
    // creates a key and writes in rounds; the session is left in the slot
    fn write_all<E: StoreEngine, R: Wait>(
        &self,
        calls: &Calls<'_, E, O, R>,
        index: usize,
    ) -> Result<(), Refusal> {
        let slot = self.slot(index)?;
        let own = key_of(calls.alloc, index)?;
        let mut session = calls.start()?;
        calls.create(&mut session, &own, 0)?;
        for round in 1..ROUNDS + 1 {
            pause(index);
            let receipt = self.write(calls, &mut session, &own, round)?;
            slot.lock(calls.rt).hand(receipt, round);
            self.learn(calls, &mut session, index)?;
        }
        slot.lock(calls.rt).session = Some(session);
        Ok(())
    }

    // a write by itself, and one in a transaction; the receipt of both
    fn write<E: StoreEngine, R: Wait>(
        &self,
        calls: &Calls<'_, E, O, R>,
        session: &mut Session<O>,
        own: &Key,
        round: u8,
    ) -> Result<Receipt<O>, Refusal> {
        let written = calls.set(session, own, "plain", round)?;
        self.sharing.judge(matches!(written, Answer::Accepted(_)));
        self.read_round(calls, session, own, "plain", round)?;
        let receipt = self.write_in_tx(calls, session, own, round)?;
        self.read_round(calls, session, own, "tx", round)?;
        if round % 2 == 0 {
            return calls.flush(session, own);
        }
        Ok(receipt)
    }

    // a write in a transaction
    fn write_in_tx<E: StoreEngine, R: Wait>(
        &self,
        calls: &Calls<'_, E, O, R>,
        session: &mut Session<O>,
        own: &Key,
        round: u8,
    ) -> Result<Receipt<O>, Refusal> {
        let tx = calls.begin(session)?;
        let written = calls.set_in(session, tx, own, "tx", round)?;
        self.sharing.judge(matches!(written, Answer::Added));
        let receipt = calls.commit(session, tx, 0)?;
        let closed = calls.close(session, tx)?;
        self.sharing.judge(matches!(closed, Answer::Done));
        Ok(receipt)
    }

    // reads what was written in a round
    fn read_round<E: StoreEngine, R: Wait>(
        &self,
        calls: &Calls<'_, E, O, R>,
        session: &mut Session<O>,
        own: &Key,
        name: &str,
        round: u8,
    ) -> Result<(), Refusal> {
        let read = calls.get(session, own, name)?;
        self.sharing
            .judge(matches!(read, Answer::Byte(byte) if byte == round));
        Ok(())
    }

    // learns what its neighbours have handed it so far
    fn learn<E: StoreEngine, R: Wait>(
        &self,
        calls: &Calls<'_, E, O, R>,
        session: &mut Session<O>,
        index: usize,
    ) -> Result<(), Refusal> {
        for distance in NEIGHBOURS {
            let other = index.wrapping_add(distance) % THREADS;
            let round = self.teach(calls.rt, session, other)?;
            if round > 0 {
                let theirs = key_of(calls.alloc, other)?;
                self.read_since(calls, session, &theirs, round)?;
            }
        }
        Ok(())
    }

    // a session learns what a thread has handed it so far; the round that it is of, or 0
    fn teach<R: Wait>(
        &self,
        rt: &R,
        session: &mut Session<O>,
        other: usize,
    ) -> Result<u8, Refusal> {
        let slot = self.slot(other)?;
        Ok(slot.lock(rt).teach(session))
    }

    // reads what another thread has written in a round, or since
    fn read_since<E: StoreEngine, R: Wait>(
        &self,
        calls: &Calls<'_, E, O, R>,
        session: &mut Session<O>,
        theirs: &Key,
        round: u8,
    ) -> Result<(), Refusal> {
        let plain = calls.get(session, theirs, "plain")?;
        self.judge_read(plain, round);
        let transacted = calls.get(session, theirs, "tx")?;
        self.judge_read(transacted, round);
        Ok(())
    }

    // what is read is of this round, or of a later one
    fn judge_read(&self, read: Answer, round: u8) {
        match read {
            Answer::Byte(byte) if byte >= round => {}
            _ => {
                self.sharing.stale.fetch_add(1, Ordering::SeqCst);
            }
        }
    }

    // the slot of a thread
    fn slot(&self, index: usize) -> Result<&Mutex<Slot<O>>, Refusal> {
        match self.slots.get(index) {
            Some(slot) => Ok(slot),
            None => Err(Refusal::NotFound),
        }
    }
}

impl<'a, O: Start> Exchange<'a, O> {
    // goes on with the session that is in the slot; every second one is ended, and others are put back
    fn read_all<E: StoreEngine, R: Wait>(
        &self,
        calls: &Calls<'_, E, O, R>,
        index: usize,
    ) -> Result<(), Refusal> {
        let slot = self.slot(index)?;
        let Some(mut session) = slot.lock(calls.rt).session.take() else {
            return Err(Refusal::NoSuchHandle);
        };
        for other in 0..THREADS {
            self.read_last(calls, &mut session, other)?;
        }
        if index % 2 == 0 {
            let ended = calls.end(session)?;
            self.sharing.judge(matches!(ended, Answer::Done));
        } else {
            slot.lock(calls.rt).session = Some(session);
        }
        Ok(())
    }

    // learns a thread's last receipt, and reads what its last round wrote
    fn read_last<E: StoreEngine, R: Wait>(
        &self,
        calls: &Calls<'_, E, O, R>,
        session: &mut Session<O>,
        other: usize,
    ) -> Result<(), Refusal> {
        if self.teach(calls.rt, session, other)? == ROUNDS {
            self.sharing.learnt.fetch_add(1, Ordering::SeqCst);
        }
        let theirs = key_of(calls.alloc, other)?;
        self.read_round(calls, session, &theirs, "plain", ROUNDS)?;
        self.read_round(calls, session, &theirs, "tx", ROUNDS)
    }
}

// lets others run for a while, some threads longer than others: then one may accept during the batch of another
fn pause(index: usize) {
    for _ in 0..index % LONGEST_PAUSE {
        thread::yield_now();
    }
}

/// The key of a thread.
pub fn key_of(alloc: Global, index: usize) -> Result<Key, Refusal> {
    key(alloc, KEYS[index % THREADS])
}

/// All threads write, and then all read.
pub fn play<E: StoreEngine + Send, O: Start + Send + Sync, R: Threads + Wait + Sync>(
    calls: &Calls<'_, E, O, R>,
    sharing: &Sharing,
    left: &mut Left<O>,
) -> Result<Option<Wrong>, Refusal> {
    let slots = empty_slots::<O>(calls.alloc)?;
    run(calls, sharing, slots.as_slice(), Stage::Write);
    run(calls, sharing, slots.as_slice(), Stage::Read);
    for slot in slots {
        leave(slot.into_inner(), left)?;
    }
    Ok(None)
}

// what is in a slot stays open until the registry ends
fn leave<O: Start>(slot: Slot<O>, left: &mut Left<O>) -> Result<(), Refusal> {
    let Slot {
        session,
        receipt,
        round: _,
    } = slot;
    if let Some(session) = session {
        left.sessions.push(session)?;
    }
    if let Some(receipt) = receipt {
        left.receipts.push(receipt)?;
    }
    Ok(())
}

fn empty_slots<O: Start>(alloc: Global) -> Result<Vec<Mutex<Slot<O>>>, Refusal> {
    let mut slots = Vec::new(alloc);
    for _thread in 0..THREADS {
        slots.push(Mutex::new(Slot::empty()))?;
    }
    Ok(slots)
}

// one stage, with a flusher beside if there is to be one
fn run<E: StoreEngine + Send, O: Start + Send + Sync, R: Threads + Wait + Sync>(
    calls: &Calls<'_, E, O, R>,
    sharing: &Sharing,
    slots: &[Mutex<Slot<O>>],
    stage: Stage,
) {
    let exchange = Exchange {
        alloc: calls.alloc,
        stage,
        sharing,
        slots,
    };
    if !sharing.with_flusher {
        work(calls, &exchange);
        return;
    }
    let (_done, flushed) = run_beside(calls.rt, calls.registry, &OpenGate, || {
        work(calls, &exchange)
    });
    if let Ok(stopped) = flushed {
        sharing.stopped.store(stopped.number(), Ordering::SeqCst);
    }
    sharing
        .room
        .store(calls.registry.room(calls.rt).bytes, Ordering::SeqCst);
}

// all threads
fn work<E: StoreEngine + Send, O: Start + Send + Sync, R: Threads + Wait + Sync>(
    calls: &Calls<'_, E, O, R>,
    exchange: &Exchange<'_, O>,
) {
    run_workers(calls.rt, calls.registry, exchange, THREADS);
}

// what was counted
fn counts(sharing: &Sharing) -> [u64; 5] {
    [
        sharing.wrong.load(Ordering::SeqCst),
        sharing.stale.load(Ordering::SeqCst),
        sharing.learnt.load(Ordering::SeqCst),
        sharing.stopped.load(Ordering::SeqCst),
        sharing.room.load(Ordering::SeqCst),
    ]
}

fn check_shared<R: Threads + Wait + Sync + Abort>(
    rt: &R,
    alloc: Global,
    with_flusher: bool,
    ended: [u64; 2],
) -> Result<(), Refusal> {
    let device = Device::new(alloc, NO_FAILURE)?;
    let sharing = Sharing::new(with_flusher);
    let played = play_scene(rt, alloc, &device, Scene::Sharing(&sharing))?;
    let learnt = (THREADS * THREADS) as u64;
    assert!(rt; played.is_well(ACCEPTED), "{played:?}");
    assert_eq!(rt; counts(&sharing), [0, 0, learnt, ended[0], ended[1]]);
    Ok(())
}

#[test]
fn threads_see_what_they_have_learnt(rt: HostRuntime) -> Result<(), Fail> {
    check_shared(&rt, rt.alloc(), false, [0, 0])?;
    check_shared(&rt, rt.alloc(), true, [ACCEPTED, EMPTY])?;
    Ok(())
}

//! What one thread does, as a table in words: a line is a step, and after a `>` the answer that it must have.
//!
//! Sessions and transactions are named by their order, from 0 on:
//!
//! - `start`, `fill`, `closed`, `end`: a session is opened, or sessions until there are 32, or one is taken that isn't
//!   open; the last one ends
//! - `S flush`, `S learn`, `S begin`: session S makes all durable, learns the last receipt, or begins a transaction
//! - `S on KEY ..`: its call on a key, which is named by its path, in hive 0 if no other is named: `create MOMENT`,
//!   `delete`, `set NAME BYTE`, `unset NAME`, `get NAME`, `info`, `open`, `key INDEX`, `value INDEX`
//! - `S in T KEY ..`: the same in transaction T
//! - `S whole MOMENT ..`: a whole transaction of operations in a row: `create KEY`, `delete KEY`, `set KEY NAME BYTE`,
//!   `unset KEY NAME`
//! - `S of T ..`: its call on the transaction: `outcome`, `commit MOMENT`, `rollback`, `close`
//! - `flusher ..`: `stop` tells it to stop, `run` runs it on this thread until it ends, `turn` is one turn, `hive` are
//!   turns until one ends the flush of a hive, `checkpoint` are its steps until there is nothing to do, `room` is the
//!   journal's room in bytes, `await ROOM` lets others run until no more is used
//! - `fail`: the device is to fail
//!
//! A table is text, so what is proved doesn't grow with its lines.
use crate::registries::calls::{Answer, Calls, KIND, key, value_of};
use crate::registries::device::Device;
use crate::registries::flushing::MOST_TURNS;
use crate::registries::playing::Left;
use disk_model::Progress;
use flusher::{Gate, OpenGate, run_beside, run_flusher};
use histories::Start;
use ktm_calls::{EventKind, Key, Receipt, Session};
use published_trees::MOST_READERS;
use refusals::Refusal;
use reg_names::Name;
use reg_tree::{Data, Op};
use std::alloc::Global;
use std::sync::Wait;
use std::sync::atomic::{AtomicBool, Ordering};
use std::thread::{self, Threads};
use store_engine::StoreEngine;
use store_model::Tx;

// enough for a thread that has nothing to do to fall asleep
const SOME_TURNS: u64 = 1_000;

// more than a flush has
const MOST_STEPS: u64 = 1_000;

/// An answer that is not as expected.
#[derive(Clone, Copy, Debug)]
pub struct Wrong {
    /// The line, from 0 on.
    pub line: usize,
    /// What was answered.
    pub came: Answer,
}

/// Takes the steps of a table. Answers the first answer that is not as expected.
pub fn play<E: StoreEngine, O: Start, R: Wait>(
    calls: &Calls<'_, E, O, R>,
    device: &Device,
    left: &mut Left<O>,
    table: &str,
) -> Result<Option<Wrong>, Refusal> {
    let mut line = 0usize;
    for text in table.lines() {
        let (step, expected) = text.split_once(" > ").unwrap_or((text, "Done"));
        let came = left.step(calls, device, step)?;
        if !is_text_of(calls.alloc, came, expected)? {
            return Ok(Some(Wrong { line, came }));
        }
        line = line.saturating_add(1);
    }
    Ok(None)
}

// whether this is the text of an answer
fn is_text_of(alloc: Global, answer: Answer, text: &str) -> Result<bool, Refusal> {
    let came = format!(in alloc; "{answer:?}")?;
    Ok(came.as_str() == text)
}

/// The same beside a flusher, which is told to stop at the end. If it fails, that is told as one line more.
pub fn play_beside<E: StoreEngine + Send, O: Start + Send + Sync, R: Threads + Wait + Sync>(
    calls: &Calls<'_, E, O, R>,
    device: &Device,
    left: &mut Left<O>,
    table: &str,
) -> Result<Option<Wrong>, Refusal> {
    let gate = Beginning::new();
    let (played, flushed) = run_beside(calls.rt, calls.registry, &gate, || {
        gate.wait();
        play(calls, device, left, table)
    });
    match flushed {
        Ok(_stopped) => played,
        Err(told) => Ok(Some(Wrong {
            line: usize::MAX,
            came: Answer::of(&told),
        })),
    }
}

// lets others run for a while
fn let_fall_asleep() {
    for _ in 0..SOME_TURNS {
        thread::yield_now();
    }
}

// tells when a flusher has begun
#[derive(Drop)]
struct Beginning {
    begun: AtomicBool,
}

impl Beginning {
    fn new() -> Beginning {
        Beginning {
            begun: AtomicBool::new(false),
        }
    }

    // until it has, and probably sleeps
    fn wait(&self) {
        for _ in 0..MOST_TURNS {
            if self.begun.load(Ordering::SeqCst) {
                break;
            }
            thread::yield_now();
        }
        let_fall_asleep();
    }
}

impl Gate for Beginning {
    fn before_turn(&self) {
        self.begun.store(true, Ordering::SeqCst);
    }

    fn after_step(&self, _progress: Progress) {}
}

impl<O: Start> Left<O> {
    // one step
    fn step<E: StoreEngine, R: Wait>(
        &mut self,
        calls: &Calls<'_, E, O, R>,
        device: &Device,
        step: &str,
    ) -> Result<Answer, Refusal> {
        let words: Vec<&str> = step.split_whitespace().collect(calls.alloc)?;
        Ok(value_of(self.take(calls, device, words.as_slice())))
    }

    fn take<E: StoreEngine, R: Wait>(
        &mut self,
        calls: &Calls<'_, E, O, R>,
        device: &Device,
        words: &[&str],
    ) -> Result<Answer, Refusal> {
        match words {
            ["flusher", call @ ..] => flusher_call(calls, call),
            ["fail"] => {
                device.fail();
                Ok(Answer::Done)
            }
            [step] => self.session_step(calls, step),
            [session, call @ ..] => self.call(calls, index(session), call),
            [] => Ok(Answer::Done),
        }
    }

    // a session is opened or ends
    fn session_step<E: StoreEngine, R: Wait>(
        &mut self,
        calls: &Calls<'_, E, O, R>,
        step: &str,
    ) -> Result<Answer, Refusal> {
        match step {
            "start" => self.start(calls),
            "fill" => self.fill(calls),
            "closed" => self.take_closed(calls),
            "end" => self.end(calls),
            _ => Ok(Answer::Other),
        }
    }

    // a call of a session
    fn call<E: StoreEngine, R: Wait>(
        &mut self,
        calls: &Calls<'_, E, O, R>,
        session: usize,
        call: &[&str],
    ) -> Result<Answer, Refusal> {
        match call {
            ["flush"] => self.flush(calls, session),
            ["learn"] => self.learn(session),
            ["begin"] => self.begin(calls, session),
            ["on", path, call @ ..] => self.on_key(calls, session, path, call),
            ["in", tx, path, call @ ..] => self.in_tx(calls, session, index(tx), path, call),
            ["of", tx, call @ ..] => self.of_tx(calls, session, index(tx), call),
            ["whole", moment, ops @ ..] => self.whole(calls, session, number(moment), ops),
            _ => Ok(Answer::Other),
        }
    }

    fn start<E: StoreEngine, R: Wait>(
        &mut self,
        calls: &Calls<'_, E, O, R>,
    ) -> Result<Answer, Refusal> {
        let session = calls.start()?;
        let number = session.number();
        self.sessions.push(session)?;
        Ok(Answer::Session(number))
    }

    fn fill<E: StoreEngine, R: Wait>(
        &mut self,
        calls: &Calls<'_, E, O, R>,
    ) -> Result<Answer, Refusal> {
        for place in self.sessions.len()..MOST_READERS {
            let came = self.start(calls)?;
            match came {
                Answer::Session(number) if number as usize == place => {}
                _ => return Ok(came),
            }
        }
        Ok(Answer::Done)
    }

    fn take_closed<E: StoreEngine, R: Wait>(
        &mut self,
        calls: &Calls<'_, E, O, R>,
    ) -> Result<Answer, Refusal> {
        let session = calls.closed()?;
        let number = session.number();
        self.sessions.push(session)?;
        Ok(Answer::Session(number))
    }

    fn end<E: StoreEngine, R: Wait>(
        &mut self,
        calls: &Calls<'_, E, O, R>,
    ) -> Result<Answer, Refusal> {
        match self.sessions.pop() {
            Some(session) => calls.end(session),
            None => Ok(Answer::Other),
        }
    }

    fn flush<E: StoreEngine, R: Wait>(
        &mut self,
        calls: &Calls<'_, E, O, R>,
        session: usize,
    ) -> Result<Answer, Refusal> {
        let root = key(calls.alloc, "")?;
        let Some(session) = self.sessions.get_mut(session) else {
            return Ok(Answer::Other);
        };
        let receipt = calls.flush(session, &root)?;
        self.keep(receipt)
    }

    fn keep(&mut self, receipt: Receipt<O>) -> Result<Answer, Refusal> {
        let number = receipt.number();
        self.receipts.push(receipt)?;
        Ok(Answer::Receipt(number))
    }

    fn learn(&mut self, session: usize) -> Result<Answer, Refusal> {
        let Some(session) = self.sessions.get_mut(session) else {
            return Ok(Answer::Other);
        };
        let Some(receipt) = self.receipts.last() else {
            return Ok(Answer::Other);
        };
        session.learn(receipt);
        Ok(Answer::Done)
    }

    fn begin<E: StoreEngine, R: Wait>(
        &mut self,
        calls: &Calls<'_, E, O, R>,
        session: usize,
    ) -> Result<Answer, Refusal> {
        let Some(session) = self.sessions.get_mut(session) else {
            return Ok(Answer::Other);
        };
        let tx = calls.begin(session)?;
        self.transactions.push(tx)?;
        Ok(Answer::Done)
    }

    // a call on a key
    fn on_key<E: StoreEngine, R: Wait>(
        &mut self,
        calls: &Calls<'_, E, O, R>,
        session: usize,
        path: &str,
        call: &[&str],
    ) -> Result<Answer, Refusal> {
        let key = key(calls.alloc, path)?;
        match self.sessions.get_mut(session) {
            Some(session) => call_on(calls, session, &key, call),
            None => Ok(Answer::Other),
        }
    }

    // a call on a key in a transaction
    fn in_tx<E: StoreEngine, R: Wait>(
        &mut self,
        calls: &Calls<'_, E, O, R>,
        session: usize,
        tx: usize,
        path: &str,
        call: &[&str],
    ) -> Result<Answer, Refusal> {
        let key = key(calls.alloc, path)?;
        let Some(tx) = self.transactions.get(tx).copied() else {
            return Ok(Answer::Other);
        };
        match self.sessions.get_mut(session) {
            Some(session) => call_in(calls, session, tx, key, call),
            None => Ok(Answer::Other),
        }
    }

    // a whole transaction
    fn whole<E: StoreEngine, R: Wait>(
        &mut self,
        calls: &Calls<'_, E, O, R>,
        session: usize,
        moment: u64,
        words: &[&str],
    ) -> Result<Answer, Refusal> {
        let mut ops = Vec::new(calls.alloc);
        add_ops(calls.alloc, words, &mut ops)?;
        let Some(session) = self.sessions.get_mut(session) else {
            return Ok(Answer::Other);
        };
        let receipt = calls.transact(session, moment, ops)?;
        self.keep(receipt)
    }

    // a call on a transaction
    fn of_tx<E: StoreEngine, R: Wait>(
        &mut self,
        calls: &Calls<'_, E, O, R>,
        session: usize,
        tx: usize,
        call: &[&str],
    ) -> Result<Answer, Refusal> {
        let Some(tx) = self.transactions.get(tx).copied() else {
            return Ok(Answer::Other);
        };
        let Some(session) = self.sessions.get_mut(session) else {
            return Ok(Answer::Other);
        };
        match call {
            ["outcome"] => calls.outcome(session, tx),
            ["rollback"] => calls.roll_back(session, tx),
            ["close"] => calls.close(session, tx),
            ["commit", moment] => {
                let receipt = calls.commit(session, tx, number(moment))?;
                self.keep(receipt)
            }
            _ => Ok(Answer::Other),
        }
    }
}

// the operations that words name, one after another
fn add_ops(alloc: Global, words: &[&str], ops: &mut Vec<Op>) -> Result<(), Refusal> {
    let rest = match words {
        [] => return Ok(()),
        ["create", path, rest @ ..] => {
            let Key { hive, path, tx: _ } = key(alloc, path)?;
            ops.push(Op::CreateKey { hive, path })?;
            rest
        }
        ["delete", path, rest @ ..] => {
            let Key { hive, path, tx: _ } = key(alloc, path)?;
            ops.push(Op::DeleteKey { hive, path })?;
            rest
        }
        ["set", path, name, byte, rest @ ..] => {
            ops.push(set_of(alloc, path, name, byte_in(byte))?)?;
            rest
        }
        ["unset", path, name, rest @ ..] => {
            let Key { hive, path, tx: _ } = key(alloc, path)?;
            let name = Name::value_in_bytes(alloc, name.as_bytes())?;
            ops.push(Op::DeleteValue { hive, path, name })?;
            rest
        }
        _ => return Err(Refusal::BadName),
    };
    add_ops(alloc, rest, ops)
}

// the write of a value of one byte
fn set_of(alloc: Global, path: &str, name: &str, byte: u8) -> Result<Op, Refusal> {
    let Key { hive, path, tx: _ } = key(alloc, path)?;
    let name = Name::value_in_bytes(alloc, name.as_bytes())?;
    let data = Data::new(alloc, &[byte])?;
    let kind = KIND;
    Ok(Op::SetValue {
        hive,
        path,
        name,
        kind,
        data,
    })
}

// a call on a key
fn call_on<E: StoreEngine, O: Start, R: Wait>(
    calls: &Calls<'_, E, O, R>,
    session: &mut Session<O>,
    key: &Key,
    call: &[&str],
) -> Result<Answer, Refusal> {
    match call {
        ["create", moment] => calls.create(session, key, number(moment)),
        ["delete"] => calls.delete(session, key),
        ["set", name, byte] => calls.set(session, key, name, byte_in(byte)),
        ["unset", name] => calls.unset(session, key, name),
        ["get", name] => calls.get(session, key, name),
        ["info"] => calls.info(session, key),
        ["key", place] => calls.key_at(session, key, index(place)),
        ["value", place] => calls.value_at(session, key, index(place)),
        _ => Ok(Answer::Other),
    }
}

// a call on a key in a transaction. What sets or deletes a value takes the transaction from the key
fn call_in<E: StoreEngine, O: Start, R: Wait>(
    calls: &Calls<'_, E, O, R>,
    session: &mut Session<O>,
    tx: Tx,
    key: Key,
    call: &[&str],
) -> Result<Answer, Refusal> {
    match call {
        ["create", moment] => calls.create_in(session, tx, &key, number(moment)),
        ["delete"] => calls.delete_in(session, tx, &key),
        ["set", ..] | ["unset", ..] => call_on(calls, session, &key.in_transaction(tx), call),
        ["get", name] => calls.get_in(session, tx, &key, name),
        ["info"] => calls.info_in(session, tx, &key),
        ["open"] => calls.open_in(session, tx, &key),
        ["key", place] => calls.key_at_in(session, tx, &key, index(place)),
        ["value", place] => calls.value_at_in(session, tx, &key, index(place)),
        _ => Ok(Answer::Other),
    }
}

/// The number that a word writes.
pub fn number(word: &str) -> u64 {
    word.parse::<u64>().unwrap_or(u64::MAX)
}

// the byte that a word writes
fn byte_in(word: &str) -> u8 {
    word.parse::<u8>().unwrap_or(u8::MAX)
}

// a place in a list
fn index(word: &str) -> usize {
    word.parse::<usize>().unwrap_or(usize::MAX)
}

// a call of the flusher, or on it
fn flusher_call<E: StoreEngine, O: Start, R: Wait>(
    calls: &Calls<'_, E, O, R>,
    call: &[&str],
) -> Result<Answer, Refusal> {
    match call {
        ["stop"] => {
            calls.registry.stop_flusher(calls.rt);
            Ok(Answer::Done)
        }
        ["run"] => Ok(run(calls)),
        ["turn"] => calls.turn(),
        ["hive"] => flush_hive(calls),
        ["checkpoint"] => calls.checkpoint(),
        ["room"] => Ok(Answer::Room(calls.registry.room(calls.rt).bytes)),
        ["await", room] => Ok(await_room(calls, number(room))),
        _ => Ok(Answer::Other),
    }
}

// runs the flusher on this thread until it ends
fn run<E: StoreEngine, O: Start, R: Wait>(calls: &Calls<'_, E, O, R>) -> Answer {
    match run_flusher(calls.rt, calls.registry, &OpenGate) {
        Ok(stopped) => Answer::Stopped(stopped.number()),
        Err(told) => Answer::of(&told),
    }
}

// turns until a step ends the flush of a hive
fn flush_hive<E: StoreEngine, O: Start, R: Wait>(
    calls: &Calls<'_, E, O, R>,
) -> Result<Answer, Refusal> {
    for _ in 0..MOST_STEPS {
        let came = calls.turn()?;
        if let Answer::Step(EventKind::FlusherStep { hive: _ }, Progress::More) = came {
            continue;
        }
        return Ok(came);
    }
    Ok(Answer::Other)
}

// lets others run until only so much room is used, or gives up; and then until a flusher probably sleeps
fn await_room<E: StoreEngine, O: Start, R: Wait>(calls: &Calls<'_, E, O, R>, room: u64) -> Answer {
    for _ in 0..MOST_TURNS {
        if calls.registry.room(calls.rt).bytes <= room {
            break;
        }
        thread::yield_now();
    }
    let_fall_asleep();
    Answer::Room(calls.registry.room(calls.rt).bytes)
}

//! The calls of a registry, each with its growths refused in turn; and the registry itself, whose engine comes back if
//! there is no memory for it.

use crate::engine_calls::{Answer, Found};
use crate::fault::Fault;
use crate::oom::asks::{Change, Look, VALUE_BYTES};
use crate::oom::claims::Claimed;
use crate::oom::digest::digest_of;
use crate::oom::opening::{made, opened};
use crate::oom::operations::TYPE;
use crate::oom::pictures::EnginePicture;
use crate::oom::registry_caller::{Caller, Patience};
use crate::oom::registry_calls::{Call, Calls, key_of, refusal_of};
use crate::oom::watched_disk::DiskWatch;
use crate::oom::{OomDisk, WatchedEngine, expect_no_memory, refused_again};
use engine::Engine;
use histories::{EventCount, Permission, RequestCount, Start};
use ktm_calls::{Asker, Ended, Key, Registry, Session};
use published_trees::{ChangeCount, SeenChanges};
use refusals::Refusal;
use std::alloc::Global;
use std::marker::Brand;
use std::sync::Wait;
use std::sync::ledger::Blank;
use store_engine::StoreEngine;
use store_model::Outcome;

/// What is called.
#[derive(Clone, Copy)]
enum Step {
    /// A call that may take memory, and its answer.
    Call(Call, Answer),
    /// One that takes none.
    Free(Call, Answer),
    /// A transaction is begun.
    Begin,
    /// Which writes meet a claim from now on, and which don't.
    Claims(&'static [Claimed]),
    /// A transaction is committed as the change of this number.
    Commit(usize, u64),
    /// All is made durable, up to this number.
    Flush(u64),
    /// The flusher's steps are made, and all is durable up to this number.
    Checkpoint(u64),
    /// The same by a flusher that is told to stop.
    Turns(u64),
    /// How many bytes of the journal's room are used.
    Room(u64),
}

const VALUE: Answer = Answer::Found(Found::Value(TYPE, VALUE_BYTES));

// writes by themselves, and reads
const WRITES: [Step; 13] = [
    Step::Call(Call::Write(Change::Create("A")), Answer::Accepted(1)),
    Step::Call(Call::Write(Change::Set("A", "v")), Answer::Accepted(2)),
    Step::Call(Call::Write(Change::Create("A\\B")), Answer::Accepted(3)),
    Step::Call(Call::Write(Change::Create("A\\B")), Answer::Opened),
    Step::Call(Call::Look("A", Look::Value("v")), VALUE),
    Step::Call(Call::Look("A", Look::ValueAt(0)), VALUE),
    Step::Call(
        Call::Look("A", Look::KeyAt(0)),
        Answer::Found(Found::Key(1, 0x42)),
    ),
    Step::Call(Call::Look("A", Look::Keys), Answer::Found(Found::Names(1))),
    Step::Call(
        Call::Look("A", Look::Values),
        Answer::Found(Found::Names(1)),
    ),
    Step::Call(
        Call::Look("A", Look::Info),
        Answer::Found(Found::Counts(1, 1, 1)),
    ),
    Step::Call(
        Call::Look("X", Look::Info),
        Answer::Refused(Refusal::NotFound),
    ),
    Step::Room(795),
    Step::Begin,
];

// a transaction: its writes, its reads and its commit
const TRANSACTION: [Step; 20] = [
    Step::Claims(&[
        Claimed::Free(Change::Create("C")),
        Claimed::Free(Change::Set("A", "p")),
    ]),
    Step::Call(Call::WriteIn(0, Change::Create("C")), Answer::Added),
    Step::Claims(&[
        Claimed::Met(Change::Create("C")),
        Claimed::Free(Change::Set("A", "p")),
    ]),
    Step::Call(Call::WriteIn(0, Change::Set("C", "w")), Answer::Added),
    Step::Call(Call::WriteIn(0, Change::Unset("A", "v")), Answer::Added),
    Step::Claims(&[
        Claimed::Met(Change::Create("C")),
        Claimed::Met(Change::Set("A", "p")),
        Claimed::Free(Change::Set("A\\B", "p")),
    ]),
    Step::Call(Call::WriteIn(0, Change::Delete("A\\B")), Answer::Added),
    Step::Claims(&[
        Claimed::Met(Change::Create("C")),
        Claimed::Met(Change::Set("A", "p")),
        Claimed::Met(Change::Set("A\\B", "p")),
    ]),
    Step::Call(
        Call::LookIn(0, "", Look::Keys),
        Answer::Found(Found::Names(2)),
    ),
    Step::Call(Call::LookIn(0, "C", Look::Value("w")), VALUE),
    Step::Call(Call::LookIn(0, "C", Look::ValueAt(0)), VALUE),
    Step::Call(
        Call::LookIn(0, "", Look::KeyAt(1)),
        Answer::Found(Found::Key(1, 0x43)),
    ),
    Step::Call(
        Call::LookIn(0, "C", Look::Values),
        Answer::Found(Found::Names(1)),
    ),
    Step::Call(
        Call::LookIn(0, "A", Look::Info),
        Answer::Found(Found::Counts(0, 0, 1)),
    ),
    Step::Call(Call::OpenIn(0, "C"), Answer::Found(Found::Counts(0, 1, 1))),
    Step::Call(Call::Write(Change::Create("D")), Answer::Accepted(4)),
    Step::Call(
        Call::LookIn(0, "", Look::Keys),
        Answer::Found(Found::Names(3)),
    ),
    Step::Commit(0, 5),
    Step::Free(Call::Outcome(0), Answer::OutcomeIs(Outcome::Committed)),
    Step::Claims(&[
        Claimed::Free(Change::Set("A", "p")),
        Claimed::Free(Change::Create("E")),
    ]),
];

// what else is called, with a transaction that is rolled back by a write, one that is rolled back, and one that stays
const REST: [Step; 26] = [
    Step::Call(Call::OutcomeOf, Answer::CommittedAs(5)),
    Step::Call(Call::StoredOutcome, Answer::CommittedAs(5)),
    Step::Room(1_565),
    Step::Call(Call::Write(Change::Delete("D")), Answer::Accepted(6)),
    Step::Call(Call::Write(Change::Unset("C", "w")), Answer::Accepted(7)),
    Step::Begin,
    Step::Call(Call::WriteIn(1, Change::Create("E")), Answer::Added),
    Step::Claims(&[
        Claimed::Free(Change::Set("A", "p")),
        Claimed::Met(Change::Create("E")),
    ]),
    Step::Call(Call::Write(Change::Create("E")), Answer::Accepted(8)),
    Step::Free(Call::Outcome(1), Answer::OutcomeIs(Outcome::RolledBack)),
    Step::Claims(&[
        Claimed::Free(Change::Set("E", "p")),
        Claimed::Free(Change::Create("F")),
    ]),
    Step::Begin,
    Step::Commit(2, 0),
    Step::Begin,
    Step::Call(Call::WriteIn(3, Change::Create("F")), Answer::Added),
    Step::Claims(&[
        Claimed::Free(Change::Set("E", "p")),
        Claimed::Met(Change::Create("F")),
    ]),
    Step::Flush(8),
    Step::Checkpoint(8),
    Step::Room(65),
    Step::Call(Call::Write(Change::Set("A", "v")), Answer::Accepted(9)),
    Step::Call(Call::Write(Change::Set("E", "v")), Answer::Accepted(10)),
    Step::Turns(10),
    Step::Room(65),
    Step::Free(Call::Rollback(3), Answer::Done),
    Step::Free(Call::Close(3), Answer::Done),
    Step::Free(Call::Outcome(3), Answer::Refused(Refusal::NoSuchHandle)),
];

/// Makes all calls: whether one was refused memory.
pub(crate) fn run<R: Wait>(rt: &R, alloc: Global, patience: Patience) -> Result<bool, Fault> {
    let mut was_refused = false;
    let WatchedEngine { engine, watch } = made(alloc, &mut was_refused)?;
    let (engine, was_denied) = lived(rt, alloc, engine, &watch, patience)?;
    was_refused = was_refused || was_denied;
    if engine.last_number() != 10 || engine.durable() != 10 {
        return Err(Fault::Otherwise("another last number"));
    }
    let trees = digest_of(engine.trees());
    let store = opened(alloc, engine.into_disk(), &mut was_refused)?;
    if store.number() == 10 && digest_of(store.trees()) == trees && store.is_whole() {
        Ok(was_refused)
    } else {
        Err(Fault::Otherwise("another store"))
    }
}

// a registry's life over an engine, which comes back as it was if there is no memory for the registry
fn lived<R: Wait>(
    rt: &R,
    alloc: Global,
    engine: Engine<OomDisk>,
    watch: &DiskWatch,
    patience: Patience,
) -> Result<(Engine<OomDisk>, bool), Fault> {
    let before = EnginePicture::of(&engine, watch);
    let (refusal, engine) = match live_once(rt, alloc, engine, watch, patience) {
        Ok((engine, lived)) => return Ok((engine, lived?)),
        Err(back) => back,
    };
    expect_no_memory(refusal)?;
    if EnginePicture::of(&engine, watch) != before {
        return Err(Fault::Otherwise("a refused registry has changed its engine"));
    }
    match live_once(rt, alloc, engine, watch, patience) {
        Ok((engine, lived)) => {
            lived?;
            Ok((engine, true))
        }
        Err((refusal, _)) => Err(refused_again(refusal)),
    }
}

// the same once
fn live_once<R: Wait>(
    rt: &R,
    alloc: Global,
    engine: Engine<OomDisk>,
    watch: &DiskWatch,
    patience: Patience,
) -> Result<(Engine<OomDisk>, Result<bool, Fault>), (Refusal, Engine<OomDisk>)> {
    let (count, seen) = ChangeCount::open();
    live_over::<Brand, _, _>(rt, alloc, engine, count, seen, watch, patience)
}

// the same over any engine that was just opened
fn live_over<O: Start, E: StoreEngine + Drop, R: Wait>(
    rt: &R,
    alloc: Global,
    engine: E,
    count: ChangeCount,
    seen: SeenChanges,
    watch: &DiskWatch,
    patience: Patience,
) -> Result<(E, Result<bool, Fault>), (Refusal, E)> {
    let (requests, share) = Blank::new(1).open::<O>();
    let requests = RequestCount::new(requests);
    let events = EventCount::open();
    let asker = Asker::first(&events, &seen, Permission::sole(share));
    let registry = match Registry::<E, O>::new(alloc, rt, engine, events, requests, count, seen) {
        Ok(registry) => registry,
        Err(back) => return Err(back),
    };
    let lived = live(
        &Calls {
            rt,
            alloc,
            registry: &registry,
            watch,
        },
        patience,
    );
    let Ended {
        engine,
        events: _,
        durable: _,
    } = registry.end(rt, asker, Vec::new(alloc));
    Ok((engine, lived))
}

fn live<O: Start, E: StoreEngine, R: Wait>(
    calls: &Calls<'_, E, O, R>,
    patience: Patience,
) -> Result<bool, Fault> {
    let mut was_refused = false;
    let keys = keys_of(calls.alloc)?;
    let session = session_of(calls, &mut was_refused)?;
    let reader = session_of(calls, &mut was_refused)?;
    let mut caller = Caller::new(calls.alloc, session, reader, keys, was_refused);
    let played = caller.take_all(calls, patience);
    let ended = caller.end(calls);
    played?;
    ended
}

// the keys that are looked at
fn keys_of(alloc: Global) -> Result<Vec<Key>, Fault> {
    let mut keys = Vec::new(alloc);
    for at in ["", "A", "A\\B", "C", "D", "E", "F"] {
        keys.push(key_of(alloc, at)?)?;
    }
    Ok(keys)
}

// a session; if there is no memory for it nothing changes
fn session_of<O: Start, E: StoreEngine, R: Wait>(
    calls: &Calls<'_, E, O, R>,
    was_refused: &mut bool,
) -> Result<Session<O>, Fault> {
    let before = (calls.registry.room(calls.rt).bytes, calls.watch.calls());
    // these programs have no proofs, and so no permissions: their sessions ask with none
    let asker = calls.registry.asker(calls.rt, Permission::none());
    let (denied, asker) = match calls.registry.session(calls.rt, asker) {
        Ok((session, _told)) => return Ok(session),
        Err(denied) => denied,
    };
    expect_no_memory(refusal_of(&denied))?;
    *was_refused = true;
    if (calls.registry.room(calls.rt).bytes, calls.watch.calls()) != before {
        return Err(Fault::Otherwise("a refused session has changed something"));
    }
    match calls.registry.session(calls.rt, asker) {
        Ok((session, _told)) => Ok(session),
        Err((denied, _asker)) => Err(refused_again(refusal_of(&denied))),
    }
}

impl<O: Start> Caller<O> {
    fn take_all<E: StoreEngine, R: Wait>(
        &mut self,
        calls: &Calls<'_, E, O, R>,
        patience: Patience,
    ) -> Result<(), Fault> {
        for steps in [&WRITES[..], &TRANSACTION[..], &REST[..]] {
            for step in steps {
                self.take(calls, patience, *step)?;
            }
        }
        Ok(())
    }

    fn take<E: StoreEngine, R: Wait>(
        &mut self,
        calls: &Calls<'_, E, O, R>,
        patience: Patience,
        step: Step,
    ) -> Result<(), Fault> {
        let (answer, wanted) = match step {
            Step::Begin => return self.begin(calls),
            Step::Claims(claims) => {
                self.claims = claims;
                return Ok(());
            }
            Step::Room(room) if calls.registry.room(calls.rt).bytes == room => return Ok(()),
            Step::Room(_) => return Err(Fault::Otherwise("another used room")),
            Step::Call(what, wanted) => (self.asked(calls, what)?, wanted),
            Step::Free(what, wanted) => (self.asked_without_memory(calls, what)?, wanted),
            Step::Commit(index, number) => {
                let answer = self.commit(calls, index, patience)?;
                (answer, Answer::Receipt(number))
            }
            Step::Flush(number) => (self.flush(calls)?, Answer::Receipt(number)),
            Step::Checkpoint(number) => (self.checkpoint(calls)?, Answer::Receipt(number)),
            Step::Turns(number) => (self.turns(calls, patience)?, Answer::Receipt(number)),
        };
        if answer == wanted {
            Ok(())
        } else {
            Err(Fault::Otherwise("another answer of a session"))
        }
    }
}

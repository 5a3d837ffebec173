//! An engine, and the events that may take memory: one that is refused memory has changed nothing, and is made again.
use crate::engine_calls::{Answer, ask, finish, prepare_commit, prepare_write, run};
use crate::fault::Fault;
use crate::oom::asks::{Ask, Change, event_of, op_of, tx_of};
use crate::oom::claims::{Claimed, expect_claims};
use crate::oom::digest::Digest;
use crate::oom::pictures::{EnginePicture, outcomes_of};
use crate::oom::watched_disk::DiskWatch;
use crate::oom::{OomDisk, WatchedEngine};
use engine::Engine;
use refusals::Refusal;
use std::alloc::Global;
use std::sync::Arc;
use store_model::{Progress, Tx};

/// An engine, and what is under way in it.
#[derive(Drop)]
pub(crate) struct EngineDriver {
    /// The engine.
    pub engine: Engine<OomDisk>,
    /// Whether a call was refused memory.
    pub was_refused: bool,
    /// A transaction that is active, for what takes no memory.
    pub tx: Option<Tx>,
    /// Whether a batch of the journal or a trim is under way.
    pub is_journaling: bool,
    /// Whether a flush of hive 0 is under way.
    pub is_flushing: bool,
    /// Writes that meet a claim now, and such that meet none.
    pub claims: &'static [Claimed],
    // what the disk tells
    watch: Arc<DiskWatch>,
    // all transactions that were begun, in their order
    transactions: Vec<Tx>,
}

/// How an event is asked.
#[derive(Clone, Copy)]
pub(crate) enum How {
    /// By itself.
    Event,
    /// As a run of one event.
    Run,
    /// Prepared and finished if it may accept a change, else by itself.
    InTwoParts,
}

impl EngineDriver {
    /// Nothing is under way.
    pub(crate) fn new(alloc: Global, made: WatchedEngine, was_refused: bool) -> EngineDriver {
        let WatchedEngine { engine, watch } = made;
        EngineDriver {
            engine,
            was_refused,
            tx: None,
            is_journaling: false,
            is_flushing: false,
            claims: &[],
            watch,
            transactions: Vec::new(alloc),
        }
    }

    /// The disk alone.
    pub(crate) fn into_disk(self) -> OomDisk {
        self.engine.into_disk()
    }

    /// An event that may take memory: if it is refused memory, all is as it was, and it is made again.
    pub(crate) fn asked(&mut self, alloc: Global, how: How, what: Ask) -> Result<Answer, Fault> {
        let outcomes = outcomes_of(&mut self.engine, &self.transactions)?;
        let before = EnginePicture::of(&self.engine, &self.watch);
        let answer = self.asked_once(alloc, how, what)?;
        if !answer.is_no_memory() {
            return Ok(answer);
        }
        self.was_refused = true;
        self.expect_same(before, outcomes)?;
        expect_claims(alloc, &mut self.engine, self.claims)?;
        self.expect_same(before, outcomes)?;
        let answer = self.asked_once(alloc, how, what)?;
        if answer.is_no_memory() {
            return Err(Fault::Twice);
        }
        Ok(answer)
    }

    fn asked_once(&mut self, alloc: Global, how: How, what: Ask) -> Result<Answer, Fault> {
        match (how, what) {
            (How::Run, _) => self.run_of_one(alloc, what),
            (How::InTwoParts, Ask::Write(change)) => self.write_in_two_parts(alloc, change),
            (How::InTwoParts, Ask::Commit(index)) => self.commit_in_two_parts(index),
            _ => Ok(ask(&mut self.engine, event_of(alloc, &self.transactions, what)?)),
        }
    }

    fn run_of_one(&mut self, alloc: Global, what: Ask) -> Result<Answer, Fault> {
        let mut events = Vec::new(alloc);
        events.push(event_of(alloc, &self.transactions, what)?)?;
        match run(alloc, &mut self.engine, events) {
            Ok(Some(answer)) => Ok(answer),
            Ok(None) => Err(Fault::Otherwise("a run without a reply")),
            Err(_) => Ok(Answer::Refused(Refusal::NoMemory)),
        }
    }

    // a write that is prepared changes nothing before it is finished, which takes no memory
    fn write_in_two_parts(&mut self, alloc: Global, change: Change) -> Result<Answer, Fault> {
        let op = op_of(alloc, change)?;
        let before = EnginePicture::of(&self.engine, &self.watch);
        match prepare_write(&mut self.engine, op) {
            Ok(()) => {
                expect_no_change(before, EnginePicture::of(&self.engine, &self.watch))?;
                finished(finish(&mut self.engine))
            }
            Err(refusal) => Ok(Answer::Refused(refusal)),
        }
    }

    // the same of a commit
    fn commit_in_two_parts(&mut self, index: usize) -> Result<Answer, Fault> {
        let tx = tx_of(&self.transactions, index)?;
        let before = EnginePicture::of(&self.engine, &self.watch);
        match prepare_commit(&mut self.engine, tx) {
            Ok(()) => {
                expect_no_change(before, EnginePicture::of(&self.engine, &self.watch))?;
                finished(finish(&mut self.engine))
            }
            Err(refusal) => Ok(Answer::Refused(refusal)),
        }
    }

    // what is seen of the engine is as it was
    fn expect_same(&mut self, before: EnginePicture, outcomes: Digest) -> Result<(), Fault> {
        expect_no_change(before, EnginePicture::of(&self.engine, &self.watch))?;
        if outcomes_of(&mut self.engine, &self.transactions)? == outcomes {
            Ok(())
        } else {
            Err(Fault::Otherwise("a refused event has ended a transaction"))
        }
    }

    /// An event that takes no memory.
    pub(crate) fn asked_without_memory(
        &mut self,
        alloc: Global,
        what: Ask,
    ) -> Result<Answer, Fault> {
        let event = event_of(alloc, &self.transactions, what)?;
        Ok(ask(&mut self.engine, event))
    }

    /// Begins a transaction.
    pub(crate) fn begin(&mut self, alloc: Global, how: How) -> Result<Tx, Fault> {
        self.transactions.reserve(1)?;
        let Answer::Begun(tx) = self.asked(alloc, how, Ask::Begin)? else {
            return Err(Fault::Otherwise("no transaction"));
        };
        self.transactions.push(tx)?;
        Ok(tx)
    }

    // the first step of a batch, or of a flush
    fn first_step(&mut self, alloc: Global, what: Ask) -> Result<(), Fault> {
        match self.asked(alloc, How::Event, what)? {
            Answer::Stepped(Progress::More) => Ok(()),
            _ => Err(Fault::Otherwise("another first step")),
        }
    }

    /// Begins a batch.
    pub(crate) fn begin_batch(&mut self, alloc: Global) -> Result<(), Fault> {
        self.first_step(alloc, Ask::Journal)?;
        self.is_journaling = true;
        Ok(())
    }

    /// Begins a flush of hive 0.
    pub(crate) fn begin_flush(&mut self, alloc: Global) -> Result<(), Fault> {
        self.first_step(alloc, Ask::Flush)?;
        self.is_flushing = true;
        Ok(())
    }
}

// a finish is never refused memory
fn finished(answer: Answer) -> Result<Answer, Fault> {
    if answer.is_no_memory() {
        Err(Fault::Otherwise("a finish that took memory"))
    } else {
        Ok(answer)
    }
}

fn expect_no_change(before: EnginePicture, now: EnginePicture) -> Result<(), Fault> {
    if before == now {
        Ok(())
    } else {
        Err(Fault::Otherwise("a refused event has changed something"))
    }
}

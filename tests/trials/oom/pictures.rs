//! What an engine shows. Looking at it takes no memory, so it is looked at while allocations are refused too.
use crate::engine_calls::{Answer, SESSION, ask};
use crate::fault::Fault;
use crate::oom::digest::{Digest, digest_of};
use crate::oom::watched_disk::{DiskCalls, DiskWatch};
use disk_model::Disk;
use engine::Engine;
use refusals::Refusal;
use store_model::{Event, Outcome, Tx};

/// An engine's trees, numbers and used room, what it has to do, and what was done to its disk.
#[derive(Clone, Copy, PartialEq, Eq)]
pub(crate) struct EnginePicture {
    trees: Digest,
    last_number: u64,
    durable: u64,
    room: u64,
    has_pending: bool,
    hive_with_work: Option<u8>,
    may_trim: bool,
    disk: DiskCalls,
}

impl EnginePicture {
    /// Of an engine over a watched disk.
    pub(crate) fn of<D: Disk>(engine: &Engine<D>, watch: &DiskWatch) -> EnginePicture {
        EnginePicture {
            trees: digest_of(engine.trees()),
            last_number: engine.last_number(),
            durable: engine.durable(),
            room: engine.room(),
            has_pending: engine.has_pending(),
            hive_with_work: engine.hive_with_work(u8::MAX),
            may_trim: engine.may_trim(),
            disk: watch.calls(),
        }
    }
}

/// What became of some transactions of the session, in their order. What is prepared is dropped.
pub(crate) fn outcomes_of<D: Disk>(
    engine: &mut Engine<D>,
    transactions: &[Tx],
) -> Result<Digest, Fault> {
    let mut now = Digest::new();
    for tx in transactions {
        let event = Event::Outcome {
            session: SESSION,
            tx: *tx,
        };
        now = match ask(engine, event) {
            Answer::OutcomeIs(outcome) => now.number(number_of(outcome)),
            Answer::Refused(Refusal::NoSuchHandle) => now.number(0),
            _ => return Err(Fault::Otherwise("no outcome")),
        };
    }
    Ok(now)
}

fn number_of(outcome: Outcome) -> u64 {
    match outcome {
        Outcome::Active => 1,
        Outcome::Committed => 2,
        Outcome::RolledBack => 3,
    }
}

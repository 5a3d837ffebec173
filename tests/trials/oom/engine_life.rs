//! An engine's life: a store is made, opened and driven, and what takes no memory is asked for in each of its states.
//!
//! An event that is refused memory has changed nothing, and is made again. What takes no memory is asked for with a
//! batch, a flush or a trim under way: the finishing of a prepared event, each step after a first one, and whatever
//! ends a transaction or a session.
use crate::engine_calls::{Answer, SESSION};
use crate::fault::Fault;
use crate::oom::OomDisk;
use crate::oom::asks::{Ask, Change};
use crate::oom::engine_driver::{EngineDriver, How};
use crate::oom::opening::{made, opened};
use reg_names::Path;
use reg_tree::Tree;
use std::alloc::Global;

/// Lives that life, and sees what is opened after it: whether a call was refused memory.
pub(crate) fn run(alloc: Global) -> Result<bool, Fault> {
    let mut was_refused = false;
    let engine = made(alloc, &mut was_refused)?;
    let mut driver = EngineDriver::new(alloc, engine, was_refused);
    let lived = live(alloc, &mut driver);
    was_refused = driver.was_refused;
    let disk = driver.into_disk();
    lived?;
    expect_both_changes(alloc, disk, &mut was_refused)?;
    Ok(was_refused)
}

// two stretches, after each of which comes what takes no memory, however far it came
fn live(alloc: Global, driver: &mut EngineDriver) -> Result<(), Fault> {
    let first = driver.begin_batch_and_flush(alloc);
    driver.end()?;
    first?;
    let second = driver.begin_trim(alloc);
    driver.end()?;
    second?;
    driver.end_session()
}

impl EngineDriver {
    // Two changes, of which the first is durable. A batch of the second is under way then, a flush of the first, and a
    // transaction.
    fn begin_batch_and_flush(&mut self, alloc: Global) -> Result<(), Fault> {
        self.asked(alloc, How::Event, Ask::Start(SESSION))?;
        self.create(alloc, How::Event, "A")?;
        self.begin_batch(alloc)?;
        self.end_journaling()?;
        self.create(alloc, How::InTwoParts, "B")?;
        self.begin_batch(alloc)?;
        self.begin_flush(alloc)?;
        self.begin_transaction(alloc, 0, "C")
    }

    // flushes the rest, and begins a trim and a transaction
    fn begin_trim(&mut self, alloc: Global) -> Result<(), Fault> {
        self.begin_flush(alloc)?;
        self.end_flush()?;
        self.trim()?;
        self.begin_transaction(alloc, 1, "D")
    }

    fn create(&mut self, alloc: Global, how: How, at: &'static str) -> Result<(), Fault> {
        match self.asked(alloc, how, Ask::Write(Change::Create(at)))? {
            Answer::Accepted(_) => Ok(()),
            _ => Err(Fault::Otherwise("no write")),
        }
    }

    // begins a transaction, of this place in their order, that creates a key
    fn begin_transaction(
        &mut self,
        alloc: Global,
        index: usize,
        at: &'static str,
    ) -> Result<(), Fault> {
        let tx = self.begin(alloc, How::Event)?;
        self.tx = Some(tx);
        match self.asked(alloc, How::Event, Ask::WriteIn(index, Change::Create(at)))? {
            Answer::Added => Ok(()),
            _ => Err(Fault::Otherwise("no write in a transaction")),
        }
    }
}

// opens the store again, which has both changes
fn expect_both_changes(alloc: Global, disk: OomDisk, was_refused: &mut bool) -> Result<(), Fault> {
    let store = opened(alloc, disk, was_refused)?;
    match store.trees().tree(0) {
        Some(tree) if store.number() == 2 => expect_their_keys(alloc, tree),
        _ => Err(Fault::Otherwise("another number")),
    }
}

// A and B are keys, and C and D aren't, whose transactions were rolled back
fn expect_their_keys(alloc: Global, tree: &Tree) -> Result<(), Fault> {
    for (letter, is_key) in [(b'A', true), (b'B', true), (b'C', false), (b'D', false)] {
        let path = Path::parse(alloc, &[u16::from(letter)])?;
        if tree.query_info(&path).is_ok() != is_key {
            return Err(Fault::Otherwise("another tree"));
        }
    }
    Ok(())
}

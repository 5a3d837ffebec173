//! Every event of an engine that may take memory, with each of its growths refused in turn: by itself, as a run of one
//! event, and prepared and finished. The three stores get the same files.
use crate::engine_calls::{Answer, Found, SESSION};
use crate::fault::Fault;
use crate::oom::asks::{Ask, Change, Look, VALUE_BYTES};
use crate::oom::claims::{Claimed, OTHER_SESSION};
use crate::oom::digest::{Digest, digest_of_files};
use crate::oom::engine_driver::{EngineDriver, How};
use crate::oom::opening::made;
use crate::oom::operations::TYPE;
use crate::oom::{FILES, expect_no_memory};
use refusals::Refusal;
use std::alloc::Global;
use store_model::{Outcome, Progress};

// more steps than a batch or a flush takes
const MANY: u32 = 64;

/// What is done with an engine.
#[derive(Clone, Copy)]
enum Step {
    /// An event that may take memory, and its answer.
    Ask(Ask, Answer),
    /// One that takes none.
    Free(Ask, Answer),
    /// A transaction is begun.
    Begin,
    /// Which writes meet a claim from now on, and which don't.
    Claims(&'static [Claimed]),
    /// Steps that take no memory, until one is the last.
    ToEnd(Ask),
    /// How many bytes of the journal's room are used.
    Room(u64),
}

const VALUE: Answer = Answer::Found(Found::Value(TYPE, VALUE_BYTES));

const DONE: Answer = Answer::Done;

const MORE: Answer = Answer::Stepped(Progress::More);

// writes by themselves, and reads of what they made
const WRITES: [Step; 14] = [
    Step::Ask(Ask::Start(SESSION), DONE),
    Step::Ask(Ask::Start(OTHER_SESSION), DONE),
    Step::Ask(Ask::Write(Change::Create("A")), Answer::Accepted(1)),
    Step::Ask(Ask::Write(Change::Set("A", "v")), Answer::Accepted(2)),
    Step::Ask(Ask::Write(Change::Create("A\\B")), Answer::Accepted(3)),
    Step::Ask(Ask::Write(Change::Create("A\\B")), Answer::Opened),
    Step::Ask(Ask::Read("A", Look::Value("v")), VALUE),
    Step::Ask(Ask::Read("A", Look::ValueAt(0)), VALUE),
    Step::Ask(
        Ask::Read("A", Look::KeyAt(0)),
        Answer::Found(Found::Key(1, 0x42)),
    ),
    Step::Ask(Ask::Read("A", Look::Keys), Answer::Found(Found::Names(1))),
    Step::Ask(Ask::Read("A", Look::Values), Answer::Found(Found::Names(1))),
    Step::Ask(
        Ask::Read("A", Look::Info),
        Answer::Found(Found::Counts(1, 1, 1)),
    ),
    Step::Ask(
        Ask::Read("X", Look::Info),
        Answer::Refused(Refusal::NotFound),
    ),
    Step::Room(795),
];

// a transaction, its writes and its reads, a write beside it, and its commit
const TRANSACTION: [Step; 21] = [
    Step::Begin,
    Step::Claims(&[
        Claimed::Free(Change::Create("C")),
        Claimed::Free(Change::Set("A", "p")),
    ]),
    Step::Ask(Ask::WriteIn(0, Change::Create("C")), Answer::Added),
    Step::Claims(&[
        Claimed::Met(Change::Create("C")),
        Claimed::Free(Change::Set("A", "p")),
    ]),
    Step::Ask(Ask::WriteIn(0, Change::Set("C", "w")), Answer::Added),
    Step::Ask(Ask::WriteIn(0, Change::Unset("A", "v")), Answer::Added),
    Step::Claims(&[
        Claimed::Met(Change::Create("C")),
        Claimed::Met(Change::Set("A", "p")),
        Claimed::Free(Change::Set("A\\B", "p")),
        Claimed::Free(Change::Create("D")),
    ]),
    Step::Ask(Ask::WriteIn(0, Change::Delete("A\\B")), Answer::Added),
    Step::Claims(&[
        Claimed::Met(Change::Create("C")),
        Claimed::Met(Change::Set("A", "p")),
        Claimed::Met(Change::Set("A\\B", "p")),
        Claimed::Free(Change::Create("D")),
    ]),
    Step::Ask(
        Ask::ReadIn(0, "", Look::Keys),
        Answer::Found(Found::Names(2)),
    ),
    Step::Ask(Ask::ReadIn(0, "C", Look::Value("w")), VALUE),
    Step::Ask(Ask::ReadIn(0, "C", Look::ValueAt(0)), VALUE),
    Step::Ask(
        Ask::ReadIn(0, "", Look::KeyAt(1)),
        Answer::Found(Found::Key(1, 0x43)),
    ),
    Step::Ask(
        Ask::ReadIn(0, "C", Look::Values),
        Answer::Found(Found::Names(1)),
    ),
    Step::Ask(
        Ask::ReadIn(0, "A", Look::Info),
        Answer::Found(Found::Counts(0, 0, 1)),
    ),
    Step::Ask(Ask::Write(Change::Create("D")), Answer::Accepted(4)),
    Step::Claims(&[
        Claimed::Met(Change::Create("C")),
        Claimed::Met(Change::Set("A", "p")),
        Claimed::Met(Change::Set("A\\B", "p")),
    ]),
    Step::Ask(
        Ask::ReadIn(0, "", Look::Keys),
        Answer::Found(Found::Names(3)),
    ),
    Step::Ask(Ask::Commit(0), Answer::Awaits(5)),
    Step::Free(Ask::Outcome(0), Answer::OutcomeIs(Outcome::Committed)),
    Step::Room(1_565),
];

// a write that rolls a transaction back, a commit of nothing, and a transaction that stays
const CONFLICT: [Step; 14] = [
    Step::Claims(&[
        Claimed::Free(Change::Set("A", "p")),
        Claimed::Free(Change::Create("E")),
    ]),
    Step::Ask(Ask::OutcomeOf, Answer::CommittedAs(5)),
    Step::Begin,
    Step::Ask(Ask::WriteIn(1, Change::Create("E")), Answer::Added),
    Step::Claims(&[
        Claimed::Free(Change::Set("A", "p")),
        Claimed::Met(Change::Create("E")),
    ]),
    Step::Ask(Ask::Write(Change::Create("E")), Answer::Accepted(6)),
    Step::Free(Ask::Outcome(1), Answer::OutcomeIs(Outcome::RolledBack)),
    Step::Claims(&[
        Claimed::Free(Change::Set("E", "p")),
        Claimed::Free(Change::Create("F")),
    ]),
    Step::Begin,
    Step::Ask(Ask::Commit(2), Answer::Awaits(0)),
    Step::Begin,
    Step::Ask(Ask::WriteIn(3, Change::Create("F")), Answer::Added),
    Step::Claims(&[
        Claimed::Free(Change::Set("E", "p")),
        Claimed::Met(Change::Create("F")),
    ]),
    Step::Room(1_604),
];

// two batches, each flushed, and a trim; folds of the history, of which the hive lacks the changes of the second batch
const STEPS: [Step; 20] = [
    Step::Ask(Ask::Journal, MORE),
    Step::ToEnd(Ask::Journal),
    Step::Ask(Ask::Flush, MORE),
    Step::ToEnd(Ask::Flush),
    Step::Ask(Ask::FlushOutcomes, MORE),
    Step::ToEnd(Ask::FlushOutcomes),
    Step::Ask(Ask::Write(Change::Delete("D")), Answer::Accepted(7)),
    Step::Ask(Ask::Write(Change::Set("A", "v")), Answer::Accepted(8)),
    Step::Ask(Ask::Write(Change::Set("E", "v")), Answer::Accepted(9)),
    Step::Free(Ask::Fold, Answer::NotYet),
    Step::Ask(Ask::Journal, MORE),
    Step::ToEnd(Ask::Journal),
    Step::Free(Ask::Acked(9), Answer::Receipt(9)),
    Step::Ask(Ask::Fold, Answer::Folded(9)),
    Step::Ask(Ask::Flush, MORE),
    Step::ToEnd(Ask::Flush),
    Step::Free(Ask::Fold, Answer::Folded(9)),
    Step::Room(2_943),
    Step::Ask(Ask::Trim, MORE),
    Step::ToEnd(Ask::Journal),
];

// the ends of transactions and sessions
const ENDS: [Step; 10] = [
    Step::Room(65),
    Step::Free(Ask::FlushAsk, Answer::Awaits(9)),
    Step::Free(Ask::Outcome(3), Answer::OutcomeIs(Outcome::Active)),
    Step::Free(Ask::Rollback(3), DONE),
    Step::Free(Ask::Outcome(3), Answer::OutcomeIs(Outcome::RolledBack)),
    Step::Free(Ask::Close(3), DONE),
    Step::Free(Ask::Close(0), DONE),
    Step::Free(Ask::Outcome(0), Answer::Refused(Refusal::NoSuchHandle)),
    Step::Free(Ask::End(SESSION), DONE),
    Step::Free(Ask::End(OTHER_SESSION), DONE),
];

/// Asks all of it in each way: whether a call was refused memory.
pub(crate) fn run(alloc: Global) -> Result<bool, Fault> {
    let mut was_refused = false;
    let alone = files_of(alloc, How::Event, &mut was_refused)?;
    let in_runs = files_of(alloc, How::Run, &mut was_refused)?;
    let in_parts = files_of(alloc, How::InTwoParts, &mut was_refused)?;
    if alone != in_runs || alone != in_parts {
        return Err(Fault::Otherwise("files of other bytes"));
    }
    Ok(was_refused)
}

// what stands for the files of the store that is made so
fn files_of(alloc: Global, how: How, was_refused: &mut bool) -> Result<Digest, Fault> {
    let engine = made(alloc, was_refused)?;
    let mut driver = EngineDriver::new(alloc, engine, *was_refused);
    for steps in [
        &WRITES[..],
        &TRANSACTION[..],
        &CONFLICT[..],
        &STEPS[..],
        &ENDS[..],
    ] {
        driver.take_all(alloc, how, steps)?;
    }
    *was_refused = driver.was_refused;
    Ok(digest_of_files(&mut driver.into_disk(), FILES)?)
}

impl EngineDriver {
    fn take_all(&mut self, alloc: Global, how: How, steps: &[Step]) -> Result<(), Fault> {
        for step in steps {
            self.take(alloc, how, *step)?;
        }
        Ok(())
    }

    fn take(&mut self, alloc: Global, how: How, step: Step) -> Result<(), Fault> {
        match step {
            Step::Ask(what, answer) => expect(self.asked(alloc, how, what)?, answer),
            Step::Free(what, answer) => expect(self.asked_without_memory(alloc, what)?, answer),
            Step::Begin => {
                self.begin(alloc, how)?;
                Ok(())
            }
            Step::Claims(claims) => {
                self.claims = claims;
                Ok(())
            }
            Step::ToEnd(what) => self.step_to_end(alloc, what),
            Step::Room(room) if self.engine.room() == room => Ok(()),
            Step::Room(_) => Err(Fault::Otherwise("another used room")),
        }
    }

    fn step_to_end(&mut self, alloc: Global, what: Ask) -> Result<(), Fault> {
        for _step in 0..MANY {
            match self.asked_without_memory(alloc, what)? {
                Answer::Stepped(Progress::Done) => return Ok(()),
                Answer::Stepped(Progress::More) => {}
                _ => return Err(Fault::Otherwise("another step")),
            }
        }
        Err(Fault::Otherwise("more steps"))
    }
}

fn expect(answer: Answer, wanted: Answer) -> Result<(), Fault> {
    if answer == wanted {
        return Ok(());
    }
    if let Answer::Refused(refusal) = answer {
        expect_no_memory(refusal)?;
        return Err(Fault::Otherwise("memory for what takes none"));
    }
    Err(Fault::Otherwise("another answer"))
}

//! Which keys are claimed by active transactions: a transaction of another session tries to write each, and is rolled
//! back.
use crate::engine_calls::{Answer, MOMENT, ask};
use crate::fault::Fault;
use crate::oom::asks::{Change, op_of};
use disk_model::Disk;
use engine::Engine;
use refusals::Refusal;
use std::alloc::Global;
use store_model::{Event, Tx};
use uuid::Uuid;

/// The session of those transactions.
pub(crate) const OTHER_SESSION: u32 = 2;

/// A write that is legal on the trees of now.
#[derive(Clone, Copy)]
pub(crate) enum Claimed {
    /// It meets the claim of a transaction that is active.
    Met(Change),
    /// It meets none.
    Free(Change),
}

impl Claimed {
    /// The write, and whether it meets a claim.
    pub(crate) fn parts(self) -> (Change, bool) {
        match self {
            Claimed::Met(change) => (change, true),
            Claimed::Free(change) => (change, false),
        }
    }
}

/// That these claims, and no others that these writes meet, are held. No state changes.
pub(crate) fn expect_claims<D: Disk>(
    alloc: Global,
    engine: &mut Engine<D>,
    claims: &[Claimed],
) -> Result<(), Fault> {
    for claim in claims {
        expect_claim(alloc, engine, *claim)?;
    }
    Ok(())
}

fn expect_claim<D: Disk>(
    alloc: Global,
    engine: &mut Engine<D>,
    claim: Claimed,
) -> Result<(), Fault> {
    let (change, wanted) = claim.parts();
    let tx = begun(engine)?;
    let answer = ask(
        engine,
        Event::TxWrite {
            session: OTHER_SESSION,
            tx,
            moment: MOMENT,
            op: op_of(alloc, change)?,
        },
    );
    ended(engine, tx)?;
    let is_met = match answer {
        Answer::Added => false,
        Answer::Refused(Refusal::Conflict) => true,
        Answer::Refused(Refusal::NoMemory) => return Err(Fault::Twice),
        _ => return Err(Fault::Otherwise("another answer to a claim")),
    };
    if is_met == wanted {
        Ok(())
    } else {
        Err(Fault::Otherwise("another claim"))
    }
}

fn begun<D: Disk>(engine: &mut Engine<D>) -> Result<Tx, Fault> {
    let event = Event::Begin {
        session: OTHER_SESSION,
        id: Uuid::nil(),
    };
    match ask(engine, event) {
        Answer::Begun(tx) => Ok(tx),
        Answer::Refused(Refusal::NoMemory) => Err(Fault::Twice),
        _ => Err(Fault::Otherwise("no other transaction")),
    }
}

fn ended<D: Disk>(engine: &mut Engine<D>, tx: Tx) -> Result<(), Fault> {
    let session = OTHER_SESSION;
    let rolled_back = ask(engine, Event::Rollback { session, tx });
    let closed = ask(engine, Event::Close { session, tx });
    match (rolled_back, closed) {
        (Answer::Done, Answer::Done) => Ok(()),
        _ => Err(Fault::Otherwise("another transaction stays")),
    }
}

//! The calls of an engine, and of what makes and opens stores, by functions that promise next to nothing.
//!
//! The promises of the calls themselves would be stated at each step of a test, though no test relies on them.

use disk_model::{MemDisk, Plan, Progress, Tear};
use engine::Engine;
use recovery::Opened;
use refusals::Refusal;
use refusals::limits::MOST_HIVES;
use reg_tree::{Op, Trees};
use std::alloc::{AllocError, Global};
use std::sync::Arc;
use store_model::{Event, Reply};
use transactions::Next;
use uuid::Uuid;

/// The session of every event.
pub const SESSION: u32 = 1;

/// The moment of every change.
pub const MOMENT: u64 = 1;

/// Makes a store of some trees.
pub fn make(alloc: Global, disk: &mut MemDisk, id: Uuid, trees: &Trees) -> Result<(), Refusal> {
    if trees.len() > MOST_HIVES {
        return Err(Refusal::NoSeat);
    }
    recovery::create(alloc, disk, id, trees)
}

/// Opens the store that is on a disk.
pub fn open(alloc: Global, disk: MemDisk) -> Result<Opened<MemDisk>, (Refusal, MemDisk)> {
    recovery::open(alloc, disk)
}

/// One step of a store's repair.
pub fn repair(store: &mut Opened<MemDisk>) -> Result<Progress, Refusal> {
    store.repair_step()
}

/// An engine over a store; if it is refused the store is handed back, with `Faulted` if a repair is left.
pub fn begin(
    alloc: Global,
    store: Opened<MemDisk>,
) -> Result<Engine<MemDisk>, (Refusal, Opened<MemDisk>)> {
    if !store.is_whole() {
        return Err((Refusal::Faulted, store));
    }
    Engine::new(alloc, store)
}

/// One event.
pub fn ask(engine: &mut Engine<MemDisk>, event: Event) -> Reply {
    engine.event(event)
}

/// Events, one after another.
pub fn ask_all(
    engine: &mut Engine<MemDisk>,
    alloc: Global,
    events: Vec<Event>,
) -> Result<Vec<Reply>, AllocError> {
    engine.run(alloc, events)
}

/// Prepares a write.
pub fn prepare_write(engine: &mut Engine<MemDisk>, op: Op) -> Result<Option<Trees>, Refusal> {
    let next = engine.prepare(Event::Write {
        session: SESSION,
        moment: MOMENT,
        op,
    })?;
    Ok(trees_of(next))
}

// the trees of now after the event
fn trees_of(next: Option<Next>) -> Option<Trees> {
    match next {
        Some(Next { trees, change: _ }) => Some(trees),
        None => None,
    }
}

/// Finishes what is prepared.
pub fn finish(engine: &mut Engine<MemDisk>) -> Reply {
    engine.finish()
}

/// What a crash leaves of a disk, with a plan of its own.
pub fn left(alloc: Global, disk: &MemDisk, tear: Tear) -> Result<MemDisk, AllocError> {
    disk.crashed(tear, Arc::new(alloc, Plan::new())?)
}

/// The same, and the plan by which calls on it fail.
pub fn planned(
    alloc: Global,
    disk: &MemDisk,
    tear: Tear,
) -> Result<(MemDisk, Arc<Plan>), AllocError> {
    let plan = Arc::new(alloc, Plan::new())?;
    let disk = disk.crashed(tear, Arc::try_clone(&plan)?)?;
    Ok((disk, plan))
}

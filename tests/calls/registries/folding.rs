//! One engine whose history may have two changes, in one registry after another, with a fold after each.

use crate::registries::calls::{Answer, Calls, share};
use crate::registries::device::{Device, NO_FAILURE, TestDisk};
use crate::registries::playing::{make, open};
use crate::registries::sharing::key_of;
use engine::Engine;
use histories::Start;
use ktm_calls::laws::folded_engines_are_shared_again;
use ktm_calls::{Ended, Session};
use published_trees::{ChangeCount, SeenChanges};
use refusals::Refusal;
use reg_tree::Info;
use std::alloc::Global;
use std::marker::Brand;
use std::sync::Wait;
use std::test::Fail;
use store_engine::StoreEngine;
use store_model::{Event, Question, ReadResult, Reply, look_up};

// how many changes the history may have
const LIMIT: u64 = 2;

// the numbers of the changes that each registry accepts
const TURNS: [[u64; 2]; 5] = [[1, 2], [3, 4], [5, 6], [7, 8], [9, 10]];

// the number that no change has
const REFUSED: u64 = 11;

// an engine over a new store, whose history may have two changes
fn new_engine(alloc: Global) -> Result<Engine<TestDisk>, Refusal> {
    let device = Device::new(alloc, NO_FAILURE)?;
    let mut disk = device.disk(alloc)?;
    make(alloc, &mut disk)?;
    let store = open(alloc, disk)?;
    if !store.is_whole() {
        return Err(Refusal::Faulted);
    }
    match Engine::with_history(alloc, store, LIMIT) {
        Ok(engine) => Ok(engine),
        Err((why, _store)) => Err(why),
    }
}

// creates the key of a change's number, at the moment of that number
fn create<E: StoreEngine, O: Start, R: Wait>(
    calls: &Calls<'_, E, O, R>,
    session: &mut Session<O>,
    number: u64,
) -> Result<Answer, Refusal> {
    let key = key_of(calls.alloc, number as usize)?;
    calls.create(session, &key, number)
}

// two changes are accepted and a third is refused, and then the two are made durable; whether all was so. The session
// is left open
fn fill<E: StoreEngine, O: Start, R: Wait>(
    calls: &Calls<'_, E, O, R>,
    numbers: &[u64; 2],
) -> Result<bool, Refusal> {
    let mut session = calls.start()?;
    let mut is_well = true;
    for number in numbers {
        let answer = create(calls, &mut session, *number)?;
        is_well = is_well && matches!(answer, Answer::Accepted(same) if same == *number);
    }
    let full = create(calls, &mut session, REFUSED);
    let key = key_of(calls.alloc, 0)?;
    let receipt = calls.flush(&mut session, &key)?;
    Ok(is_well && matches!(full, Err(Refusal::HistoryFull)) && receipt.number() == numbers[1])
}

// a registry over an engine with an empty history: it is filled and ended, and the history is folded. The engine, if
// all was as it should be
fn take_turn<O: Start, E: StoreEngine + Drop, R: Wait>(
    rt: &R,
    alloc: Global,
    engine: E,
    count: ChangeCount,
    seen: SeenChanges,
    numbers: &[u64; 2],
) -> Result<Option<E>, Refusal> {
    let (registry, asker) = share::<E, O, R>(rt, alloc, engine, count, seen)?;
    let filled = fill(
        &Calls {
            rt,
            alloc,
            registry: &registry,
        },
        numbers,
    );
    let Ended {
        mut engine,
        events: _,
        durable: _,
    } = registry.end(rt, asker, Vec::new(alloc));
    let is_filled = filled?;
    folded_engines_are_shared_again();
    match engine.event(Event::Fold) {
        Reply::Folded { number } if is_filled && number == numbers[1] => Ok(Some(engine)),
        _ => Ok(None),
    }
}

// each registry in turn; whether all was as it should be, and all changes are found on the disk then
fn play<R: Wait>(rt: &R, alloc: Global) -> Result<bool, Refusal> {
    let mut engine = new_engine(alloc)?;
    for numbers in &TURNS {
        let (count, seen) = ChangeCount::open();
        engine = match take_turn::<Brand, _, _>(rt, alloc, engine, count, seen, numbers)? {
            Some(engine) => engine,
            None => return Ok(false),
        };
    }
    has_all(alloc, engine.into_disk())
}

// whether the last number and each change are found on a disk: a key with the time of its change
fn has_all(alloc: Global, disk: TestDisk) -> Result<bool, Refusal> {
    let store = open(alloc, disk)?;
    for numbers in &TURNS {
        for number in numbers {
            let key = key_of(alloc, *number as usize)?;
            let found = look_up(alloc, store.trees(), key.hive, &key.path, Question::InfoOf)?;
            if !is_of_time(&found, *number) {
                return Ok(false);
            }
        }
    }
    Ok(store.number() == TURNS[4][1])
}

// whether this is of a key without subkeys and values, that was written last at a time
fn is_of_time(found: &ReadResult, moment: u64) -> bool {
    matches!(
        found,
        ReadResult::Counts {
            info: Info {
                subkeys: 0,
                values: 0,
                time,
            }
        } if *time == moment
    )
}

#[test]
fn a_history_of_two_changes_is_folded_again_and_again(rt: HostRuntime) -> Result<(), Fail> {
    assert!(rt; play(&rt, rt.alloc())?);
    Ok(())
}

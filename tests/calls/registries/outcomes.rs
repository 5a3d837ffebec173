//! More commits than a store keeps, each of a unit of work of its own, and what a session is told of them.

use crate::registries::calls::{Answer, Calls, share};
use crate::registries::device::{Device, NO_FAILURE};
use crate::registries::playing::new_engine;
use crate::registries::sharing::key_of;
use histories::Start;
use ktm_calls::{Ended, Key, Session};
use published_trees::{ChangeCount, SeenChanges};
use refusals::Refusal;
use std::alloc::Global;
use std::marker::Brand;
use std::sync::Wait;
use std::test::Fail;
use store_engine::StoreEngine;
use uuid::Uuid;

// how many commits there are: one more than a store keeps
const COMMITS: u64 = 4_097;

// the unit of work of a number
fn unit_of(number: u64) -> Uuid {
    Uuid::from_u128(u128::from(number))
}

// commits a value of one byte for the unit of work of a number; whether the commit's number is one above it
fn commit_one<E: StoreEngine, O: Start, R: Wait>(
    calls: &Calls<'_, E, O, R>,
    session: &mut Session<O>,
    key: &Key,
    number: u64,
) -> Result<bool, Refusal> {
    let tx = calls.begin_for(session, unit_of(number))?;
    calls.set_in(session, tx, key, "v", 1)?;
    let receipt = calls.commit(session, tx, number)?;
    calls.close(session, tx)?;
    Ok(Some(receipt.number()) == number.checked_add(1))
}

// a key is created, and each unit of work commits once; whether each commit's number is as it should be
fn commit_all<E: StoreEngine, O: Start, R: Wait>(
    calls: &Calls<'_, E, O, R>,
) -> Result<bool, Refusal> {
    let mut session = calls.start()?;
    let key = key_of(calls.alloc, 0)?;
    let created = calls.create(&mut session, &key, 0)?;
    let mut is_well = matches!(created, Answer::Accepted(1));
    for number in 1..COMMITS + 1 {
        let is_next = commit_one(calls, &mut session, &key, number)?;
        is_well = is_well && is_next;
    }
    Ok(is_well)
}

// whether another session is told the number of each commit but the first, which is kept no more, and of none that
// wasn't made
fn are_told<E: StoreEngine, O: Start, R: Wait>(
    calls: &Calls<'_, E, O, R>,
) -> Result<bool, Refusal> {
    let mut session = calls.start()?;
    let mut is_well = true;
    for number in 2..COMMITS + 1 {
        let told = session.outcome_of(&unit_of(number));
        is_well = is_well && matches!(told, Ok(same) if same == number + 1);
    }
    let first = session.outcome_of(&unit_of(1));
    let later = session.outcome_of(&unit_of(COMMITS + 1));
    Ok(
        is_well
            && matches!(first, Err(Refusal::NotFound))
            && matches!(later, Err(Refusal::NotFound)),
    )
}

// all commits are made, and told; whether both were as they should be
fn is_all_told<E: StoreEngine, O: Start, R: Wait>(
    calls: &Calls<'_, E, O, R>,
) -> Result<bool, Refusal> {
    Ok(commit_all(calls)? && are_told(calls)?)
}

// a registry over a new store's engine, in which all commits are made and asked for; whether all was as it should be
fn play_over<O: Start, E: StoreEngine + Drop, R: Wait>(
    rt: &R,
    alloc: Global,
    engine: E,
    count: ChangeCount,
    seen: SeenChanges,
) -> Result<bool, Refusal> {
    let (registry, asker) = share::<E, O, R>(rt, alloc, engine, count, seen)?;
    let is_well = is_all_told(&Calls {
        rt,
        alloc,
        registry: &registry,
    });
    let Ended {
        engine: _,
        events: _,
        durable: _,
    } = registry.end(rt, asker, Vec::new(alloc));
    is_well
}

fn play<R: Wait>(rt: &R, alloc: Global) -> Result<bool, Refusal> {
    let device = Device::new(alloc, NO_FAILURE)?;
    let engine = new_engine(alloc, &device)?;
    let (count, seen) = ChangeCount::open();
    play_over::<Brand, _, _>(rt, alloc, engine, count, seen)
}

#[test]
fn a_session_is_told_of_all_but_the_first_of_4_097_commits(rt: HostRuntime) -> Result<(), Fail> {
    assert!(rt; play(&rt, rt.alloc())?);
    Ok(())
}

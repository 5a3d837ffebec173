//! A write that is made in two parts, and a whole run of events.
use crate::events::calls::{ask_all, finish, prepare_write};
use crate::events::stores::{creation, fresh, keys, write_of};
use disk_model::MemDisk;
use engine::Engine;
use refusals::Refusal;
use std::alloc::Global;
use std::test::Fail;
use store_model::{Event, Reply};

// A write of the key A: the keys that its preparing answers, those that are there before and after its finishing, and
// the number in the reply.
fn written(alloc: Global, store: &mut Engine<MemDisk>) -> Result<([[u8; 5]; 3], u64), Refusal> {
    let Some(trees) = prepare_write(store, creation(alloc, 0, b'A')?)? else {
        return Err(Refusal::NotFound);
    };
    let prepared = keys(alloc, &trees, 0)?;
    let before = keys(alloc, store.trees(), 0)?;
    let number = match finish(store) {
        Reply::Accepted { number, .. } => number,
        _ => 0,
    };
    let after = keys(alloc, store.trees(), 0)?;
    Ok(([prepared, before, after], number))
}

#[test]
fn a_write_shows_its_trees_and_is_accepted_as_it_is_finished(rt: HostRuntime) -> Result<(), Fail> {
    let alloc = rt.alloc();
    let told = written(alloc, &mut fresh(alloc, 2)?);
    let (none, with) = (*b"-----", *b"A----");
    assert_eq!(&rt; told, Ok(([with, none, with], 1)));
    Ok(())
}

// a write, its batch, and the question whether it is durable, before the batch's last step and after it
fn events(alloc: Global) -> Result<Vec<Event>, Refusal> {
    let mut events = Vec::new(alloc);
    events.push(write_of(alloc, 0, b'A')?)?;
    for _step in 0..3 {
        events.push(Event::JournalStep)?;
    }
    events.push(Event::Acked { number: 1 })?;
    events.push(Event::JournalStep)?;
    events.push(Event::Acked { number: 1 })?;
    Ok(events)
}

// whether a reply is a receipt of change 1, and whether it says that there is none yet
fn receipt(reply: Option<&Reply>) -> (bool, bool) {
    match reply {
        Some(Reply::Receipt { number }) => (*number == 1, false),
        Some(Reply::NotYet) => (false, true),
        _ => (false, false),
    }
}

// of a run of these events how many replies there are, and the replies to the two questions
fn ran(
    alloc: Global,
    store: &mut Engine<MemDisk>,
) -> Result<(usize, (bool, bool), (bool, bool)), Refusal> {
    let replies = ask_all(store, alloc, events(alloc)?)?;
    let before = receipt(replies.get(4));
    let after = receipt(replies.get(6));
    Ok((replies.len(), before, after))
}

#[test]
fn a_run_answers_each_event_in_its_turn(rt: HostRuntime) -> Result<(), Fail> {
    let alloc = rt.alloc();
    let told = ran(alloc, &mut fresh(alloc, 2)?);
    assert_eq!(&rt; told, Ok((7, (false, true), (true, false))));
    Ok(())
}

//! A store of the first layout, which keeps no outcomes of commits, and one with outcomes that is made of it.

use crate::events::calls::{MOMENT, open};
use crate::events::stores::{creation, keys};
use commit_journal::Layout;
use disk_model::{MemDisk, Plan};
use recovery::{Opened, create_layout_1};
use refusals::Refusal;
use reg_tree::Trees;
use reply_lines::Status;
use std::alloc::Global;
use std::sync::Arc;
use std::test::Fail;
use store_create::upgrade;
use uuid::Uuid;

// the store's id
fn id() -> Uuid {
    Uuid::from_u128(0x00112233_4455_6677_8899_aabbccddeeff)
}

// what an opening finds: whether the store keeps outcomes, its id and number, how many hives it has, and the keys of the
// first
type FoundStore = (bool, Uuid, u64, usize, [u8; 5]);

// a tree with the key A
fn tree_with_a(alloc: Global) -> Result<Trees, Refusal> {
    let trees = Trees::new(alloc, 1)?;
    let op = creation(alloc, 0, b'A')?;
    trees.write(alloc, &op, MOMENT)?.ok_or(Refusal::NotFound)
}

fn disk(alloc: Global) -> Result<MemDisk, Refusal> {
    Ok(MemDisk::new(alloc, Arc::new(alloc, Plan::new())?))
}

// a store of the first layout, with the key A
fn first_layout(alloc: Global) -> Result<MemDisk, Refusal> {
    let mut disk = disk(alloc)?;
    create_layout_1(alloc, &mut disk, id(), &tree_with_a(alloc)?)?;
    Ok(disk)
}

fn found(alloc: Global, disk: MemDisk) -> Result<FoundStore, Refusal> {
    match open(alloc, disk) {
        Ok(store) => described(alloc, &store),
        Err((why, _)) => Err(why),
    }
}

fn described(alloc: Global, store: &Opened<MemDisk>) -> Result<FoundStore, Refusal> {
    let has_outcomes = matches!(store.layout(), Layout::WithOutcomes);
    let keys = keys(alloc, store.trees(), 0)?;
    Ok((
        has_outcomes,
        store.id(),
        store.number(),
        store.trees().len(),
        keys,
    ))
}

// what `upgrade` prints and answers of a store, and the target's disk
fn upgraded(alloc: Global, source: MemDisk) -> Result<(Vec<u8>, Status, MemDisk), Refusal> {
    let mut target = disk(alloc)?;
    let mut printed = Vec::new(alloc);
    let (_, told) = upgrade(alloc, source, &mut target, &mut printed);
    match told {
        Ok(status) => Ok((printed, status, target)),
        Err(_) => Err(Refusal::NoMemory),
    }
}

#[test]
fn the_first_layout_has_the_hives_of_the_trees_alone(rt: HostRuntime) -> Result<(), Fail> {
    let alloc = rt.alloc();
    let store = found(alloc, first_layout(alloc)?)?;
    assert_eq!(&rt; store, (false, id(), 0, 1, *b"A----"));
    Ok(())
}

#[test]
fn an_upgrade_keeps_id_and_trees_at_number_0(rt: HostRuntime) -> Result<(), Fail> {
    let alloc = rt.alloc();
    let (printed, status, target) = upgraded(alloc, first_layout(alloc)?)?;
    assert_eq!(&rt;
        (printed.as_slice(), status),
        (b"ok\n".as_slice(), Status::Clean)
    );
    let store = found(alloc, target)?;
    assert_eq!(&rt; store, (true, id(), 0, 2, *b"A----"));
    Ok(())
}

#[test]
fn a_store_with_outcomes_is_not_upgraded(rt: HostRuntime) -> Result<(), Fail> {
    let alloc = rt.alloc();
    let (_, _, source) = upgraded(alloc, first_layout(alloc)?)?;
    let (printed, status, _) = upgraded(alloc, source)?;
    assert_eq!(&rt;
        (printed.as_slice(), status),
        (b"E17 Unsupported\n".as_slice(), Status::Refused)
    );
    Ok(())
}

//! Flushes and repairs of three single dirty pages, stopped at each of their calls.

use crate::hives::changes::{change, setting};
use crate::hives::held::held;
use crate::hives::hives::{byte_of, flushed, fresh, left, open, open_whole, planned, repaired};
use crate::hives::stops::{TEARS, stopped};
use disk_model::{MemDisk, Tear};
use refusals::Refusal;
use reg_tree::{Element, Tree};
use std::alloc::Global;
use std::test::Fail;

/// The byte that each value has before the flush, and the byte after it.
const BEFORE: u8 = 0x11;

const AFTER: u8 = 0x22;

/// Three values of four pages each: the byte that differs is in one page.
const LETTERS: [u8; 3] = [b'A', b'B', b'C'];

const LEN: usize = 2_000;

const PLACE: usize = 1_000;

// sets the three values
fn telling(alloc: Global, byte: u8) -> Result<Element, Refusal> {
    let mut ops = Vec::new(alloc);
    for letter in LETTERS {
        ops.push(setting(alloc, letter, LEN, PLACE, byte)?)?;
    }
    change(ops)
}

// A disk with a hive whose values have the byte from before, at number 2. It is flushed twice, so that its image is
// laid out as the next one of as many bytes is.
fn begun(alloc: Global) -> Result<MemDisk, Refusal> {
    let mut disk = fresh(alloc, 1)?;
    let mut file = open(alloc, &mut disk)?;
    for number in 1..3 {
        let element = telling(alloc, BEFORE)?;
        match flushed(alloc, &mut file, &mut disk, element, number) {
            Ok(_) => {}
            Err(why) => return Err(why),
        }
    }
    Ok(disk)
}

// the bytes of the three values
fn told(alloc: Global, tree: &Tree) -> Result<[u8; 3], Refusal> {
    let [first, second, third] = LETTERS;
    Ok([
        byte_of(alloc, tree, first, PLACE)?,
        byte_of(alloc, tree, second, PLACE)?,
        byte_of(alloc, tree, third, PLACE)?,
    ])
}

// what is opened of a disk, once it is repaired: the number and the bytes of the three values
fn found(alloc: Global, disk: &mut MemDisk) -> Result<(u64, [u8; 3]), Refusal> {
    let file = open_whole(alloc, disk)?;
    Ok((file.applied(), told(alloc, file.tree())?))
}

// the same of what the files hold, read by the readers of their parts
fn read(alloc: Global, disk: &mut MemDisk) -> Result<(u64, [u8; 3]), Refusal> {
    let (number, tree) = held(alloc, disk)?;
    Ok((number, told(alloc, &tree)?))
}

#[test]
fn three_single_pages_are_ten_calls(rt: HostRuntime) -> Result<(), Fail> {
    let alloc = rt.alloc();
    let mut disk = begun(alloc)?;
    let mut file = open(alloc, &mut disk)?;
    let element = telling(alloc, AFTER)?;
    assert_eq!(&rt; flushed(alloc, &mut file, &mut disk, element, 3), Ok(10));
    assert_eq!(&rt; found(alloc, &mut disk), Ok((3, [AFTER; 3])));
    Ok(())
}

#[test]
fn each_stop_of_a_flush_leaves_all_of_one_tree(rt: HostRuntime) -> Result<(), Fail> {
    let alloc = rt.alloc();
    let before = (2, [BEFORE; 3]);
    let after = (3, [AFTER; 3]);
    let disk = begun(alloc)?;
    // the log, its sync; the raised sector, its sync, which isn't done: from there on a crash may leave it; three pages
    // and their sync, the last sector and its sync
    let outcomes = [
        [before, before, before],
        [before, before, before],
        [before, after, after],
        [before, after, after],
        [after, after, after],
        [after, after, after],
        [after, after, after],
        [after, after, after],
        [after, after, after],
        [after, after, after],
    ];
    for (index, outcome) in outcomes.iter().enumerate() {
        let call = index as u64 + 1;
        let stopped = stopped(alloc, &disk, call, telling(alloc, AFTER)?, 3)?;
        for (tear, wanted) in TEARS.iter().zip(outcome) {
            let mut disk = left(alloc, &stopped, *tear)?;
            assert_eq!(&rt; read(alloc, &mut disk)?, *wanted, "call {call}, {tear:?}");
            assert_eq!(&rt; found(alloc, &mut disk)?, *wanted, "call {call}, {tear:?}");
        }
    }
    Ok(())
}

// what an opening finds of a hive whose repair was stopped at a call and then torn: before a repair, and after one
fn again(
    alloc: Global,
    disk: &MemDisk,
    call: u64,
    tear: Tear,
) -> Result<(u64, (u64, [u8; 3])), Refusal> {
    let (mut disk, plan) = planned(alloc, disk, Tear::New)?;
    let mut file = open(alloc, &mut disk)?;
    plan.stop_at(call);
    let _ = repaired(&mut file, &mut disk);
    let mut disk = left(alloc, &disk, tear)?;
    let number = open(alloc, &mut disk)?.number();
    Ok((number, found(alloc, &mut disk)?))
}

// a hive whose flush was stopped at a call and then torn, so that a repair is left
fn unrepaired(alloc: Global, call: u64, tear: Tear) -> Result<MemDisk, Refusal> {
    let disk = stopped(alloc, &begun(alloc)?, call, telling(alloc, AFTER)?, 3)?;
    Ok(left(alloc, &disk, tear)?)
}

// how many calls the repair of a hive makes: three pages and their sync, the last sector and its sync
const REPAIR: u64 = 6;

fn repair_calls(alloc: Global, disk: &MemDisk) -> Result<u64, Refusal> {
    let mut disk = left(alloc, disk, Tear::New)?;
    let mut file = open(alloc, &mut disk)?;
    Ok(u64::from(repaired(&mut file, &mut disk)?))
}

// the first call of a repair, and the tear, at which a stop leaves anything but the tree and the number of after the
// flush
fn first_loss(alloc: Global, disk: &MemDisk) -> Result<Option<(u64, Tear)>, Refusal> {
    let kept = (3, (3, [AFTER; 3]));
    for call in 1..REPAIR + 1 {
        for tear in TEARS {
            if again(alloc, disk, call, tear)? != kept {
                return Ok(Some((call, tear)));
            }
        }
    }
    Ok(None)
}

#[test]
fn each_stop_of_a_repair_leaves_the_same(rt: HostRuntime) -> Result<(), Fail> {
    let alloc = rt.alloc();
    // the raised sector is durable, and no page
    let disk = unrepaired(alloc, 8, Tear::Old)?;
    assert_eq!(&rt; repair_calls(alloc, &disk)?, REPAIR);
    assert_eq!(&rt; first_loss(alloc, &disk)?, None);
    Ok(())
}

#[test]
fn each_stop_of_a_repair_behind_a_torn_last_sector_leaves_the_same(
    rt: HostRuntime,
) -> Result<(), Fail> {
    let alloc = rt.alloc();
    // all pages are durable, and of the last sector the last byte is wrong
    let disk = unrepaired(alloc, 9, Tear::Torn)?;
    assert_eq!(&rt; repair_calls(alloc, &disk)?, REPAIR);
    assert_eq!(&rt; first_loss(alloc, &disk)?, None);
    Ok(())
}

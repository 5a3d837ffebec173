//! Flushes that are stopped, and what is opened then.
use crate::hives::changes::{MOMENT, creation};
use crate::hives::held::first_block;
use crate::hives::hives::{PRIMARY, bytes_of, flushed, fresh, has, left, open, open_whole};
use crate::hives::stops::{TEARS, stopped};
use disk_model::MemDisk;
use refusals::Refusal;
use std::alloc::Global;
use std::test::Fail;

// what is opened of a disk: the number, and whether the key of a letter is there
fn found(alloc: Global, disk: &mut MemDisk, letter: u8) -> Result<(u64, bool), Refusal> {
    let file = open_whole(alloc, disk)?;
    Ok((file.applied(), has(alloc, &file, letter)?))
}

#[test]
fn a_new_hive_is_at_number_0(rt: HostRuntime) -> Result<(), Fail> {
    let alloc = rt.alloc();
    let mut disk = fresh(alloc, 1)?;
    assert_eq!(rt; found(alloc, &mut disk, b'K')?, (0, false));
    Ok(())
}

#[test]
fn a_flush_that_is_done_is_found_whatever_is_torn(rt: HostRuntime) -> Result<(), Fail> {
    let alloc = rt.alloc();
    for (number, next) in [(1, 2), (4_294_967_295, 0)] {
        let mut disk = fresh(alloc, number)?;
        let mut file = open(alloc, &mut disk)?;
        let element = creation(alloc, b'K')?;
        flushed(alloc, &mut file, &mut disk, element, 1)?;
        assert_eq!(rt; file.applied(), 1);
        let block = first_block(&bytes_of(alloc, &mut disk, PRIMARY)?)?;
        assert_eq!(rt; (block.primary.0, block.secondary.0), (next, next));
        assert_eq!(rt; block.last_written, MOMENT);
        for tear in TEARS {
            let mut disk = left(alloc, &disk, tear)?;
            assert_eq!(rt; found(alloc, &mut disk, b'K')?, (1, true), "{tear:?}");
        }
    }
    Ok(())
}

#[test]
fn each_stop_leaves_the_old_tree_or_the_new(rt: HostRuntime) -> Result<(), Fail> {
    let alloc = rt.alloc();
    let before = (0, false);
    let after = (1, true);
    // the log, its sync, the raised sector: from there on a crash may leave it; its sync: from there on it is surely
    // there
    let outcomes = [
        [before, before, before],
        [before, before, before],
        [before, after, after],
        [before, after, after],
        [after, after, after],
        [after, after, after],
        [after, after, after],
        [after, after, after],
    ];
    let disk = fresh(alloc, 1)?;
    for (index, outcome) in outcomes.iter().enumerate() {
        let call = index as u64 + 1;
        let stopped = stopped(alloc, &disk, call, creation(alloc, b'K')?, 1)?;
        for (tear, wanted) in TEARS.iter().zip(outcome) {
            let told = found(alloc, &mut left(alloc, &stopped, *tear)?, b'K')?;
            assert_eq!(&rt; told, *wanted, "call {call}, {tear:?}");
        }
    }
    Ok(())
}

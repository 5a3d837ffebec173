//! A hive that grows by so much that its log is in three chunks, and a run of its pages in several writes.
use crate::hives::changes::{change, setting};
use crate::hives::hives::{
    LOG, PRIMARY, byte_of, bytes_of, flushed, fresh, left, open, open_whole,
};
use crate::hives::stops::{TEARS, stopped};
use disk_model::{Disk, MemDisk};
use refusals::Refusal;
use reg_tree::Element;
use std::alloc::Global;
use std::test::Fail;

/// The length of a value, whose last byte differs.
const LEN: usize = 150_000;

const PLACE: usize = LEN - 1;

const TELLS: u8 = 0x33;

// of the format: where bins data begin, and a page; a chunk of a log, and how many pages a write takes
const BINS_AT: usize = 4_096;

const PAGE: usize = 512;

const PIECE: usize = 65_536;

const RUN: usize = 128;

// sets the value
fn growth(alloc: Global) -> Result<Element, Refusal> {
    let mut ops = Vec::new(alloc);
    ops.push(setting(alloc, b'V', LEN, PLACE, TELLS)?)?;
    change(ops)
}

// whether a page of bins data isn't as it was, or wasn't there
fn differs(old: &[u8], new: &[u8], page: usize) -> bool {
    let from = page.saturating_mul(PAGE).saturating_add(BINS_AT);
    let end = from.saturating_add(PAGE);
    match (old.get(from..end), new.get(from..end)) {
        (Some(old), Some(new)) => old != new,
        _ => true,
    }
}

// how many pages differ of two primary files, and how many writes their runs take
fn writes(old: &[u8], new: &[u8]) -> (usize, usize) {
    let pages = new.len().saturating_sub(BINS_AT) / PAGE;
    let (mut dirty, mut writes, mut run) = (0usize, 0usize, 0usize);
    for page in 0..pages {
        if differs(old, new, page) {
            dirty = dirty.saturating_add(1);
            if run.is_multiple_of(RUN) {
                writes = writes.saturating_add(1);
            }
            run = run.saturating_add(1);
        } else {
            run = 0;
        }
    }
    (dirty, writes)
}

// where the pages begin in the log of bins data of this many bytes: after a sector, four letters and a bit for each
// page, in whole sectors
fn pages_at(bins: usize) -> usize {
    let bitmap = bins / PAGE / 8;
    bitmap
        .saturating_add(516)
        .div_ceil(PAGE)
        .saturating_mul(PAGE)
}

#[test]
fn a_hive_that_grows_is_written_in_pieces(rt: HostRuntime) -> Result<(), Fail> {
    let alloc = rt.alloc();
    let mut disk = fresh(alloc, 1)?;
    let old = bytes_of(alloc, &mut disk, PRIMARY)?;
    let mut file = open(alloc, &mut disk)?;
    let element = growth(alloc)?;
    let steps = flushed(alloc, &mut file, &mut disk, element, 1)?;
    let new = bytes_of(alloc, &mut disk, PRIMARY)?;
    let (dirty, writes) = writes(&old, &new);
    let log = pages_at(new.len().saturating_sub(BINS_AT)).saturating_add(dirty.saturating_mul(
        PAGE,
    ));
    assert_eq!(&rt; disk.len(LOG), Ok(log as u64));
    assert_eq!(&rt; log.div_ceil(PIECE), 3);
    // one run is of more than two writes
    assert!(&rt; dirty > 256 && writes >= 3);
    // beside them the syncs of log and pages, and two sectors with their syncs
    assert_eq!(&rt; steps as usize, writes.saturating_add(9));
    Ok(())
}

// the number of what is opened of a disk, once it is repaired, and the value's last byte there
fn found(alloc: Global, disk: &mut MemDisk) -> Result<(u64, u8), Refusal> {
    let file = open_whole(alloc, disk)?;
    let told = match byte_of(alloc, file.tree(), b'V', PLACE) {
        Ok(byte) => byte,
        Err(Refusal::NotFound) => 0,
        Err(why) => return Err(why),
    };
    Ok((file.applied(), told))
}

#[test]
fn each_stop_of_it_leaves_the_old_tree_or_the_new(rt: HostRuntime) -> Result<(), Fail> {
    let alloc = rt.alloc();
    let disk = fresh(alloc, 1)?;
    let before = (0, 0);
    let after = (1, TELLS);
    for call in 1..13 {
        let stopped = stopped(alloc, &disk, call, growth(alloc)?, 1)?;
        // three chunks and their sync; the raised sector and its sync, which isn't done
        let outcome = if call <= 4 {
            [before, before, before]
        } else if call <= 6 {
            [before, after, after]
        } else {
            [after, after, after]
        };
        for (tear, wanted) in TEARS.iter().zip(&outcome) {
            let told = found(alloc, &mut left(alloc, &stopped, *tear)?)?;
            assert_eq!(&rt; told, *wanted, "call {call}, {tear:?}");
        }
    }
    Ok(())
}

//! Logs beside a clean primary file, which are left unread.
use crate::hives::changes::creation;
use crate::hives::hives::{LOG, bytes_of, flushed, fresh, has, open, planned};
use disk_model::{Disk, MemDisk, Tear};
use refusals::Refusal;
use std::alloc::Global;
use std::test::Fail;

// the calls of an opening of a clean primary file: its sync, and for its first sector and its bins data a length and a
// read
const CALLS: u64 = 5;

// a disk with a hive that was flushed twice, and the log of the first flush
fn flushed_twice(alloc: Global) -> Result<(MemDisk, Vec<u8>), Refusal> {
    let mut disk = fresh(alloc, 1)?;
    let mut file = open(alloc, &mut disk)?;
    flushed(alloc, &mut file, &mut disk, creation(alloc, b'K')?, 1)?;
    let older = bytes_of(alloc, &mut disk, LOG)?;
    flushed(alloc, &mut file, &mut disk, creation(alloc, b'L')?, 2)?;
    Ok((disk, older))
}

// what is opened if these bytes are the log, and no call may be made beside those on the primary file: the number, and
// whether the keys of both flushes are there
fn opened_beside(
    alloc: Global,
    disk: &mut MemDisk,
    log: &[u8],
) -> Result<(u64, bool, bool), Refusal> {
    disk.cut(LOG, 0)?;
    disk.write_at(LOG, 0, log)?;
    disk.sync(LOG)?;
    let (mut disk, plan) = planned(alloc, disk, Tear::New)?;
    plan.fail_at(CALLS + 1);
    let file = open(alloc, &mut disk)?;
    Ok((
        file.applied(),
        has(alloc, &file, b'K')?,
        has(alloc, &file, b'L')?,
    ))
}

#[test]
fn a_log_beside_a_clean_primary_file_is_left_unread(rt: HostRuntime) -> Result<(), Fail> {
    let alloc = rt.alloc();
    let (mut disk, older) = flushed_twice(alloc)?;
    let wanted = Ok((2, true, true));
    assert_eq!(&rt;
        opened_beside(alloc, &mut disk, &older),
        wanted,
        "an older one"
    );
    assert_eq!(&rt; opened_beside(alloc, &mut disk, b"?"), wanted, "garbage");
    assert_eq!(&rt; opened_beside(alloc, &mut disk, b""), wanted, "none");
    Ok(())
}

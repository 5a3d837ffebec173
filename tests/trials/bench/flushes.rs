//! How long a flush of one changed value takes, and what it writes.
use crate::bench::{letters, now, trees_after};
use crate::fault::Fault;
use base_block::{BaseBlock, MINOR_VERSION, SequenceNumber};
use change_codec::EncodedChange;
use dirty_vector::PAGE_BYTES;
use disk_model::{Disk, MemDisk, Plan, Progress};
use hive_emit::{Emitted, emit};
use hive_flush::HiveFile;
use refusals::limits::MOST_BINS_BYTES;
use reg_names::{Name, Path};
use reg_tree::{Data, Element, Op, Ops, Trees};
use std::alloc::Global;
use std::sync::Arc;
use std::time::CpuClock;
use uuid::Uuid;

// hive 0's primary file, and its log
const PRIMARY: u32 = 1;

const LOG: u32 = 2;

// where the bins data begin in a primary file, and the bytes of a first sector
const BINS_AT: u64 = 4_096;

const SECTOR_BYTES: u64 = 512;

// the data of a value, and the index of the byte that is changed
const VALUE_BYTES: usize = 16_000;

const PLACE: usize = 8_000;

// more steps than a flush takes
const MANY: u32 = 100_000;

/// Times a flush in a hive of this many values, in bins data of at least this many bytes. Prints the bytes of the bins
/// data, how long the change takes to be absorbed and to be flushed, and how many pages and bytes the flush writes.
pub(crate) fn time<R: Print + CpuClock>(
    rt: &R,
    alloc: Global,
    values: u32,
    bytes: u32,
    changes: u32,
) -> Result<(), Fault> {
    let mut disk = MemDisk::new(alloc, Arc::new(alloc, Plan::new())?);
    make(alloc, &mut disk, values, bytes)?;
    let mut file = HiveFile::open(alloc, &mut disk, 0, Uuid::nil())?;
    let mut made = Vec::new(alloc);
    for number in 0..changes.min(values) {
        made.push(change(alloc, setting(alloc, number, 2)?)?)?;
    }
    time_on(rt, alloc, &mut disk, &mut file, &made)
}

fn time_on<R: Print + CpuClock>(
    rt: &R,
    alloc: Global,
    disk: &mut MemDisk,
    file: &mut HiveFile,
    changes: &[EncodedChange],
) -> Result<(), Fault> {
    let absorbing = absorbed_in(rt, alloc, file, changes)?;
    let pages = file.dirty_pages();
    let flushing = flushed_in(rt, disk, file)?;
    let size = disk.len(PRIMARY)?.saturating_sub(BINS_AT);
    let written = bytes_written(disk.len(LOG)?, pages);
    println!(rt; "{size} {absorbing} {flushing} {pages} {written}")?;
    Ok(())
}

// the microseconds in which changes are absorbed
fn absorbed_in<R: CpuClock>(
    rt: &R,
    alloc: Global,
    file: &mut HiveFile,
    changes: &[EncodedChange],
) -> Result<u128, Fault> {
    let start = now(rt)?;
    absorb(alloc, file, changes)?;
    Ok(now(rt)?.saturating_sub(start))
}

// the microseconds in which they are flushed
fn flushed_in<R: CpuClock>(rt: &R, disk: &mut MemDisk, file: &mut HiveFile) -> Result<u128, Fault> {
    let start = now(rt)?;
    flush(disk, file)?;
    Ok(now(rt)?.saturating_sub(start))
}

// the log, the first sector twice, and the pages
fn bytes_written(log: u64, pages: usize) -> u64 {
    log.saturating_add(2 * SECTOR_BYTES)
        .saturating_add(pages.saturating_mul(PAGE_BYTES) as u64)
}

/// Absorbs changes into a hive that has absorbed so many.
pub(super) fn absorb(
    alloc: Global,
    file: &mut HiveFile,
    changes: &[EncodedChange],
) -> Result<(), Fault> {
    let Some(upto) = file.number().checked_add(changes.len() as u64) else {
        return Err(Fault::Otherwise("too many changes"));
    };
    if !file.is_at_rest() {
        return Err(Fault::Otherwise("a hive that is busy"));
    }
    file.absorb(alloc, changes, &[], upto)?;
    Ok(())
}

/// Makes steps until the flush is done.
pub(crate) fn flush(disk: &mut MemDisk, file: &mut HiveFile) -> Result<(), Fault> {
    for _step in 0..MANY {
        if !file.is_whole() {
            return Err(Fault::Otherwise("a repair"));
        }
        if file.step(disk)? == Progress::Done {
            return Ok(());
        }
    }
    Err(Fault::Otherwise("more steps"))
}

// sets the value of a number, with a byte that differs
fn setting(alloc: Global, number: u32, tells: u8) -> Result<Op, Fault> {
    let mut bytes = vec![in alloc; 0x5a; VALUE_BYTES]?;
    if let Some(byte) = bytes.get_mut(PLACE) {
        *byte = tells;
    }
    Ok(Op::SetValue {
        hive: 0,
        path: Path::root(alloc)?,
        name: Name::value(alloc, &letters(number))?,
        kind: 3,
        data: Data::from_vec(bytes)?,
    })
}

/// A change of one operation, as it is kept.
pub(crate) fn change(alloc: Global, op: Op) -> Result<EncodedChange, Fault> {
    let ops = Ops::one(alloc, op)?;
    let element = Element { moment: 7, ops };
    if element.text_len() >= u64::from(u32::MAX) {
        return Err(Fault::Otherwise("a change that is too long"));
    }
    Ok(EncodedChange::of(alloc, &element)?)
}

fn trees_of_values(alloc: Global, values: u32) -> Result<Trees, Fault> {
    let mut ops = Vec::new(alloc);
    for number in 0..values {
        ops.push(setting(alloc, number, 1)?)?;
    }
    Ok(trees_after(alloc, &ops)?)
}

// makes the primary file of hive 0: so many values, in bins data of at least so many bytes
fn make(alloc: Global, disk: &mut MemDisk, values: u32, least: u32) -> Result<(), Fault> {
    if least as usize > MOST_BINS_BYTES {
        return Err(Fault::Otherwise("more bytes than a hive has"));
    }
    let trees = trees_of_values(alloc, values)?;
    let Some(tree) = trees.tree(0) else {
        return Err(Fault::Otherwise("no tree"));
    };
    let Emitted { image, root } = emit(alloc, tree, least)?;
    write_primary(disk, root, &image.into_bytes())
}

fn write_primary(disk: &mut MemDisk, root: u32, bins: &[u8]) -> Result<(), Fault> {
    let Ok(size) = u32::try_from(bins.len()) else {
        return Err(Fault::Otherwise("too many bytes"));
    };
    let block = BaseBlock::of_primary(SequenceNumber(1), MINOR_VERSION, root, size, Uuid::nil());
    disk.write_at(PRIMARY, 0, &block.write())?;
    disk.write_at(PRIMARY, BINS_AT, bins)?;
    disk.sync(PRIMARY)?;
    Ok(())
}

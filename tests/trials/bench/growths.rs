//! A key that gets values or subkeys one by one.
use crate::bench::flushes::{absorb, change};
use crate::bench::{letters, now};
use crate::fault::Fault;
use crate::words::Growth;
use disk_model::{MemDisk, Plan};
use hive_flush::HiveFile;
use reg_names::{Name, Path};
use reg_tree::{Data, Op, Tree};
use std::alloc::Global;
use std::sync::Arc;
use std::time::CpuClock;
use uuid::Uuid;

/// Absorbs as many changes, each by itself and each of a new name; names come in no order. Prints how long all took,
/// and how many pages are dirty at the end.
pub(crate) fn time<R: Print + CpuClock>(
    rt: &R,
    alloc: Global,
    what: Growth,
    count: u32,
) -> Result<(), Fault> {
    let mut disk = MemDisk::new(alloc, Arc::new(alloc, Plan::new())?);
    HiveFile::create(alloc, &mut disk, 0, Uuid::nil(), &Tree::fresh(alloc)?)?;
    let mut file = HiveFile::open(alloc, &mut disk, 0, Uuid::nil())?;
    let mut taken: u128 = 0;
    for number in 0..count {
        let change = change(alloc, growth(alloc, what, number)?)?;
        let start = now(rt)?;
        absorb(alloc, &mut file, &[change])?;
        taken = taken.saturating_add(now(rt)?.saturating_sub(start));
    }
    let pages = file.dirty_pages();
    println!(rt; "{taken} {pages}")?;
    Ok(())
}

// the operation that makes the value or the subkey of a number
fn growth(alloc: Global, what: Growth, number: u32) -> Result<Op, Fault> {
    match what {
        Growth::Values => Ok(Op::SetValue {
            hive: 0,
            path: Path::root(alloc)?,
            name: Name::value(alloc, &letters(number))?,
            kind: 4,
            data: Data::new(alloc, &[1; 4])?,
        }),
        Growth::Keys => Ok(Op::CreateKey {
            hive: 0,
            path: Path::parse(alloc, &letters(number))?,
        }),
    }
}

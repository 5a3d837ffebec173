//! Work that is timed, for the programs of `bench/`. Each prints a line of numbers, the time first.
mod emits;
mod engine_works;
pub(crate) mod flushes;
mod growths;
mod loads;
mod openings;
mod stores;

use crate::fault::Fault;
use crate::words::Work;
use refusals::Refusal;
use reg_tree::{Op, Trees};
use std::alloc::Global;
use std::rt::Files;
use std::time::CpuClock;

/// Does the work, and prints how long it took and how large it was.
pub(crate) fn time<R: Print + Files + CpuClock + AllocGlobal>(
    rt: &R,
    work: Work<'_>,
) -> Result<(), Fault> {
    let alloc = rt.alloc();
    match work {
        Work::Load { file } => loads::time(rt, file),
        Work::Emit { keys } => emits::time(rt, alloc, keys),
        Work::Flush {
            values,
            bytes,
            changes,
        } => flushes::time(rt, alloc, values, bytes, changes),
        Work::Grow { what, count } => growths::time(rt, alloc, what, count),
        Work::Opening { changes, bytes } => openings::time(rt, alloc, changes, bytes),
        Work::Engine { kind, count } => engine_works::time(rt, alloc, kind, count),
    }
}

// the microseconds of processor time that this process has taken
fn now<R: CpuClock>(rt: &R) -> Result<u128, Fault> {
    Ok(rt.process_cpu_time()?.as_micros())
}

// the trees of one hive after operations
fn trees_after(alloc: Global, ops: &[Op]) -> Result<Trees, Refusal> {
    Ok(Trees::new(alloc, 1)?.apply_ops(alloc, ops, 7)?)
}

// a name for each number: four letters from `a` on
fn letters(number: u32) -> [u16; 4] {
    let mut units = [0u16; 4];
    let mut rest = number;
    for unit in &mut units {
        *unit = u16::from(b'a').saturating_add((rest % 26) as u16);
        rest /= 26;
    }
    units
}

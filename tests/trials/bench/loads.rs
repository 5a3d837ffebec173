//! How long a load takes.
use crate::fault::Fault;
use crate::primary_file::block_and_bins;
use hive_load::load_bins;
use std::rt::Files;
use std::time::CpuClock;

/// Loads the bins data of the primary file of this path, and prints the processor time that it took, in microseconds.
pub(crate) fn time<R: Files + Print + CpuClock + AllocGlobal>(
    rt: &R,
    path: &str,
) -> Result<(), Fault> {
    let alloc = rt.alloc();
    let (block, bins) = block_and_bins(rt, path)?;
    let start = rt.process_cpu_time()?;
    let loaded = load_bins(alloc, bins, block.root, block.minor)?;
    let took = rt.process_cpu_time()?.saturating_sub(start).as_micros();
    drop(loaded);
    println!(rt; "{took}")?;
    Ok(())
}

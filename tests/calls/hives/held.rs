//! What a hive's two files hold, read by the readers of their parts alone.
use crate::hives::hives::{LOG, PRIMARY, bytes_of};
use base_block::BaseBlock;
use disk_model::MemDisk;
use hive_load::load_bins;
use refusals::{Cause, Refusal};
use reg_tree::Tree;
use std::alloc::Global;

// where the bins data begin in a primary file
const BINS_AT: usize = 4_096;

/// The number and the tree that the files hold: the primary file's if it is clean, else what the log repairs.
pub fn held(alloc: Global, disk: &mut MemDisk) -> Result<(u64, Tree), Refusal> {
    let primary = bytes_of(alloc, disk, PRIMARY)?;
    let own = first_block(&primary)?;
    let rest = primary.get(BINS_AT..).ok_or(truncated())?;
    if own.is_clean() {
        let bins = rest.get(..own.bins_size as usize).ok_or(truncated())?;
        return tree_under(alloc, &own, bins.to_vec(alloc)?);
    }
    let text = bytes_of(alloc, disk, LOG)?;
    let log = dirt_log::read(alloc, &text)?;
    let mut bins = rest.to_vec(alloc)?;
    log.apply_to(&mut bins)?;
    tree_under(alloc, &log.base, bins)
}

/// The block of a file's first sector.
pub fn first_block(file: &[u8]) -> Result<BaseBlock, Refusal> {
    BaseBlock::read_first(file).ok_or(truncated())
}

fn truncated() -> Refusal {
    Refusal::from(Cause::Truncated)
}

// the number of a block, and the tree that bins data encode under it
fn tree_under(alloc: Global, block: &BaseBlock, bins: Vec<u8>) -> Result<(u64, Tree), Refusal> {
    let (tree, _image) = load_bins(alloc, bins, block.root, block.minor)?;
    Ok((block.applied.0, tree))
}

//! How many cells a load looks at.
use crate::fault::Fault;
use crate::primary_file::block_and_bins;
use hive_cells::{Image, Looks};
use hive_load::load;
use std::rt::Files;

/// Loads the bins data of the primary file of this path. Prints how many looks at cells it took, and `loaded` or the
/// refusal.
pub(crate) fn count<R: Files + Print + AllocGlobal>(rt: &R, path: &str) -> Result<(), Fault> {
    let alloc = rt.alloc();
    let (block, bins) = block_and_bins(rt, path)?;
    let Ok(image) = Image::open(alloc, bins) else {
        return Err(Fault::Otherwise("no cells"));
    };
    let mut looks = Looks::new();
    let refusal = load(alloc, &image, block.root, block.minor, &mut looks).err();
    let taken = looks.count();
    match refusal {
        None => println!(rt; "{taken} loaded")?,
        Some(why) => println!(rt; "{taken} {why}")?,
    }
    Ok(())
}

//! A hive's primary file that is read whole.
use crate::fault::Fault;
use base_block::BaseBlock;
use std::fs::File;
use std::io::Read;
use std::rt::Files;

/// The block of the file of this path, and what follows its first 4,096 bytes. Nothing of it is judged.
pub(crate) fn block_and_bins<R: Files + AllocGlobal>(
    rt: &R,
    path: &str,
) -> Result<(BaseBlock, Vec<u8>), Fault> {
    let mut file = File::open(rt, path)?;
    let mut sector = [0; 512];
    file.read_exact(&mut sector)?;
    let mut rest = [0; 3_584];
    file.read_exact(&mut rest)?;
    let mut bins = Vec::new(rt.alloc());
    file.read_to_end(&mut bins)?;
    Ok((BaseBlock::read(&sector), bins))
}

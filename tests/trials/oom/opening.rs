//! The making of a store and its openings: a call that is refused memory has changed nothing, hands back what it was
//! given, and is made again.

use crate::engine_calls::{begin, make, open};
use crate::fault::Fault;
use crate::oom::digest::{Digest, digest_of, digest_of_files};
use crate::oom::watched_disk::{DiskCalls, DiskWatch, WatchedDisk};
use crate::oom::{FILES, OomDisk, WatchedEngine, expect_no_memory, refused_again, roomy_disk};
use engine::Engine;
use recovery::Opened;
use reg_tree::Trees;
use std::alloc::Global;
use std::sync::Arc;

/// An engine over a new store of two hives. Tells whether a call was refused memory.
pub(crate) fn made(alloc: Global, was_refused: &mut bool) -> Result<WatchedEngine, Fault> {
    let watch = DiskWatch::new(alloc)?;
    let seen = Arc::try_clone(&watch)?;
    let mut disk = WatchedDisk::new(roomy_disk(alloc)?, watch);
    make_store(alloc, &mut disk, &seen, was_refused)?;
    let store = opened(alloc, disk, was_refused)?;
    let engine = begun(alloc, store, &seen, was_refused)?;
    Ok(WatchedEngine {
        engine,
        watch: seen,
    })
}

// makes a store of two hives; if that is refused memory, no file has changed
fn make_store(
    alloc: Global,
    disk: &mut OomDisk,
    watch: &DiskWatch,
    was_refused: &mut bool,
) -> Result<(), Fault> {
    let trees = Trees::new(alloc, 2)?;
    let before = (watch.calls(), digest_of_files(disk, FILES)?);
    let Err(refusal) = make(alloc, disk, &trees) else {
        return Ok(());
    };
    expect_no_memory(refusal)?;
    *was_refused = true;
    if (watch.calls(), digest_of_files(disk, FILES)?) != before {
        return Err(Fault::Otherwise("a refused store has changed a file"));
    }
    match make(alloc, disk, &trees) {
        Ok(()) => Ok(()),
        Err(refusal) => Err(refused_again(refusal)),
    }
}

/// Opens a store. Tells whether that was refused memory: each file that comes back has the bytes that it had.
pub(crate) fn opened(
    alloc: Global,
    disk: OomDisk,
    was_refused: &mut bool,
) -> Result<Opened<OomDisk>, Fault> {
    let mut disk = disk;
    let before = digest_of_files(&mut disk, FILES)?;
    let (refusal, mut disk) = match open(alloc, disk) {
        Ok(store) => return Ok(store),
        Err(back) => back,
    };
    expect_no_memory(refusal)?;
    *was_refused = true;
    if digest_of_files(&mut disk, FILES)? != before {
        return Err(Fault::Otherwise("a refused opening has changed a file"));
    }
    match open(alloc, disk) {
        Ok(store) => Ok(store),
        Err((refusal, _)) => Err(refused_again(refusal)),
    }
}

// what is seen of an opened store
fn picture_of(store: &Opened<OomDisk>, watch: &DiskWatch) -> (u64, Digest, DiskCalls) {
    (store.number(), digest_of(store.trees()), watch.calls())
}

/// An engine over a store, which comes back as it was if there is no memory for that.
pub(crate) fn begun(
    alloc: Global,
    store: Opened<OomDisk>,
    watch: &DiskWatch,
    was_refused: &mut bool,
) -> Result<Engine<OomDisk>, Fault> {
    let before = picture_of(&store, watch);
    let (refusal, store) = match begin(alloc, store) {
        Ok(engine) => return Ok(engine),
        Err(back) => back,
    };
    expect_no_memory(refusal)?;
    *was_refused = true;
    if picture_of(&store, watch) != before {
        return Err(Fault::Otherwise("a refused engine has changed its store"));
    }
    match begin(alloc, store) {
        Ok(engine) => Ok(engine),
        Err((refusal, _)) => Err(refused_again(refusal)),
    }
}

//! The image of a tree, and the tree of an image: if one is refused memory it is made again, of what is as it was.
use crate::fault::Fault;
use crate::oom::digest::Digest;
use crate::oom::operations::small_tree;
use crate::oom::{expect_no_memory, refused_again};
use base_block::MINOR_VERSION;
use hive_cells::Looks;
use hive_emit::{Emitted, emit};
use hive_load::load;
use refusals::Refusal;
use reg_tree::Tree;
use std::alloc::Global;

/// Emits a tree and loads it: whether that was refused memory.
pub(crate) fn run(alloc: Global) -> Result<bool, Fault> {
    let tree = small_tree(alloc)?;
    let before = Digest::new().tree(&tree);
    let (mut emitted, was_refused) = match emit(alloc, &tree, 0) {
        Ok(emitted) => (emitted, false),
        Err(refusal) => (emitted_again(alloc, &tree, before, refusal)?, true),
    };
    let bytes = Digest::new().bytes(emitted.image.bytes());
    let (loaded, was_denied) = match loaded(alloc, &emitted) {
        Ok(loaded) => (loaded, false),
        Err(refusal) => (loaded_again(alloc, &mut emitted, bytes, refusal)?, true),
    };
    if Digest::new().tree(&loaded) != before {
        return Err(Fault::Otherwise("another tree"));
    }
    Ok(was_refused || was_denied)
}

// of a tree that has stayed
fn emitted_again(
    alloc: Global,
    tree: &Tree,
    before: Digest,
    refusal: Refusal,
) -> Result<Emitted, Fault> {
    expect_no_memory(refusal)?;
    if Digest::new().tree(tree) != before {
        return Err(Fault::Otherwise("a refused image has changed its tree"));
    }
    match emit(alloc, tree, 0) {
        Ok(emitted) => Ok(emitted),
        Err(refusal) => Err(refused_again(refusal)),
    }
}

fn loaded(alloc: Global, emitted: &Emitted) -> Result<Tree, Refusal> {
    let Emitted { image, root } = emitted;
    load(alloc, image, *root, MINOR_VERSION, &mut Looks::new())
}

// of an image that has stayed
fn loaded_again(
    alloc: Global,
    emitted: &mut Emitted,
    before: Digest,
    refusal: Refusal,
) -> Result<Tree, Fault> {
    expect_no_memory(refusal)?;
    if Digest::new().bytes(emitted.image.bytes()) != before {
        return Err(Fault::Otherwise("a refused load has changed its image"));
    }
    match loaded(alloc, emitted) {
        Ok(tree) => Ok(tree),
        Err(refusal) => Err(refused_again(refusal)),
    }
}

//! Edits of an image: if one is refused memory, image, root and pages are as they were.

use crate::fault::Fault;
use crate::oom::expect_no_memory;
use crate::oom::operations::{AFTER, operations, small_tree};
use base_block::MINOR_VERSION;
use dirty_vector::DirtyVector;
use hive_cells::Looks;
use hive_edit::edit;
use hive_emit::{Emitted, emit};
use hive_load::load;
use hive_savepoint::{SavepointImage, UndoLog};
use reg_tree::{Legality, Op, Tree};
use std::alloc::Global;

/// Makes an edit of each kind: whether one was refused memory.
pub(crate) fn run(alloc: Global) -> Result<bool, Fault> {
    let tree = small_tree(alloc)?;
    let mut was_refused = false;
    for op in operations(alloc)?.iter() {
        was_refused = edit_alone(alloc, &tree, op)? || was_refused;
    }
    Ok(was_refused)
}

// an image, and what `edit` keeps of it
#[derive(Drop)]
struct Hive {
    image: SavepointImage,
    root: u32,
    pages: DirtyVector,
}

impl Hive {
    fn of(alloc: Global, tree: &Tree) -> Result<Hive, Fault> {
        let Emitted { image, root } = emit(alloc, tree, 0)?;
        let pages = DirtyVector::new(alloc, image.len())?;
        let image = SavepointImage::of(image, UndoLog::new(alloc)?);
        Ok(Hive { image, root, pages })
    }

    // one edit: whether it is done; if not, memory was refused
    fn edit(&mut self, alloc: Global, op: &Op) -> Result<bool, Fault> {
        if self.pages.bins_size() != self.image.len() {
            return Err(Fault::Otherwise("pages of another image"));
        }
        expect_legal(alloc, &self.image, self.root, op)?;
        match edit(
            alloc,
            &mut self.image,
            &mut self.root,
            &mut self.pages,
            op,
            AFTER,
        ) {
            Ok(()) => Ok(true),
            Err(refusal) => {
                expect_no_memory(refusal)?;
                Ok(false)
            }
        }
    }

    fn expect_unchanged(&mut self, bytes: &[u8], root: u32) -> Result<(), Fault> {
        if self.image.bytes() == bytes && self.root == root && self.pages.count() == 0 {
            Ok(())
        } else {
            Err(Fault::Otherwise("a refused edit has changed something"))
        }
    }
}

// one edit of the image of a tree: whether it was refused memory. It is made again then, of the same image.
fn edit_alone(alloc: Global, tree: &Tree, op: &Op) -> Result<bool, Fault> {
    let mut hive = Hive::of(alloc, tree)?;
    let root = hive.root;
    let bytes = copy(alloc, hive.image.bytes())?;
    if hive.edit(alloc, op)? {
        return Ok(false);
    }
    hive.expect_unchanged(&bytes, root)?;
    if hive.edit(alloc, op)? {
        Ok(true)
    } else {
        Err(Fault::Twice)
    }
}

fn copy(alloc: Global, bytes: &[u8]) -> Result<Vec<u8>, Fault> {
    let mut made = Vec::new(alloc);
    made.extend_from_slice(bytes)?;
    Ok(made)
}

// the image encodes a tree within the limits, in which the operation is legal
fn expect_legal(alloc: Global, image: &SavepointImage, root: u32, op: &Op) -> Result<(), Fault> {
    let tree = load(alloc, image.image(), root, MINOR_VERSION, &mut Looks::new())?;
    match tree.legal(alloc, op)? {
        Legality::Legal => Ok(()),
        Legality::Opened => Err(Fault::Otherwise("an edit of what is there")),
    }
}

//! Calls without a store that take no memory, made after a growth that may be refused, and with it all others: they
//! answer as with memory.
use crate::fault::Fault;
use crate::oom::asks::{Change, op_of};
use base_block::{BaseBlock, MINOR_VERSION, SequenceNumber, sum};
use conflicts::{claims, conflict};
use dirty_vector::DirtyVector;
use reg_names::{Path, folded_unit};
use reg_tree::Op;
use std::alloc::Global;
use uuid::Uuid;

// the bins data of two pages
const BINS: usize = 8_192;

// what the calls are asked about, which takes memory
#[derive(Drop)]
struct Given {
    creation: Op,
    below: Op,
    beside: Op,
    value: Op,
    pages: DirtyVector,
}

impl Given {
    fn new(alloc: Global) -> Result<Given, Fault> {
        Ok(Given {
            creation: op_of(alloc, Change::Create("Foo"))?,
            below: op_of(alloc, Change::Create("foo\\X"))?,
            beside: op_of(alloc, Change::Create("Foobar\\X"))?,
            value: op_of(alloc, Change::Set("FOO", "v"))?,
            pages: DirtyVector::new(alloc, BINS)?,
        })
    }
}

/// Makes the calls, whether there is memory or not.
pub(crate) fn run(alloc: Global) -> Result<(), Fault> {
    let mut given = Given::new(alloc)?;
    let mut growth: Vec<u8> = Vec::new(alloc);
    let grown = growth.reserve(1);
    expect_folded()?;
    expect_beginnings(
        given.creation.path(),
        given.below.path(),
        given.beside.path(),
    )?;
    expect_conflicts(&given)?;
    expect_pages(&mut given.pages)?;
    expect_sums()?;
    expect_block()?;
    Ok(grown?)
}

fn expect(is_right: bool, otherwise: &'static str) -> Result<(), Fault> {
    if is_right {
        Ok(())
    } else {
        Err(Fault::Otherwise(otherwise))
    }
}

// a to z alone are folded
fn expect_folded() -> Result<(), Fault> {
    for (unit, folded) in [
        (0x60u16, 0x60u16),
        (0x61, 0x41),
        (0x7a, 0x5a),
        (0x7b, 0x7b),
        (0xe9, 0xe9),
    ] {
        expect(folded_unit(unit) == folded, "another folded unit")?;
    }
    Ok(())
}

// a path begins itself and what is below it, in any case, and nothing else
fn expect_beginnings(foo: &Path, below: &Path, beside: &Path) -> Result<(), Fault> {
    expect(foo.begins(foo) && foo.begins(below), "no beginning")?;
    expect(!below.begins(foo) && !foo.begins(beside), "a beginning")
}

// a key that is made meets its own path and what is below it; a value meets its key alone
fn expect_conflicts(given: &Given) -> Result<(), Fault> {
    let (made, below) = (claims(&given.creation), claims(&given.below));
    let (beside, value) = (claims(&given.beside), claims(&given.value));
    expect(
        conflict(&made, &below) && conflict(&below, &made),
        "no conflict below",
    )?;
    expect(
        conflict(&made, &value) && conflict(&value, &value),
        "no conflict",
    )?;
    expect(!conflict(&made, &beside), "a conflict beside")?;
    expect(!conflict(&value, &beside), "a conflict with a value")
}

// a range marks each page that it touches, and an empty one marks none
fn expect_pages(pages: &mut DirtyVector) -> Result<(), Fault> {
    if pages.bins_size() != BINS {
        return Err(Fault::Otherwise("other bins"));
    }
    pages.mark(512..512);
    expect(
        pages.count() == 0 && !pages.is_dirty(1),
        "a page of nothing",
    )?;
    pages.mark(511..513);
    expect(pages.count() == 2 && pages.is_dirty(0), "no first page")?;
    expect(pages.is_dirty(1) && !pages.is_dirty(2), "other pages")
}

// the sums of 508 zero bytes, and of four bytes 0xff among zeros: they are never 0 and never 0xffffffff
fn expect_sums() -> Result<(), Fault> {
    let mut bytes = [0u8; 508];
    expect(sum(&bytes) == 1, "another sum of zeros")?;
    for byte in bytes.iter_mut().take(4) {
        *byte = 0xff;
    }
    expect(sum(&bytes) == 0xffff_fffe, "another sum of ones")
}

// a new block of one page of bins data: its sum, and itself again
fn expect_block() -> Result<(), Fault> {
    let block = BaseBlock::of_primary(SequenceNumber(1), MINOR_VERSION, 32, 4_096, Uuid::nil());
    let sector = block.write();
    expect(
        sector.ends_with(&[0x56, 0x75, 0x67, 0x66]),
        "another sum of a block",
    )?;
    let read = BaseBlock::read(&sector);
    expect(read.is_clean() && read.root == 32, "another block")
}

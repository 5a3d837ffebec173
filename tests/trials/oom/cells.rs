//! The calls on bins and cells: if one is refused memory, no byte of the image changes.
use crate::fault::Fault;
use crate::oom::expect_no_memory;
use hive_cells::{Image, Looks};
use std::alloc::{AllocError, Global};

const BIN: usize = 4096;

// the bytes of one bin that aren't 0: an allocated cell of 16 bytes at 32, and a free one after it
const WRITTEN: [(usize, u8); 13] = [
    (0, b'h'),
    (1, b'b'),
    (2, b'i'),
    (3, b'n'),
    (9, 0x10),
    (32, 0xf0),
    (33, 0xff),
    (34, 0xff),
    (35, 0xff),
    (36, b'h'),
    (37, b'i'),
    (48, 0xd0),
    (49, 0x0f),
];

/// Makes all calls: whether one was refused memory.
pub(crate) fn run(alloc: Global) -> Result<bool, Fault> {
    let opened = open(alloc)?;
    let reserved = reserve(alloc)?;
    let grown = grow(alloc)?;
    let many = grow_again_and_again(alloc)?;
    Ok(opened || reserved || grown || many)
}

// the byte of the one bin at an offset
fn byte_at(at: usize) -> u8 {
    for (place, byte) in WRITTEN {
        if place == at {
            return byte;
        }
    }
    0
}

fn one_bin(alloc: Global) -> Result<Vec<u8>, AllocError> {
    let mut bytes = vec![in alloc; 0u8; BIN]?;
    for (place, byte) in WRITTEN {
        if let Some(slot) = bytes.get_mut(place) {
            *slot = byte;
        }
    }
    Ok(bytes)
}

fn expect(is_right: bool, otherwise: &'static str) -> Result<(), Fault> {
    if is_right {
        Ok(())
    } else {
        Err(Fault::Otherwise(otherwise))
    }
}

// whether these are the one bin's bytes
fn is_one_bin(bytes: &[u8]) -> bool {
    let mut same = bytes.len() == BIN;
    for (at, byte) in bytes.iter().enumerate() {
        same = same && *byte == byte_at(at);
    }
    same
}

fn image_of_one_bin(alloc: Global) -> Result<Image, Fault> {
    match Image::open(alloc, one_bin(alloc)?) {
        Ok(image) => Ok(image),
        Err(unopened) => Err(Fault::from(unopened.refusal)),
    }
}

// opening: the bytes come back, in an image or with the refusal
fn open(alloc: Global) -> Result<bool, Fault> {
    match Image::open(alloc, one_bin(alloc)?) {
        Ok(image) => {
            expect(is_one_bin(&image.into_bytes()), "another image")?;
            Ok(false)
        }
        Err(unopened) => {
            expect_no_memory(unopened.refusal)?;
            expect(is_one_bin(&unopened.bytes), "other bytes back")?;
            Ok(true)
        }
    }
}

// memory for two bins: what is reserved is there for cells
fn reserve(alloc: Global) -> Result<bool, Fault> {
    let mut image = image_of_one_bin(alloc)?;
    match image.reserve(2 * BIN) {
        Ok(()) => {
            expect(
                image.alloc(5000).ok() == Some(4128),
                "no memory that was reserved",
            )?;
            Ok(false)
        }
        Err(refusal) => {
            expect_no_memory(refusal)?;
            expect(is_one_bin(image.bytes()), "an image that changed")?;
            Ok(true)
        }
    }
}

// a cell in a new bin; then cells are taken, freed and found without memory, whether it was refused or not
fn grow(alloc: Global) -> Result<bool, Fault> {
    let mut image = image_of_one_bin(alloc)?;
    let was_refused = match image.alloc(5000) {
        Ok(offset) => {
            expect(offset == 4128 && image.len() == 3 * BIN, "another place")?;
            false
        }
        Err(refusal) => {
            expect_no_memory(refusal)?;
            expect(is_one_bin(image.bytes()), "an image that changed")?;
            true
        }
    };
    use_cells(&mut image)?;
    Ok(was_refused)
}

// takes a free cell, frees it and finds the other
fn use_cells(image: &mut Image) -> Result<(), Fault> {
    expect(image.alloc(10).ok() == Some(48), "no free cell")?;
    expect(image.free(48).ok() == Some(48), "a cell that isn't freed")?;
    match image.cell(32, &mut Looks::new()) {
        Ok(data) => expect(data.len() == 12 && data.starts_with(b"hi"), "another cell"),
        Err(_) => Err(Fault::Otherwise("no cell")),
    }
}

// many bins, one after another; a refused one is left out
fn grow_again_and_again(alloc: Global) -> Result<bool, Fault> {
    let mut image = image_of_one_bin(alloc)?;
    let mut was_refused = false;
    for _ in 0..40 {
        was_refused = grow_by_a_bin(&mut image)? || was_refused;
    }
    Ok(was_refused)
}

fn grow_by_a_bin(image: &mut Image) -> Result<bool, Fault> {
    let len = image.len();
    match image.alloc(4060) {
        Ok(_) => {
            expect(image.len() == len.saturating_add(BIN), "another size")?;
            Ok(false)
        }
        Err(refusal) => {
            expect_no_memory(refusal)?;
            expect(image.len() == len, "an image that grew")?;
            Ok(true)
        }
    }
}

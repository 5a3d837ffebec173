//! A hive's file, written by hand.
use base_block::{BaseBlock, MINOR_VERSION, SequenceNumber};
use std::alloc::{AllocError, Global};
use uuid::Uuid;

/// What is printed of it.
pub const TEXT: &[u8] = b"hive 0\nkey 0: 7\n";

// a bin of one page, and the root's key node, whose name is `r` and whose time is 7
const BIN: [u8; 32] = [
    b'h', b'b', b'i', b'n', 0, 0, 0, 0, 0, 0x10, 0, 0, 0, 0, 0, 0, 0, 0, 0, 0, 0, 0, 0, 0, 0, 0, 0,
    0, 0, 0, 0, 0,
];

const KEY: [u8; 88] = [
    0xa8, 0xff, 0xff, 0xff, b'n', b'k', 0x20, 0, 7, 0, 0, 0, 0, 0, 0, 0, 0, 0, 0, 0, 0, 0, 0, 0, 0,
    0, 0, 0, 0, 0, 0, 0, 0xff, 0xff, 0xff, 0xff, 0xff, 0xff, 0xff, 0xff, 0, 0, 0, 0, 0xff, 0xff,
    0xff, 0xff, 0xff, 0xff, 0xff, 0xff, 0xff, 0xff, 0xff, 0xff, 0, 0, 0, 0, 0, 0, 0, 0, 0, 0, 0, 0,
    0, 0, 0, 0, 0, 0, 0, 0, 1, 0, 0, 0, b'r', 0, 0, 0, 0, 0, 0, 0,
];

// the size of the free cell after them
const FREE: [u8; 4] = [0x88, 0x0f, 0, 0];

// the bytes of the bin after that
const REST: usize = 3_972;

// the bytes of the base block after its first sector
const BEHIND: usize = 3_584;

/// The file, and some more bytes after it.
pub fn file(alloc: Global, more: &[u8]) -> Result<Vec<u8>, AllocError> {
    let block = BaseBlock::of_primary(SequenceNumber(1), MINOR_VERSION, 32, 4_096, Uuid::nil());
    let mut file = Vec::new(alloc);
    file.extend_from_slice(&block.write())?;
    file.extend_from_slice(&[0; BEHIND])?;
    file.extend_from_slice(&BIN)?;
    file.extend_from_slice(&KEY)?;
    file.extend_from_slice(&FREE)?;
    file.extend_from_slice(&[0; REST])?;
    file.extend_from_slice(more)?;
    Ok(file)
}

//! Numbers that stand for trees and for bytes. Making one takes no memory, so they are compared while allocations are
//! refused too.
use disk_model::{Disk, Failed};
use reg_tree::{Key, Node, Tree, Trees};

// FNV-1a of 64 bits
const START: u64 = 0xcbf2_9ce4_8422_2325;

const PRIME: u64 = 0x0000_0100_0000_01b3;

// how many bytes of a file are read at once
const CHUNK: usize = 512;

/// What stands for some bytes and numbers, in their order.
#[derive(Clone, Copy, PartialEq, Eq)]
pub(crate) struct Digest(u64);

impl Digest {
    /// Of nothing.
    pub(crate) fn new() -> Digest {
        Digest(START)
    }

    /// A digest that was kept as a number.
    pub(crate) fn from_bits(bits: u64) -> Digest {
        Digest(bits)
    }

    /// The digest as a number.
    pub(crate) fn bits(self) -> u64 {
        self.0
    }

    /// With a number behind it.
    pub(crate) fn number(self, number: u64) -> Digest {
        self.bytes(&number.to_le_bytes())
    }

    /// With bytes behind it.
    pub(crate) fn bytes(self, bytes: &[u8]) -> Digest {
        let mut now = self.0;
        for byte in bytes {
            now = (now ^ u64::from(*byte)).wrapping_mul(PRIME);
        }
        Digest(now)
    }

    // with a text behind it, and how long it is
    fn text(self, units: &[u16]) -> Digest {
        let mut now = self.number(units.len() as u64);
        for unit in units {
            now = now.bytes(&unit.to_le_bytes());
        }
        now
    }

    // with data behind it, and how long they are
    fn data(self, bytes: &[u8]) -> Digest {
        self.number(bytes.len() as u64).bytes(bytes)
    }

    // with all that a key has behind it, but its subkeys
    fn key(self, key: &Key) -> Digest {
        let values = key.values();
        let mut now = self
            .text(key.name().units())
            .data(key.class())
            .number(u64::from(key.flags()))
            .data(key.descriptor().bytes())
            .number(key.time())
            .number(values.len() as u64);
        for index in 0..values.len() {
            if let Some(value) = values.at(index) {
                now = now
                    .text(value.name.units())
                    .number(u64::from(value.kind))
                    .data(value.data.bytes());
            }
        }
        now
    }

    // with a key behind it, and each key below it
    fn node(self, node: &Node) -> Digest {
        let mut now = self.key(node.key()).number(node.subkey_count() as u64);
        for index in 0..node.subkey_count() {
            if let Some(subkey) = node.subkey_at(index) {
                now = now.node(subkey);
            }
        }
        now
    }

    /// With a tree behind it.
    pub(crate) fn tree(self, tree: &Tree) -> Digest {
        self.node(tree.root())
    }
}

/// Of all trees.
pub(crate) fn digest_of(trees: &Trees) -> Digest {
    let mut now = Digest::new().number(trees.len() as u64);
    for hive in 0..u8::MAX {
        if let Some(tree) = trees.tree(hive) {
            now = now.tree(tree);
        }
    }
    now
}

/// Of the bytes that a read gives of the first files of a disk.
pub(crate) fn digest_of_files<D: Disk>(disk: &mut D, files: u32) -> Result<Digest, Failed> {
    let mut now = Digest::new();
    for file in 0..files {
        now = with_file(now, disk, file)?;
    }
    Ok(now)
}

fn with_file<D: Disk>(digest: Digest, disk: &mut D, file: u32) -> Result<Digest, Failed> {
    let len = disk.len(file)?;
    let mut now = digest.number(len);
    let mut chunk = [0u8; CHUNK];
    for index in 0..len.div_ceil(CHUNK as u64) {
        let count = disk.read(file, index.saturating_mul(CHUNK as u64), &mut chunk)?;
        now = now.bytes(chunk.get(..count).unwrap_or(&chunk));
    }
    Ok(now)
}

//! A disk whose writes are told while an engine or a registry owns it.
ghost use Rattle.std.specs.Prelude.{◌≡◌, ℕ};

use crate::oom::digest::Digest;
use disk_model::{Disk, Failed};
use std::alloc::{AllocError, Global};
use std::sync::Arc;
use std::sync::atomic::{AtomicU64, Ordering};

/// What was done to a disk. As long as it stays the same, each file has the bytes that it had.
#[derive(Clone, Copy, PartialEq, Eq)]
pub(crate) struct DiskCalls {
    /// What stands for all writes and cuts, in their order.
    pub changes: Digest,
    /// How many syncs there were.
    pub syncs: u64,
}

/// What a disk tells.
#[derive(Drop)]
pub(crate) struct DiskWatch {
    changes: AtomicU64,
    syncs: AtomicU64,
}

impl DiskWatch {
    /// Of a disk that is to be made.
    pub(crate) fn new(alloc: Global) -> Result<Arc<DiskWatch>, AllocError> {
        let watch = DiskWatch {
            changes: AtomicU64::new(Digest::new().bits()),
            syncs: AtomicU64::new(0),
        };
        Ok(Arc::new(alloc, watch)?)
    }

    /// What was done up to now.
    pub(crate) fn calls(&self) -> DiskCalls {
        DiskCalls {
            changes: Digest::from_bits(self.changes.load(Ordering::SeqCst)),
            syncs: self.syncs.load(Ordering::SeqCst),
        }
    }

    // a write or cut of a file, at an offset or to a length
    fn changed(&self, file: u32, at: u64, bytes: &[u8]) {
        let before = Digest::from_bits(self.changes.load(Ordering::SeqCst));
        let now = before
            .number(u64::from(file))
            .number(at)
            .number(bytes.len() as u64)
            .bytes(bytes);
        self.changes.store(now.bits(), Ordering::SeqCst);
    }
}

/// A disk that tells its writes, cuts and syncs. Otherwise it is the disk within.
#[derive(Drop)]
pub(crate) struct WatchedDisk<D> {
    disk: D,
    watch: Arc<DiskWatch>,
}

impl<D> WatchedDisk<D> {
    /// A disk that is watched from now on.
    pub(crate) fn new(disk: D, watch: Arc<DiskWatch>) -> WatchedDisk<D> {
        WatchedDisk { disk, watch }
    }

    /// The disk within.
    pub(crate) fn into_inner(self) -> D {
        let WatchedDisk { disk, watch: _ } = self;
        disk
    }
}

impl<D: Disk + Drop> Disk for WatchedDisk<D> {
    ghost state_at = { λ w. D.state_at w.disk };

    ghost clock = { λ w. D.clock w.disk };

    ghost failures = { λ w. D.failures w.disk };

    ghost faithful = { λ w. D.faithful w.disk };

    ghost sound = { λ w k f faithful within. D.sound w.disk k f faithful within };

    fn len(&mut self, file: u32) -> Result<u64, Failed> {
        self.disk.len(file)
    }

    fn read(&mut self, file: u32, offset: u64, buffer: &mut [u8]) -> Result<usize, Failed> {
        self.disk.read(file, offset, buffer)
    }

    fn write_at(&mut self, file: u32, offset: u64, bytes: &[u8]) -> Result<(), Failed> {
        self.watch.changed(file, offset, bytes);
        self.disk.write_at(file, offset, bytes)
    }

    fn cut(&mut self, file: u32, len: u64) -> Result<(), Failed> {
        self.watch.changed(file, len, &[]);
        self.disk.cut(file, len)
    }

    fn sync(&mut self, file: u32) -> Result<(), Failed> {
        self.watch.syncs.fetch_add(1, Ordering::SeqCst);
        self.disk.sync(file)
    }
}

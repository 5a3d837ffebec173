//! A disk that counts its syncs.
ghost use Rattle.std.specs.Prelude.{◌≡◌, ℕ};

use disk_model::{Disk, Failed};
use std::sync::atomic::{AtomicU64, Ordering};

/// A disk whose syncs are counted. Otherwise it is the disk within.
#[derive(Drop)]
pub struct CountedDisk<'a, D> {
    disk: D,
    syncs: &'a AtomicU64,
}

impl<'a, D: Disk + Drop> CountedDisk<'a, D> {
    /// Counts the syncs of a disk from here on.
    pub fn new(disk: D, syncs: &'a AtomicU64) -> CountedDisk<'a, D> {
        CountedDisk { disk, syncs }
    }
}

impl<'a, D: Disk + Drop> Disk for CountedDisk<'a, D> {
    ghost state_at = { λ c. D.state_at c.disk };

    ghost clock = { λ c. D.clock c.disk };

    ghost failures = { λ c. D.failures c.disk };

    ghost faithful = { λ c. D.faithful c.disk };

    ghost sound = { λ c k f faithful within. D.sound c.disk k f faithful within };

    fn len(&mut self, file: u32) -> Result<u64, Failed> {
        self.disk.len(file)
    }

    fn read(&mut self, file: u32, offset: u64, buffer: &mut [u8]) -> Result<usize, Failed> {
        self.disk.read(file, offset, buffer)
    }

    fn write_at(&mut self, file: u32, offset: u64, bytes: &[u8]) -> Result<(), Failed> {
        self.disk.write_at(file, offset, bytes)
    }

    fn cut(&mut self, file: u32, len: u64) -> Result<(), Failed> {
        self.disk.cut(file, len)
    }

    fn sync(&mut self, file: u32) -> Result<(), Failed> {
        self.syncs.fetch_add(1, Ordering::SeqCst);
        self.disk.sync(file)
    }
}

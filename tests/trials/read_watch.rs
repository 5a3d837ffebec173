//! A disk in memory that tells the longest read of it.
ghost use Rattle.std.specs.Prelude.{◌≡◌};

use disk_model::{Disk, Failed, MemDisk};

/// A disk in memory, how many bytes the longest read of it asked for, and how many bytes all reads gave.
#[derive(Drop)]
pub(crate) struct ReadWatch {
    disk: MemDisk,
    longest: usize,
    total: u64,
}

impl ReadWatch {
    /// The disk, of which nothing was read yet.
    pub(crate) fn new(disk: MemDisk) -> ReadWatch {
        ReadWatch {
            disk,
            longest: 0,
            total: 0,
        }
    }

    /// The disk.
    pub(crate) fn disk(&self) -> &MemDisk {
        &self.disk
    }

    /// How many bytes the longest read asked for.
    pub(crate) fn longest(&self) -> usize {
        self.longest
    }

    /// How many bytes all reads gave.
    pub(crate) fn total(&self) -> u64 {
        self.total
    }
}

impl Disk for ReadWatch {
    ghost use Rattle.disk_model.specs.MemSound.{sound-states};

    ghost state_at = { λ w. ⟦<MemDisk as Disk>⟧.state_at w.disk };

    ghost clock = { λ w. ⟦<MemDisk as Disk>⟧.clock w.disk };

    ghost failures = { λ w. ⟦<MemDisk as Disk>⟧.failures w.disk };

    ghost faithful = { λ w. ⟦<MemDisk as Disk>⟧.faithful w.disk };

    ghost sound = { λ w k f _ _. sound-states w.disk.past w.disk.files.items k f };

    fn len(&mut self, file: u32) -> Result<u64, Failed> {
        self.disk.len(file)
    }

    fn read(&mut self, file: u32, offset: u64, buffer: &mut [u8]) -> Result<usize, Failed> {
        self.longest = self.longest.max(buffer.len());
        let count = self.disk.read(file, offset, buffer)?;
        self.total = self.total.saturating_add(count as u64);
        Ok(count)
    }

    fn write_at(&mut self, file: u32, offset: u64, bytes: &[u8]) -> Result<(), Failed> {
        self.disk.write_at(file, offset, bytes)
    }

    fn cut(&mut self, file: u32, len: u64) -> Result<(), Failed> {
        self.disk.cut(file, len)
    }

    fn sync(&mut self, file: u32) -> Result<(), Failed> {
        self.disk.sync(file)
    }
}

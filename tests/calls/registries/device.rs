//! A disk that counts its calls, and what a test keeps of it.
ghost use Rattle.std.specs.Prelude.{◌≡◌, ℕ};

use disk_model::{Disk, Failed, MemDisk, Plan};
use std::alloc::{AllocError, Global};
use std::sync::Arc;
use std::sync::atomic::{AtomicU64, Ordering};
use std::thread;

/// What a test keeps of a disk: the plan by which calls of it fail, and the count of its calls.
#[derive(Drop)]
pub struct Device {
    /// When calls fail.
    pub plan: Arc<Plan>,
    /// How many calls there were.
    pub calls: Arc<AtomicU64>,
    /// Which of the next calls fails, once it is to fail; the next is 1.
    pub failing: u64,
}

// how often others may run during a call
const PACE: usize = 30;

/// No call is to fail.
pub const NO_FAILURE: u64 = 0;

impl Device {
    /// Of a disk that is to be made.
    pub fn new(alloc: Global, failing: u64) -> Result<Device, AllocError> {
        let plan = Arc::new(alloc, Plan::new())?;
        let calls = Arc::new(alloc, AtomicU64::new(0))?;
        Ok(Device {
            plan,
            calls,
            failing,
        })
    }

    /// From now on the device is to fail.
    pub fn fail(&self) {
        if self.failing > NO_FAILURE {
            self.plan.fail_at(self.failing);
        }
    }

    /// The disk.
    pub fn disk(&self, alloc: Global) -> Result<TestDisk, AllocError> {
        let plan = Arc::try_clone(&self.plan)?;
        let calls = Arc::try_clone(&self.calls)?;
        Ok(CountingDisk {
            disk: MemDisk::new(alloc, plan),
            calls,
        })
    }
}

/// The disk of each test.
pub type TestDisk = CountingDisk<MemDisk>;

/// A disk that counts its calls. Otherwise it is the disk within.
#[derive(Drop)]
pub struct CountingDisk<D> {
    disk: D,
    calls: Arc<AtomicU64>,
}

impl<D> CountingDisk<D> {
    // one call more. Other threads run meanwhile, as they do during a call of a real disk
    fn count(&self) {
        self.calls.fetch_add(1, Ordering::SeqCst);
        for _ in 0..PACE {
            thread::yield_now();
        }
    }
}

impl<D: Disk + Drop> Disk for CountingDisk<D> {
    ghost state_at = { λ c. D.state_at c.disk };

    ghost clock = { λ c. D.clock c.disk };

    ghost failures = { λ c. D.failures c.disk };

    ghost faithful = { λ c. D.faithful c.disk };

    ghost sound = { λ c k f faithful within. D.sound c.disk k f faithful within };

    fn len(&mut self, file: u32) -> Result<u64, Failed> {
        self.count();
        self.disk.len(file)
    }

    fn read(&mut self, file: u32, offset: u64, buffer: &mut [u8]) -> Result<usize, Failed> {
        self.count();
        self.disk.read(file, offset, buffer)
    }

    fn write_at(&mut self, file: u32, offset: u64, bytes: &[u8]) -> Result<(), Failed> {
        self.count();
        self.disk.write_at(file, offset, bytes)
    }

    fn cut(&mut self, file: u32, len: u64) -> Result<(), Failed> {
        self.count();
        self.disk.cut(file, len)
    }

    fn sync(&mut self, file: u32) -> Result<(), Failed> {
        self.count();
        self.disk.sync(file)
    }
}

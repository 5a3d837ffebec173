//! Creations of a store whose device fails.

use crate::events::calls::make;
use disk_model::{MemDisk, Plan};
use refusals::Refusal;
use reg_tree::Trees;
use std::alloc::Global;
use std::sync::Arc;
use uuid::Uuid;

// the calls of a creation of two hives and that of outcomes: a log is cut and synced, a primary file is cut, written,
// made longer, written and synced, and the journal is cut, written and synced
const CALLS: u64 = 3 * (2 + 5) + 3;

// the answer to a creation whose device fails at a call
fn failing(alloc: Global, call: u64) -> Result<(), Refusal> {
    let trees = Trees::new(alloc, 2)?;
    let plan = Arc::new(alloc, Plan::new())?;
    plan.fail_at(call);
    let mut disk = MemDisk::new(alloc, plan);
    make(alloc, &mut disk, Uuid::nil(), &trees)
}

#[test]
fn a_creation_whose_device_fails_is_told_so(rt: HostRuntime) {
    let alloc = rt.alloc();
    for call in 1..CALLS + 1 {
        assert_eq!(&rt;
            failing(alloc, call),
            Err(Refusal::DiskFault),
            "call {call}"
        );
    }
    assert_eq!(&rt; failing(alloc, CALLS + 1), Ok(()));
}

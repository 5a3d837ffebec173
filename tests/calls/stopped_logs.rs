//! The gated log over the disk in memory: what each stop of an `append` and each tear leave.

use disk_model::{Disk, MemDisk, Plan, Tear};
use gated_log::{append, create};
use std::alloc::Global;
use std::sync::Arc;
use std::test::Fail;

/// A log of the byte 5, beside a second file.
fn prepared(alloc: Global, plan: Arc<Plan>) -> Result<MemDisk, Fail> {
    let mut disk = MemDisk::new(alloc, plan);
    disk.write_at(1, 0, b"other")?;
    create(&mut disk)?;
    append(&mut disk, 0, 5)?;
    Ok(disk)
}

#[test]
fn each_stop_leaves_the_entries_before_or_after(rt: HostRuntime) -> Result<(), Fail> {
    let alloc = rt.alloc();
    // What is left of the log by a crash after the stop at each of the four calls, and after none.
    let before: &[u8] = &[0xc3, 5, 0];
    let staged: &[u8] = &[0xc3, 5, 0, 7, 0];
    let staged_torn: &[u8] = &[0xc3, 5, 0, 7, 0xff];
    let gate_torn: &[u8] = &[0xc3, 5, 0x3c, 7, 0];
    let after: &[u8] = &[0xc3, 5, 0xc3, 7, 0];
    let outcomes = [
        [before, staged, staged_torn],
        [before, staged, staged_torn],
        [staged, after, gate_torn],
        [staged, after, gate_torn],
        [after, after, after],
    ];
    for (number, outcome) in outcomes.iter().enumerate() {
        let plan = Arc::new(alloc, Plan::new())?;
        let mut disk = prepared(alloc, Arc::try_clone(&plan)?)?;
        plan.stop_at(number as u64 + 1);
        assert_eq!(rt;
            append(&mut disk, 1, 7).is_ok(),
            number == 4,
            "stop {number}"
        );
        for (tear, bytes) in [Tear::Old, Tear::New, Tear::Torn].into_iter().zip(outcome) {
            let mut left = disk.crashed(tear, Arc::new(alloc, Plan::new())?)?;
            let mut buffer = [0; 16];
            let count = left.read(0, 0, &mut buffer)?;
            assert_eq!(rt; &buffer[..count], *bytes, "stop {number}, {tear:?}");
            let count = left.read(1, 0, &mut buffer)?;
            assert_eq!(rt;
                &buffer[..count],
                b"other".as_slice(),
                "stop {number}, {tear:?}"
            );
        }
    }
    Ok(())
}

//! Flushes that are stopped at a call.

use crate::hives::hives::{flushed, open, planned};
use disk_model::{MemDisk, Tear};
use refusals::Refusal;
use reg_tree::Element;
use std::alloc::Global;

/// Every tear.
pub const TEARS: [Tear; 3] = [Tear::Old, Tear::New, Tear::Torn];

/// The disk on which the flush of a change, under a number, was stopped at a call.
pub fn stopped(
    alloc: Global,
    disk: &MemDisk,
    call: u64,
    element: Element,
    number: u64,
) -> Result<MemDisk, Refusal> {
    let (mut disk, plan) = planned(alloc, disk, Tear::New)?;
    let mut file = open(alloc, &mut disk)?;
    plan.stop_at(call);
    let _ = flushed(alloc, &mut file, &mut disk, element, number);
    Ok(disk)
}

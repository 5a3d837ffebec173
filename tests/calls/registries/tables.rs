//! What one thread does, in tables.
use crate::registries::device::Device;
use crate::registries::playing::{Scene, play};
use crate::registries::steps::number;
use crate::registries::{alone, stopping, transacted};
use refusals::Refusal;
use std::alloc::Global;
use std::process::Abort;
use std::sync::Wait;
use std::test::Fail;
use std::thread::Threads;

/// A table, and how it is played.
#[derive(Clone, Copy)]
struct Table<'a> {
    // the number that is durable at the end
    durable: u64,
    // how many of the next calls of the device are to fail, each in a run of its own
    failing: u64,
    steps: &'a str,
    beside: bool,
}

// plays the tables of a text, which empty lines separate. The first line of each has the number that is durable at its
// end, how many calls of the device are to fail, and what it shows
fn check<R: Threads + Wait + Sync + Abort>(
    rt: &R,
    alloc: Global,
    text: &str,
    beside: bool,
) -> Result<(), Refusal> {
    for section in text.split("\n\n") {
        let (head, steps) = section.split_once("\n").unwrap_or((section, ""));
        let (durable, head) = head.split_once(" ").unwrap_or((head, ""));
        let (failing, _title) = head.split_once(" ").unwrap_or((head, ""));
        let table = Table {
            durable: number(durable),
            failing: number(failing),
            steps,
            beside,
        };
        check_table(rt, alloc, table)?;
    }
    Ok(())
}

// plays a table for each call that is to fail, or once
fn check_table<R: Threads + Wait + Sync + Abort>(
    rt: &R,
    alloc: Global,
    table: Table<'_>,
) -> Result<(), Refusal> {
    for call in table.failing.min(1)..table.failing.saturating_add(1) {
        check_failing(rt, alloc, table, call)?;
    }
    Ok(())
}

fn check_failing<R: Threads + Wait + Sync + Abort>(
    rt: &R,
    alloc: Global,
    table: Table<'_>,
    call: u64,
) -> Result<(), Refusal> {
    let scene = if table.beside {
        Scene::Beside(table.steps)
    } else {
        Scene::Alone(table.steps)
    };
    let device = Device::new(alloc, call)?;
    let played = play(rt, alloc, &device, scene)?;
    let steps = table.steps;
    assert!(rt;
        played.is_well(table.durable),
        "{steps}\ncall {call}: {played:?}"
    );
    Ok(())
}

#[test]
fn one_thread_is_answered_as_the_rules_say(rt: HostRuntime) -> Result<(), Fail> {
    check(&rt, rt.alloc(), alone::TABLES, false)?;
    check(&rt, rt.alloc(), transacted::TABLES, false)?;
    check(&rt, rt.alloc(), stopping::TABLES, false)?;
    check(&rt, rt.alloc(), stopping::BESIDE, true)?;
    Ok(())
}

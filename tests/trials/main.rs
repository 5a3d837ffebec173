//! Makes the calls that no command of `regtx` makes: some while allocations are refused, some on disks that are spoiled
//! or watched, and others that are timed.
//!
//! | words | |
//! |---|---|
//! | `oom` | makes calls that may be refused memory, for `tools/failalloc.py each` |
//! | `retries` | makes calls that try again until there is memory, for `tools/failalloc.py each` in its mode `at` alone |
//! | `spoil` | opens a small store with each byte of its files spoiled in turn |
//! | `journal` | plays lines about a journal, which come on standard input: `journal.rs` says which |
//! | `reads` | opens stores, and makes changes of them, on a disk that tells the longest read |
//! | `looks FILE` | loads the bins data of a primary file: how many looks at cells that took, and how it ended |
//! | `bench load FILE` | loads the bins data of a primary file |
//! | `bench emit KEYS` | makes the image of a tree of KEYS keys, each with a value of 16 bytes |
//! | `bench flush VALUES BYTES CHANGES` | flushes changes of CHANGES values in a hive of VALUES values of 16,000 bytes each, with at least BYTES bytes of bins data |
//! | `bench grow values N`, `bench grow keys N` | absorbs N changes one by one, each a new value or a new subkey of one key |
//! | `bench writes N`, `commits N`, `reads N`, `held N` | does a work of an engine N times |
//! | `bench opening N BYTES` | opens a store of 16 hives whose journal decodes to N changes, each of a value of BYTES bytes |
//!
//! The words of `bench` print the microseconds of processor time that the work took, and the sizes that `bench/` puts
//! beside them.
//!
//! The status is 0 if all came as it should. It is 1 if memory was refused and each call took that well, and 3 if a
//! call was refused memory twice, such as if every allocation from one on is refused. It is 2 if something else came,
//! and at other words. Standard error says why it isn't 0.
#![tactic(auto)]

mod bench;
mod engine_calls;
mod fault;
mod journal;
mod looks;
mod oom;
mod primary_file;
mod read_watch;
mod reads;
mod small_stores;
mod spoils;
mod words;

use crate::fault::Fault;
use crate::words::{Task, USAGE, task_of};
use std::alloc::Global;
use std::env;
use std::io::Eprint;
use std::process::ExitCode;
use std::rt::{Env, Files};
use std::sync::Wait;
use std::time::CpuClock;

fn main(rt: HostRuntime) -> ExitCode {
    match run(&rt) {
        Ok(status) => ExitCode::from(status),
        Err(fault) => {
            let _ = eprintln!(&rt; "trials: {}", fault.text());
            ExitCode::from(status_of(fault))
        }
    }
}

fn status_of(fault: Fault) -> u8 {
    match fault {
        Fault::NoMemory => 1,
        Fault::Twice => 3,
        Fault::NotUnderstood | Fault::Otherwise(_) => 2,
    }
}

// does what the words ask for: the status
fn run<R: Input + Print + Eprint + Files + Env + CpuClock + AllocGlobal + Wait>(
    rt: &R,
) -> Result<u8, Fault> {
    let alloc = rt.alloc();
    let given = words_given(rt, alloc)?;
    let words: Vec<&str> = given.iter().map(|word| word.as_str()).collect(alloc)?;
    match task_of(&words) {
        Some(Task::Oom) => Ok(u8::from(oom::run(rt, alloc)?)),
        Some(Task::Retries) => Ok(u8::from(oom::run_patiently(rt, alloc)?)),
        Some(Task::Spoil) => {
            spoils::run(rt, alloc)?;
            Ok(0)
        }
        Some(Task::Journal) => journal::run(rt),
        Some(Task::Reads) => {
            reads::run(rt, alloc)?;
            Ok(0)
        }
        Some(Task::Looks { file }) => {
            looks::count(rt, file)?;
            Ok(0)
        }
        Some(Task::Bench(work)) => {
            bench::time(rt, work)?;
            Ok(0)
        }
        None => {
            eprintln!(rt; "{USAGE}")?;
            Ok(2)
        }
    }
}

fn words_given<R: Env + AllocGlobal>(rt: &R, alloc: Global) -> Result<Vec<String>, Fault> {
    let mut words = Vec::new(alloc);
    for word in env::args(rt)? {
        words.push(word)?;
    }
    Ok(words)
}

//! Measures calls from many threads over a store in a folder.
//!
//! | words | |
//! |---|---|
//! | `commits DIR THREADS COUNT` | THREADS threads (1 to 32) make COUNT commits in all, with a flusher beside |
//! | `commits-unflushed DIR THREADS COUNT` | the same, with no flusher beside |
//! | `commits-busy DIR THREADS COUNT` | the same, with a flusher that begins once much of the journal's room is used |
//! | `commits-whole DIR THREADS COUNT` | the same with no flusher, each commit by one call |
//! | `acked DIR THREADS COUNT` | as `commits`; a line `THREAD NUMBER ROUND` is printed after each commit that is acknowledged |
//! | `reads DIR THREADS COUNT` | THREADS threads read COUNT values in all |
//! | `reads-beside-a-writer DIR THREADS COUNT` | the same with 1 to 31 threads, while one more writes values |
//! | `check DIR` | prints the rounds of the threads' values, as the store that is opened has them |
//!
//! If the folder has no store, all but `check` make one of two hives. The status is 0 if all came as it should. It is 1
//! if something was refused or the system failed, which standard error tells. It is 2 at wrong words.
#![tactic(auto)]

mod calls;
mod check;
mod commits;
mod counted_disk;
mod latencies;
mod reads;
mod rounds;
mod sharing;
mod store;
mod tally;
mod trouble;
mod words;

use crate::sharing::measure_store;
use crate::store::held_folder;
use crate::trouble::Trouble;
use crate::words::{USAGE, task_of};
use std::alloc::Global;
use std::env;
use std::io::Eprint;
use std::process::ExitCode;
use std::rt::Env;
use std::sync::atomic::AtomicU64;

fn main(rt: HostRuntime) -> ExitCode {
    let alloc = rt.alloc();
    let words = match words_given(&rt, alloc) {
        Ok(words) => words,
        Err(trouble) => return refused(&rt, trouble),
    };
    let Some(task) = task_of(&words) else {
        let _ = eprintln!(&rt; "{USAGE}");
        return ExitCode::from(2);
    };
    let syncs = AtomicU64::new(0);
    let disk = match held_folder(&rt, alloc, task.folder, &syncs) {
        Ok(disk) => disk,
        Err(trouble) => return refused(&rt, trouble),
    };
    match measure_store(&rt, alloc, disk, task.work, &syncs) {
        Ok(()) => ExitCode::SUCCESS,
        Err(trouble) => refused(&rt, trouble),
    }
}

// tells why the program ends without what it was asked for: the status
fn refused<R: Eprint>(rt: &R, trouble: Trouble) -> ExitCode {
    let _ = eprintln!(rt; "regtx_bench: {trouble}");
    ExitCode::from(1)
}

fn words_given<R: Env + AllocGlobal>(rt: &R, alloc: Global) -> Result<Vec<String>, Trouble> {
    let mut words = Vec::new(alloc);
    for word in env::args(rt)? {
        words.push(word)?;
    }
    Ok(words)
}

//! The words of the command line.

/// What is printed at other words.
pub const USAGE: &str =
    "usage: regtx_bench commits DIR THREADS COUNT | commits-unflushed DIR THREADS COUNT\n       | commits-busy DIR THREADS COUNT | commits-whole DIR THREADS COUNT\n       | acked DIR THREADS COUNT\n       | reads DIR THREADS COUNT | reads-beside-a-writer DIR THREADS COUNT | check DIR";

/// The most sessions that may be open at once, and so the most threads.
pub const MOST_THREADS: usize = 32;

/// What the words ask for.
#[derive(Clone, Copy)]
pub struct Task<'a> {
    /// The work.
    pub work: Work,
    /// The folder of the store.
    pub folder: &'a str,
}

/// What is done with a store.
#[derive(Clone, Copy)]
pub enum Work {
    /// Commits are measured, with a flusher beside.
    Commits(Plan),
    /// Commits are measured, without one.
    CommitsUnflushed(Plan),
    /// Commits are measured, with a flusher beside at its usual pace.
    CommitsBusy(Plan),
    /// Whole transactions are measured, without one.
    CommitsWhole(Plan),
    /// Commits are told as they are acknowledged.
    Acked(Plan),
    /// Reads are measured.
    Reads(Plan),
    /// Reads are measured while a thread writes.
    ReadsBesideAWriter(Plan),
    /// What the threads committed is printed.
    Check,
}

/// How many threads do how much.
#[derive(Clone, Copy)]
pub struct Plan {
    /// The number of threads.
    pub threads: usize,
    /// How often they call in all.
    pub count: u32,
}

impl Plan {
    /// How often the thread of this index calls: all calls are shared out evenly.
    pub fn share(self, index: usize) -> u32 {
        let threads = self.threads as u32;
        let more = (index as u64) < u64::from(self.count % threads);
        self.count / threads + u32::from(more)
    }
}

/// What the words ask for, the program's name first among them.
pub fn task_of(words: &[String]) -> Option<Task<'_>> {
    match words {
        [_, name, folder] if name.as_str() == "check" => Some(Task {
            work: Work::Check,
            folder: folder.as_str(),
        }),
        [_, name, folder, threads, count] => Some(Task {
            work: work_of(name.as_str(), threads.as_str(), count.as_str())?,
            folder: folder.as_str(),
        }),
        _ => None,
    }
}

fn work_of(name: &str, threads: &str, count: &str) -> Option<Work> {
    match name {
        "commits" => Some(Work::Commits(plan_of(threads, count, MOST_THREADS)?)),
        "commits-unflushed" => Some(Work::CommitsUnflushed(plan_of(threads, count, MOST_THREADS)?)),
        "commits-busy" => Some(Work::CommitsBusy(plan_of(threads, count, MOST_THREADS)?)),
        "commits-whole" => Some(Work::CommitsWhole(plan_of(threads, count, MOST_THREADS)?)),
        "acked" => Some(Work::Acked(plan_of(threads, count, MOST_THREADS)?)),
        "reads" => Some(Work::Reads(plan_of(threads, count, MOST_THREADS)?)),
        "reads-beside-a-writer" => Some(Work::ReadsBesideAWriter(plan_of(
            threads,
            count,
            MOST_THREADS - 1,
        )?)),
        _ => None,
    }
}

// 1 to `most` threads, and at least one call
fn plan_of(threads: &str, count: &str, most: usize) -> Option<Plan> {
    let threads: usize = number(threads)? as usize;
    let count = number(count)?;
    if threads < 1 || threads > most || count < 1 {
        return None;
    }
    Some(Plan { threads, count })
}

// a number in decimal digits; a sign isn't allowed
fn number(word: &str) -> Option<u32> {
    if !word.as_bytes().iter().all(|byte| byte.is_ascii_digit()) {
        return None;
    }
    word.parse().ok()
}

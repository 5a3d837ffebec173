//! The words of the command line.

/// What is printed at other words.
pub(crate) const USAGE: &str =
    "usage: trials oom | retries | spoil | journal | reads | looks FILE | bench load FILE | bench emit KEYS | bench flush VALUES BYTES CHANGES\n       | bench grow values N | bench grow keys N\n       | bench writes N | bench commits N | bench reads N | bench held N | bench opening N BYTES";

/// What the words ask for.
#[derive(Clone, Copy)]
pub(crate) enum Task<'a> {
    /// Calls that may be refused memory.
    Oom,
    /// Calls that try again until there is memory.
    Retries,
    /// Openings of a store in whose files one byte is another one.
    Spoil,
    /// Lines about a journal are played.
    Journal,
    /// Openings and runs whose longest read is looked at.
    Reads,
    /// A primary file's bins data are loaded, and the looks are counted.
    Looks { file: &'a str },
    /// Work that is timed.
    Bench(Work<'a>),
}

/// Work that is timed.
#[derive(Clone, Copy)]
pub(crate) enum Work<'a> {
    /// A primary file's bins data are loaded.
    Load {
        file: &'a str,
    },
    /// The image of a tree of keys is made.
    Emit {
        keys: u32,
    },
    /// Changes of so many values are flushed, in a hive of so many values and bytes.
    Flush {
        values: u32,
        bytes: u32,
        changes: u32,
    },
    /// A key of a hive gets so many values or subkeys, one by one.
    Grow {
        what: Growth,
        count: u32,
    },
    /// A store is opened whose journal has so many changes of so many bytes.
    Opening {
        changes: u32,
        bytes: u32,
    },
    /// Something is asked of an engine again and again.
    Engine {
        kind: EngineWork,
        count: u32,
    },
}

/// What a key gets.
#[derive(Clone, Copy)]
pub(crate) enum Growth {
    /// Values of four bytes.
    Values,
    /// Subkeys.
    Keys,
}

/// What is asked of an engine again and again.
#[derive(Clone, Copy)]
pub(crate) enum EngineWork {
    /// A write of a value of 16 bytes, by itself.
    Writes,
    /// A transaction of two such writes, one in each hive, committed and journaled until its receipt.
    Commits,
    /// A read of such a value.
    Reads,
    /// Such a write; after each ten thousand they are journaled, all hives are flushed and the journal is trimmed.
    Held,
}

/// What the words ask for, the program's name first among them.
pub(crate) fn task_of<'a>(words: &[&'a str]) -> Option<Task<'a>> {
    match words {
        [_, "oom"] => Some(Task::Oom),
        [_, "retries"] => Some(Task::Retries),
        [_, "spoil"] => Some(Task::Spoil),
        [_, "journal"] => Some(Task::Journal),
        [_, "reads"] => Some(Task::Reads),
        [_, "looks", file] => Some(Task::Looks { file: *file }),
        [_, "bench", rest @ ..] => Some(Task::Bench(work_of(rest)?)),
        _ => None,
    }
}

fn work_of<'a>(words: &[&'a str]) -> Option<Work<'a>> {
    match words {
        ["load", file] => Some(Work::Load { file: *file }),
        ["emit", keys] => Some(Work::Emit {
            keys: number(keys)?,
        }),
        ["flush", values, bytes, changes] => Some(Work::Flush {
            values: number(values)?,
            bytes: number(bytes)?,
            changes: number(changes)?,
        }),
        ["grow", what, count] => Some(Work::Grow {
            what: growth_of(what)?,
            count: number(count)?,
        }),
        ["opening", changes, bytes] => Some(Work::Opening {
            changes: number(changes)?,
            bytes: number(bytes)?,
        }),
        [kind, count] => Some(Work::Engine {
            kind: engine_work_of(kind)?,
            count: number(count)?,
        }),
        _ => None,
    }
}

fn growth_of(word: &str) -> Option<Growth> {
    match word {
        "values" => Some(Growth::Values),
        "keys" => Some(Growth::Keys),
        _ => None,
    }
}

fn engine_work_of(word: &str) -> Option<EngineWork> {
    match word {
        "writes" => Some(EngineWork::Writes),
        "commits" => Some(EngineWork::Commits),
        "reads" => Some(EngineWork::Reads),
        "held" => Some(EngineWork::Held),
        _ => None,
    }
}

// a decimal number
fn number(word: &str) -> Option<u32> {
    word.parse().ok()
}

//! Makes the calls of recovery that no command makes yet.
//!
//! | words | |
//! |---|---|
//! | `hash LOW HIGH HEX..` | the hash of each run of bytes, `-` if there are none, from a seed of two halves |
//! | `entries FILE` | the entries of a log, and why they end |
//! | `recover HIVE OUT LOG..` | how each log ends, and the recovered hive in OUT |
//! | `recover-within FROM TO HIVE OUT LOG..` | the same within limits, each a number, or `-` if there is none |
//!
//! The status is 0 if all came as it should, 1 if a hive was refused, and 2 if a word or a file isn't understood.
#![tactic(auto)]

use base_block::{BaseBlock, SequenceNumber};
use hive_recovery::{Log, RecoveryLimits, carry_out, missing_number, plan, read_log};
use marvin32::marvin32;
use refusals::Refusal;
use std::alloc::{AllocError, AllocFailed, Global};
use std::io::Eprint;
use std::process::ExitCode;
use std::rt::{Env, Files};
use std::{env, fs, io};

/// Why a run ends early.
enum Fault {
    /// A word or a file isn't understood.
    NotUnderstood,
    /// The hive was refused, or there is no memory.
    Refused(Refusal),
}

impl From<AllocError> for Fault {
    fn from(_error: AllocError) -> Fault {
        Fault::Refused(Refusal::NoMemory)
    }
}

impl<T: Drop> From<AllocFailed<T>> for Fault {
    fn from(_error: AllocFailed<T>) -> Fault {
        Fault::Refused(Refusal::NoMemory)
    }
}

impl From<io::Error> for Fault {
    fn from(error: io::Error) -> Fault {
        match error.kind() {
            io::ErrorKind::OutOfMemory => Fault::Refused(Refusal::NoMemory),
            _ => Fault::NotUnderstood,
        }
    }
}

impl From<Refusal> for Fault {
    fn from(refusal: Refusal) -> Fault {
        Fault::Refused(refusal)
    }
}

fn main(rt: HostRuntime) -> ExitCode {
    match run(&rt) {
        Ok(()) => ExitCode::from(0),
        Err(Fault::Refused(why)) => {
            let _ = println!(&rt; "{why}");
            ExitCode::from(1)
        }
        Err(Fault::NotUnderstood) => {
            let _ = eprintln!(&rt; "not understood");
            ExitCode::from(2)
        }
    }
}

// does what the words ask for
fn run<R: Print + Eprint + Files + Env + AllocGlobal>(rt: &R) -> Result<(), Fault> {
    let alloc = rt.alloc();
    let mut given = Vec::new(alloc);
    for word in env::args(rt)? {
        given.push(word)?;
    }
    let words: Vec<&str> = given.iter().map(|word| word.as_str()).collect(alloc)?;
    match words.as_slice() {
        [_, "hash", low, high, runs @ ..] => hash(rt, (number(low)?, number(high)?), runs),
        [_, "entries", file] => tell_entries(rt, file),
        [_, "recover", hive, out, logs @ ..] => {
            recover(rt, RecoveryLimits::NONE, hive, out, logs)
        }
        [_, "recover-within", from, to, hive, out, logs @ ..] => {
            let limits = RecoveryLimits {
                from: limit(from)?,
                to: limit(to)?,
            };
            recover(rt, limits, hive, out, logs)
        }
        _ => Err(Fault::NotUnderstood),
    }
}

fn number(word: &str) -> Result<u32, Fault> {
    match word.parse::<u32>() {
        Ok(value) => Ok(value),
        Err(_) => Err(Fault::NotUnderstood),
    }
}

// the number of an entry, or none
fn limit(word: &str) -> Result<Option<SequenceNumber>, Fault> {
    if word == "-" {
        return Ok(None);
    }
    Ok(Some(SequenceNumber(number(word)?)))
}

// prints the hash of each run of bytes, low half first
fn hash<R: Print + AllocGlobal>(rt: &R, seed: (u32, u32), runs: &[&str]) -> Result<(), Fault> {
    for run in runs {
        let digits = if *run == "-" { "" } else { *run };
        let Ok(bytes) = hex::decode(rt.alloc(), digits) else {
            return Err(Fault::NotUnderstood);
        };
        let (low, high) = marvin32(seed, &bytes);
        println!(rt; "{low} {high}")?;
    }
    Ok(())
}

// prints a line of each entry, and how they end
fn tell_entries<R: Print + Files + AllocGlobal>(rt: &R, file: &str) -> Result<(), Fault> {
    let bytes = fs::read(rt, file)?;
    let log = read_log(rt.alloc(), &bytes)?;
    for entry in &log.entries {
        let number = entry.number().0;
        let size = entry.size();
        let bins_size = entry.bins_size();
        let pages = entry.page_count();
        println!(rt; "{number} {size} {bins_size} {pages}")?;
    }
    println!(rt; "{}", log.ending())?;
    Ok(())
}

// recovers a hive by logs, within limits, and tells how each ended
fn recover<R: Print + Files + AllocGlobal>(
    rt: &R,
    limits: RecoveryLimits,
    hive: &str,
    out: &str,
    paths: &[&str],
) -> Result<(), Fault> {
    let alloc = rt.alloc();
    let file = fs::read(rt, hive)?;
    let mut contents = Vec::new(alloc);
    for path in paths {
        contents.push(fs::read(rt, *path)?)?;
    }
    let mut logs = Vec::new(alloc);
    for bytes in &contents {
        logs.push(read_log(alloc, bytes)?)?;
    }
    let planned = plan(alloc, &file, &logs, limits);
    let own = match BaseBlock::read_first(&file) {
        Some(block) => block.secondary,
        None => SequenceNumber(0),
    };
    let reach = limits.reach(own);
    let next = match &planned {
        Ok(chosen) => match chosen.entries.last() {
            Some(last) => last.number().next(),
            None => reach.from,
        },
        Err(_) => reach.from,
    };
    for (index, log) in logs.iter().enumerate() {
        tell_log(rt, index + 1, log, missing_number(log, reach, next))?;
    }
    let chosen = planned?;
    let bytes = carry_out(alloc, &file, &chosen)?;
    fs::write(rt, out, &bytes)?;
    match chosen.entries.last() {
        None => println!(rt; "clean {}", own.0)?,
        Some(last) => println!(rt; "recovered {}", last.number().0)?,
    }
    Ok(())
}

// prints a log's line
fn tell_log<R: Print>(
    rt: &R,
    number: usize,
    log: &Log<'_>,
    missing: Option<SequenceNumber>,
) -> Result<(), Fault> {
    print!(rt; "log {number}: ")?;
    if let (Some(first), Some(last)) = (log.entries.first(), log.entries.last()) {
        print!(rt;
            "entries {} to {}, then ",
            first.number().0,
            last.number().0
        )?;
    }
    print!(rt; "{}", log.ending())?;
    match missing {
        Some(lacking) => println!(rt; ", {} is missing", lacking.0)?,
        None => println!(rt; "")?,
    }
    Ok(())
}

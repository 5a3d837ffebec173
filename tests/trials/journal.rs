//! Plays lines about the disk in memory and a journal on it, and sees that what comes is what each line says.
//!
//! Lines come on standard input. A line that is empty or begins with `#` says nothing. BYTES are words, each
//! hexadecimal digits or a name, and after either there may be `*` and how many times. WANTED is what has to come.
//!
//! | line | |
//! |---|---|
//! | `let NAME BYTES` | gives the bytes a name |
//! | `disk BYTES` | a new disk; its journal's file has these bytes, and they are synced |
//! | `create HIVES > WANTED` | creates the journal of the store 0102..10: `Done`, or a refusal's name |
//! | `create-with-outcomes HIVES > WANTED` | the same in the layout with one hive more |
//! | `open > WANTED` | opens it: the number of hives, the number before the first element and the used room, or a refusal's name |
//! | `opened > BYTES` | the elements that the last opening answered, by their encodings |
//! | `hand BYTES` | the elements that are handed in at each step from here on, by their encodings |
//! | `step > WANTED..` | a step for each answer: what each answers |
//! | `trim > WANTED..` | a step of a trim for each answer |
//! | `numbers > USED LAST` | the used room and the last number |
//! | `layout > LAYOUT HIVES ALL` | the layout, how many hives calls name, and how many there are |
//! | `file > BYTES` | the bytes of the journal's file, as a read gives them |
//! | `stop K`, `fail K` | the K-th changing call and all after it fail; the K-th call fails alone |
//! | `crash old`, `crash new`, `crash torn` | what a crash leaves is the disk, and no journal is there |
//! | `write FILE AT BYTES > WANTED`, `cut FILE LENGTH > WANTED`, `sync FILE > WANTED` | a call of the disk: `Done`, or `DiskFault` |
//! | `length FILE > LENGTH`, `get FILE AT > BYTES` | a file's length; what a read of at most four bytes gives |
//! | `left old FILE > BYTES`, and so `new` and `torn` | what a crash now would leave of a file |
//! | `read > LENGTH` | reads the journal's file to its end, chunk by chunk |
//! | `watch ROOM` | from here on a call that is refused memory has to leave file and journal as they were, and is made again; the disk's own calls take no memory within that room |
//! | `timed LINE` | plays the line and prints the processor time that it took, in microseconds |
//!
//! The status is 0 if each line came as it says, 1 if memory was refused, and 2 if something else came.
mod calls;
mod driver;
mod files;
mod looks;
mod names;
mod steps;

use crate::fault::Fault;
use crate::journal::driver::JournalDriver;
use std::alloc::Global;
use std::io::{BufRead, BufReader};
use std::time::CpuClock;

/// Plays all lines: the status.
pub(crate) fn run<R: Input + Print + AllocGlobal + CpuClock>(rt: &R) -> Result<u8, Fault> {
    let alloc = rt.alloc();
    let mut driver = JournalDriver::new(alloc)?;
    let mut number = 0u64;
    let mut is_right = true;
    for line in BufReader::new(alloc, rt.reader())?.lines(alloc) {
        number = number.saturating_add(1);
        let line = line?;
        match play(rt, alloc, &mut driver, line.as_str()) {
            Ok(()) => {}
            Err(Fault::NoMemory) => return Err(Fault::NoMemory),
            Err(fault) => {
                let came = fault.text();
                println!(rt; "line {number}: {came}")?;
                is_right = false;
            }
        }
    }
    Ok(status(is_right, driver.was_refused()))
}

fn status(is_right: bool, was_refused: bool) -> u8 {
    match (is_right, was_refused) {
        (false, _) => 2,
        (true, true) => 1,
        (true, false) => 0,
    }
}

/// Plays a line: what follows a `>` says what has to come.
fn play<R: Print + CpuClock>(
    rt: &R,
    alloc: Global,
    driver: &mut JournalDriver,
    line: &str,
) -> Result<(), Fault> {
    let (asked, wanted) = line.split_once(">").unwrap_or((line, ""));
    let asked: Vec<&str> = asked.split_whitespace().collect(alloc)?;
    let wanted: Vec<&str> = wanted.split_whitespace().collect(alloc)?;
    match asked.as_slice() {
        [] => Ok(()),
        [first, ..] if first.starts_with("#") => Ok(()),
        ["timed", rest @ ..] => timed(rt, driver, rest, &wanted),
        asked => driver.play(asked, &wanted),
    }
}

/// Plays a line and prints the processor time that it took, in microseconds.
fn timed<R: Print + CpuClock>(
    rt: &R,
    driver: &mut JournalDriver,
    asked: &[&str],
    wanted: &[&str],
) -> Result<(), Fault> {
    let start = rt.process_cpu_time()?;
    driver.play(asked, wanted)?;
    let end = rt.process_cpu_time()?;
    let took = end.saturating_sub(start).as_micros();
    println!(rt; "{took}")?;
    Ok(())
}

//! What the threads committed, as the store that is opened has it.
use crate::calls::Calls;
use crate::rounds::{LETTERS, TURNS, round_at, thread_key, value_name};
use crate::store::HIVES;
use crate::trouble::Trouble;
use crate::words::MOST_THREADS;
use histories::Start;
use ktm_calls::Session;
use std::sync::Wait;
use store_engine::StoreEngine;

// the values that a round sets
const PLACES: usize = 4;

/// Prints the rounds of each thread's values: a line `THREAD TURN ROUND ROUND ROUND ROUND` for each turn of which there
/// is a value, with `-` for one that is missing.
pub fn print_rounds<E: StoreEngine, O: Start, R: Print + Wait>(
    calls: &Calls<'_, E, O, R>,
) -> Result<(), Trouble> {
    let mut session = calls.start()?;
    for thread in 0..MOST_THREADS {
        for turn in 0..TURNS {
            let rounds = rounds_of(calls, &mut session, thread, turn)?;
            if rounds.iter().any(|round| round.is_some()) {
                print_line(calls.rt, thread, turn, &rounds)?;
            }
        }
    }
    calls.end(session)
}

// the rounds of the values that a round of a turn sets
fn rounds_of<E: StoreEngine, O: Start, R: Wait>(
    calls: &Calls<'_, E, O, R>,
    session: &mut Session<O>,
    thread: usize,
    turn: u8,
) -> Result<Vec<Option<u64>>, Trouble> {
    let mut rounds = Vec::new(calls.alloc);
    for hive in 0..HIVES {
        let key = thread_key(calls.alloc, hive, thread)?;
        for letter in LETTERS {
            rounds.push(round_at(calls, session, &key, &value_name(letter, turn))?)?;
        }
    }
    Ok(rounds)
}

fn print_line<R: Print>(
    rt: &R,
    thread: usize,
    turn: u8,
    rounds: &[Option<u64>],
) -> Result<(), Trouble> {
    print!(rt; "{thread} {turn}")?;
    for round in rounds {
        match round {
            Some(round) => print!(rt; " {round}")?,
            None => print!(rt; " -")?,
        }
    }
    println!(rt)?;
    Ok(())
}

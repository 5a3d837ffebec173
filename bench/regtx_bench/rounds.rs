//! The keys of the threads, and the values of their rounds.
//!
//! In each round a thread sets four values in one transaction, two in each hive, and all hold the round's number. The
//! values of a few rounds stand side by side: their names come by turns.
use crate::calls::{Calls, key};
use crate::store::HIVES;
use crate::trouble::Trouble;
use histories::Start;
use ktm_calls::{Key, Session};
use refusals::Refusal;
use reg_tree::Data;
use std::alloc::Global;
use std::sync::Wait;
use store_engine::StoreEngine;

/// How many rounds have values of their own names.
pub const TURNS: u8 = 4;

/// The first letters of the values that a round sets in each hive.
pub const LETTERS: [u8; 2] = [b'a', b'b'];

// the bytes of a value, the first of which are the round's number
const VALUE_BYTES: usize = 50;

const NUMBER_BYTES: usize = 8;

/// The key of a thread in a hive.
pub fn thread_key(alloc: Global, hive: u8, thread: usize) -> Result<Key, Refusal> {
    let tens = b'0'.saturating_add((thread / 10 % 10) as u8);
    let ones = b'0'.saturating_add((thread % 10) as u8);
    key(alloc, hive, &[b't', tens, ones])
}

/// The name of a value of a turn.
pub fn value_name(letter: u8, turn: u8) -> [u8; 2] {
    [letter, b'0'.saturating_add(turn)]
}

/// The data of a round: its number, and its lowest byte until the end.
pub fn data_of(alloc: Global, round: u64) -> Result<Data, Refusal> {
    let number = round.to_le_bytes();
    let mut bytes = [number[0]; VALUE_BYTES];
    for (at, byte) in number.iter().enumerate() {
        bytes[at] = *byte;
    }
    Ok(Data::new(alloc, &bytes)?)
}

/// The round of which a value's data are, if they are of one.
pub fn round_of(data: &Data) -> Option<u64> {
    let bytes = data.bytes();
    let (number, rest) = bytes.split_at_checked(NUMBER_BYTES)?;
    let number: [u8; NUMBER_BYTES] = number.try_into().ok()?;
    let is_whole = bytes.len() == VALUE_BYTES && rest.iter().all(|byte| *byte == number[0]);
    is_whole.then_some(u64::from_le_bytes(number))
}

/// Creates the keys of so many threads, and makes them durable.
pub fn create_keys<E: StoreEngine, O: Start, R: Wait>(
    calls: &Calls<'_, E, O, R>,
    threads: usize,
) -> Result<(), Trouble> {
    let mut session = calls.start()?;
    for thread in 0..threads {
        for hive in 0..HIVES {
            let key = thread_key(calls.alloc, hive, thread)?;
            calls.create(&mut session, &key, 0)?;
        }
    }
    let first = thread_key(calls.alloc, 0, 0)?;
    calls.flush(&mut session, &first)?;
    calls.end(session)
}

/// The round of which a value of a thread is; none if there is no such value.
///
/// `Torn` if its data are of no round.
pub fn round_at<E: StoreEngine, O: Start, R: Wait>(
    calls: &Calls<'_, E, O, R>,
    session: &mut Session<O>,
    key: &Key,
    name: &[u8],
) -> Result<Option<u64>, Trouble> {
    match calls.get(session, key, name) {
        Ok(value) => match round_of(&value.data) {
            Some(round) => Ok(Some(round)),
            None => Err(Trouble::Torn),
        },
        Err(Refusal::NotFound) => Ok(None),
        Err(why) => Err(Trouble::Refused(why)),
    }
}

//! How replies are read.

use crate::key::name_of_word;
use crate::{Error, KeyInfo, Kind, Refusal, ServerStats, Value};

/// The reply, or the refusal that it tells, yet without hints.
pub(crate) fn answered(reply: String) -> Result<String, Error> {
    match reply.as_str() {
        "cannot open store" => return Err(Error::CannotOpen(String::new())),
        "cannot make store" => return Err(Error::CannotMake(String::new())),
        "cannot read file" => return Err(Error::CannotRead(String::new())),
        _ => {}
    }
    match Refusal::parse(&reply) {
        Some(why) => Err(Error::Refused(why, String::new())),
        None => Ok(reply),
    }
}

/// What a reader of replies made of this one.
pub(crate) fn understood<T>(read: Option<T>, reply: String) -> Result<T, Error> {
    read.ok_or(Error::Reply(reply))
}

/// The number behind a word, such as that of `committed 7`.
pub(crate) fn number(reply: &str, word: &str) -> Option<u64> {
    reply.strip_prefix(word)?.strip_prefix(' ')?.parse().ok()
}

/// `stats number N durable D room R clients C waiting W`
pub(crate) fn stats(reply: &str) -> Option<ServerStats> {
    let mut words = reply.strip_prefix("stats ")?.split(' ');
    let mut after = |name: &str| -> Option<u64> {
        if words.next()? != name {
            return None;
        }
        words.next()?.parse().ok()
    };
    let stats = ServerStats {
        number: after("number")?,
        durable: after("durable")?,
        room: after("room")?,
        clients: after("clients")?,
        waiting: after("waiting")?,
    };
    words.next().is_none().then_some(stats)
}

/// `keys COUNT NAME..`, `values COUNT NAME..`
pub(crate) fn names(reply: &str, word: &str) -> Option<Vec<String>> {
    let mut words = reply.split(' ');
    if words.next()? != word {
        return None;
    }
    let count: usize = words.next()?.parse().ok()?;
    let names: Vec<String> = words.map(name_of_word).collect::<Option<_>>()?;
    (names.len() == count).then_some(names)
}

/// `info SUBKEYS VALUES TIME`
pub(crate) fn info(reply: &str) -> Option<KeyInfo> {
    let words: Vec<&str> = reply.split(' ').collect();
    let ["info", subkeys, values, written] = words[..] else {
        return None;
    };
    Some(KeyInfo {
        subkeys: subkeys.parse().ok()?,
        values: values.parse().ok()?,
        written: written.parse().ok()?,
    })
}

/// `value TYPE HEX`
pub(crate) fn value(reply: &str) -> Option<Value> {
    let words: Vec<&str> = reply.split(' ').collect();
    let ["value", kind, hex] = words[..] else {
        return None;
    };
    Some(Value::new(Kind(kind.parse().ok()?), bytes(hex)?))
}

fn bytes(hex: &str) -> Option<Vec<u8>> {
    if hex == "-" {
        return Some(Vec::new());
    }
    let digits = hex.as_bytes().chunks(2);
    digits
        .map(|pair| Some(digit(pair[0])? << 4 | digit(*pair.get(1)?)?))
        .collect()
}

fn digit(byte: u8) -> Option<u8> {
    char::from(byte).to_digit(16)?.try_into().ok()
}

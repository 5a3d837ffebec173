//! Bytes as lines write them.
use crate::fault::Fault;
use std::alloc::Global;
use std::collections::BTreeMap;

/// Bytes that have a name.
#[derive(Drop)]
pub(crate) struct NamedBytes {
    alloc: Global,
    named: BTreeMap<String, Vec<u8>>,
}

impl NamedBytes {
    /// None.
    pub fn new(alloc: Global) -> NamedBytes {
        NamedBytes {
            alloc,
            named: BTreeMap::new(alloc),
        }
    }

    /// Gives a name to the bytes of the words.
    pub fn name(&mut self, name: &str, words: &[&str]) -> Result<(), Fault> {
        let bytes = self.bytes(words)?;
        let name = String::from_str(self.alloc, name)?;
        self.named.insert(name, bytes)?;
        Ok(())
    }

    /// The bytes of the words, one after another.
    pub fn bytes(&self, words: &[&str]) -> Result<Vec<u8>, Fault> {
        let mut bytes = Vec::new(self.alloc);
        for word in words {
            self.append(word, &mut bytes)?;
        }
        Ok(bytes)
    }

    /// Appends the bytes of a word to others: those of a name, or of hexadecimal digits, as often as a number after a
    /// `*` says.
    fn append(&self, word: &str, bytes: &mut Vec<u8>) -> Result<(), Fault> {
        let (once, times) = match word.split_once("*") {
            Some((once, times)) => (once, number(times)?),
            None => (word, 1),
        };
        if let Some(named) = self.named.get(once) {
            return repeat(named, times, bytes);
        }
        match hex::decode(self.alloc, once) {
            Ok(digits) => repeat(&digits, times, bytes),
            Err(hex::FromHexError::OutOfMemory) => Err(Fault::NoMemory),
            Err(_) => Err(Fault::NotUnderstood),
        }
    }
}

/// Appends bytes to others, `times` times.
fn repeat(once: &[u8], times: u64, bytes: &mut Vec<u8>) -> Result<(), Fault> {
    for _ in 0..times {
        bytes.extend_from_slice(once)?;
    }
    Ok(())
}

/// The number that decimal digits write.
pub(crate) fn number(word: &str) -> Result<u64, Fault> {
    match word.parse::<u64>() {
        Ok(value) => Ok(value),
        Err(_) => Err(Fault::NotUnderstood),
    }
}

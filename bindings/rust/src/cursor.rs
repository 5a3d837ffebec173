//! Cursors, and walks by them.

use crate::ffi::{About, OpenCursor, Step};
use crate::{Error, Key, Kind, Name, Value};

/// The first room of a name, in units, and that of data, in bytes.
const NAME_ROOM: usize = 512;
const DATA_ROOM: usize = 4_096;

/// Stands at a key of a hive, and is stepped from key to key. It stays at the key where it was
/// opened, and below it.
///
/// It keeps the hive as it was then: an edit isn't seen by it, nor that the hive is dropped. Each
/// step and each question takes about the same time, however large the hive is.
#[derive(Debug)]
pub struct Cursor {
    open: OpenCursor,
    name: Vec<u16>,
    data: Vec<u8>,
}

impl Cursor {
    pub(crate) fn of(open: OpenCursor) -> Cursor {
        Cursor {
            open,
            name: vec![0; NAME_ROOM],
            data: vec![0; DATA_ROOM],
        }
    }

    /// Steps to the first subkey; false if there is none, and then it stays.
    pub fn down(&mut self) -> Result<bool, Error> {
        self.step(Step::Down)
    }

    /// Steps to the next subkey of the key above; false if this is the last one, or the key where the
    /// cursor was opened.
    pub fn next_sibling(&mut self) -> Result<bool, Error> {
        self.step(Step::Next)
    }

    /// Steps to the key above; false at the key where the cursor was opened.
    pub fn up(&mut self) -> Result<bool, Error> {
        self.step(Step::Up)
    }

    fn step(&mut self, step: Step) -> Result<bool, Error> {
        match self.open.step(step) {
            Ok(()) => Ok(true),
            Err(Error::NOT_FOUND) => Ok(false),
            Err(why) => Err(why),
        }
    }

    /// What its key has.
    pub fn key(&mut self) -> Result<Key, Error> {
        let mut len = 0;
        let info = loop {
            match self.open.key(&mut self.name, &mut len) {
                Err(Error::NO_ROOM) => self.name.resize(len, 0),
                told => break told?,
            }
        };
        Ok(Key {
            name: Name::from(&self.name[..len]),
            subkeys: info.subkeys,
            values: info.values,
            time: info.time,
        })
    }

    /// The value at an index of its key, in the order of names, with its name before it. Refused with
    /// `NOT_FOUND` past the last one.
    pub fn value(&mut self, index: usize) -> Result<(Name, Value), Error> {
        let mut about = About::default();
        loop {
            let (name, data) = (&mut self.name, &mut self.data);
            match self.open.value(index, &mut about, name, data) {
                Err(Error::NO_ROOM) => {
                    name.resize(name.len().max(about.name_len), 0);
                    data.resize(data.len().max(about.len), 0);
                }
                told => break told?,
            }
        }
        let name = Name::from(&self.name[..about.name_len]);
        let value = Value::new(Kind(about.kind), &self.data[..about.len]);
        Ok((name, value))
    }

    /// All values of its key, each with its name before it, in the order of names.
    pub fn values(&mut self) -> Result<Vec<(Name, Value)>, Error> {
        let count = self.key()?.values as usize;
        (0..count).map(|index| self.value(index)).collect()
    }
}

/// A key as a walk met it.
#[derive(Clone, Debug, PartialEq, Eq)]
pub struct Entry {
    /// Its path, as the hive spells it.
    pub path: Name,
    /// Its name. That of the root is no part of a path.
    pub name: Name,
    /// How many keys the walk went down to it: 0 for the key where it began.
    pub depth: usize,
    /// When it was last written, in units of 100 nanoseconds since the year 1601.
    pub time: u64,
    /// How many subkeys it has.
    pub subkeys: u64,
    /// Its values, each with its name before it, in the order of names.
    pub values: Vec<(Name, Value)>,
}

impl Entry {
    /// The value of a name, as a hive finds it.
    pub fn value(&self, name: &str) -> Option<&Value> {
        let found = self.values.iter().find(|(each, _)| each.is_same(name));
        found.map(|(_, value)| value)
    }
}

/// The keys of a walk; it ends after an error.
#[derive(Debug)]
pub struct Walk {
    cursor: Cursor,
    // the paths of the cursor's key and of those above it; none after the end
    paths: Vec<Name>,
    is_begun: bool,
}

impl Walk {
    pub(crate) fn of(cursor: Cursor, path: Name) -> Walk {
        Walk {
            cursor,
            paths: vec![path],
            is_begun: false,
        }
    }

    /// Steps to the next key; false at the end.
    fn advance(&mut self) -> Result<bool, Error> {
        if !self.is_begun {
            self.is_begun = true;
            return Ok(true);
        }
        if self.cursor.down()? {
            self.paths.push(Name::default());
            return Ok(true);
        }
        while !self.cursor.next_sibling()? {
            self.paths.pop();
            if !self.cursor.up()? {
                return Ok(false);
            }
        }
        Ok(true)
    }

    /// The cursor's key.
    fn entry(&mut self) -> Result<Entry, Error> {
        let key = self.cursor.key()?;
        let values = (0..key.values as usize)
            .map(|index| self.cursor.value(index))
            .collect::<Result<_, _>>()?;
        if let [.., above, path] = self.paths.as_mut_slice() {
            *path = key.name.below(above);
        }
        Ok(Entry {
            path: self.paths.last().cloned().unwrap_or_default(),
            name: key.name,
            depth: self.paths.len().saturating_sub(1),
            time: key.time,
            subkeys: key.subkeys,
            values,
        })
    }
}

impl Iterator for Walk {
    type Item = Result<Entry, Error>;

    fn next(&mut self) -> Option<Self::Item> {
        if self.paths.is_empty() {
            return None;
        }
        let told = match self.advance() {
            Ok(false) => return None,
            Ok(true) => self.entry(),
            Err(why) => Err(why),
        };
        if told.is_err() {
            self.paths.clear();
        }
        Some(told)
    }
}

impl std::iter::FusedIterator for Walk {}

//! Hives in memory.

use crate::ffi::OpenHive;
use crate::{moment_of, Cursor, Error, Kind, Name, Units, Value, Walk};
use std::cell::RefCell;
use std::time::SystemTime;

/// The first room for data, and what a hive's file may grow until it is written, in bytes.
const FIRST_ROOM: usize = 256;
const GROWTH: usize = 65_536;

/// What a key has.
#[derive(Clone, Debug, PartialEq, Eq)]
pub struct Key {
    /// Its name, as spelled.
    pub name: Name,
    /// How many subkeys it has.
    pub subkeys: u64,
    /// How many values it has.
    pub values: u64,
    /// When it was last written, in units of 100 nanoseconds since the year 1601.
    pub time: u64,
}

/// A hive in memory. It is closed at its drop.
///
/// Each call may be refused with `NO_MEMORY`; one with a path also with `BAD_NAME`, `TOO_DEEP` and
/// `NOT_FOUND`. A refused call changes nothing.
#[derive(Debug)]
pub struct Hive {
    // the library writes to a handle in each call; no call is made within another one
    open: RefCell<OpenHive>,
    moment: Option<u64>,
    // how many bytes the file had, as far as is known
    size: usize,
}

impl Hive {
    /// Opens the hive that the bytes of a file hold. It is read as it is, without a log.
    ///
    /// Refused with an error that [`is_damage`](Error::is_damage), `UNSUPPORTED` and `TOO_LARGE`.
    pub fn open(file: &[u8]) -> Result<Hive, Error> {
        Ok(Hive::of(OpenHive::open(file)?, file.len()))
    }

    /// Opens the hive that the bytes of a file and of its logs make together: what Windows finds at its
    /// next start. The logs are in any order. A hive that was closed cleanly is opened as it is.
    ///
    /// Refused as [`Hive::open`] is, and with the code 1510 if no log fits.
    pub fn recover(file: &[u8], logs: &[&[u8]]) -> Result<Hive, Error> {
        Ok(Hive::of(OpenHive::recover(file, logs)?, file.len()))
    }

    /// A new hive: a root with the name ROOT and nothing in it.
    pub fn new() -> Result<Hive, Error> {
        Ok(Hive::of(OpenHive::new()?, 0))
    }

    fn of(open: OpenHive, size: usize) -> Hive {
        Hive {
            open: RefCell::new(open),
            moment: None,
            size,
        }
    }

    /// What the key at a path has.
    pub fn key(&self, path: impl Units) -> Result<Key, Error> {
        self.cursor(path)?.key()
    }

    /// Whether there is a key at a path. What can't be a path is the path of none.
    pub fn has_key(&self, path: impl Units) -> Result<bool, Error> {
        match self.open.borrow_mut().info(&path.units()) {
            Ok(_) => Ok(true),
            Err(Error::NOT_FOUND | Error::BAD_NAME | Error::TOO_DEEP) => Ok(false),
            Err(why) => Err(why),
        }
    }

    /// The flags of a key as the hive's file has them, such as 8 of one that is not to be deleted; but
    /// for 0x20, which says how its name is stored.
    pub fn flags(&self, path: impl Units) -> Result<u16, Error> {
        self.open.borrow_mut().flags(&path.units())
    }

    /// The bytes of a key's class: as a rule UTF-16 units, the lower byte first. None if it has no class.
    pub fn class(&self, path: impl Units) -> Result<Vec<u8>, Error> {
        self.bytes(&path.units(), OpenHive::class)
    }

    /// The bytes of a key's security descriptor, which is self-relative. None if it has no descriptor.
    pub fn descriptor(&self, path: impl Units) -> Result<Vec<u8>, Error> {
        self.bytes(&path.units(), OpenHive::descriptor)
    }

    fn bytes(
        &self,
        path: &[u16],
        ask: impl Fn(&mut OpenHive, &[u16], &mut [u8], &mut usize) -> Result<(), Error>,
    ) -> Result<Vec<u8>, Error> {
        let (mut bytes, mut len) = (vec![0; FIRST_ROOM], 0);
        loop {
            match ask(&mut self.open.borrow_mut(), path, &mut bytes, &mut len) {
                Err(Error::NO_ROOM) => bytes.resize(len, 0),
                told => {
                    told?;
                    bytes.truncate(len);
                    return Ok(bytes);
                }
            }
        }
    }

    /// What the subkeys of a key have, in the order of names.
    pub fn subkeys(&self, path: impl Units) -> Result<Vec<Key>, Error> {
        let mut cursor = self.cursor(path)?;
        let (mut found, mut is_there) = (Vec::new(), cursor.down()?);
        while is_there {
            found.push(cursor.key()?);
            is_there = cursor.next_sibling()?;
        }
        Ok(found)
    }

    /// The values of a key, each with its name before it, in the order of names.
    pub fn values(&self, path: impl Units) -> Result<Vec<(Name, Value)>, Error> {
        self.cursor(path)?.values()
    }

    /// The value of a name. The empty name is the default value's.
    pub fn value(&self, path: impl Units, name: impl Units) -> Result<Value, Error> {
        let (path, name, mut data, mut len) = (path.units(), name.units(), vec![0; FIRST_ROOM], 0);
        loop {
            match (self.open.borrow_mut()).value(&path, &name, &mut data, &mut len) {
                Err(Error::NO_ROOM) => data.resize(len, 0),
                told => {
                    let kind = Kind(told?);
                    data.truncate(len);
                    return Ok(Value { kind, data });
                }
            }
        }
    }

    /// A cursor at the key of a path.
    pub fn cursor(&self, path: impl Units) -> Result<Cursor, Error> {
        Ok(Cursor::of(self.open.borrow_mut().cursor(&path.units())?))
    }

    /// The key at a path and all keys below it, each before those below it, siblings in the order of
    /// names. It tells the hive as it is now, whatever is edited later.
    pub fn walk(&self, path: impl Units) -> Result<Walk, Error> {
        Ok(Walk::of(self.cursor(&path)?, self.spelled(&path.units())?))
    }

    /// A path as the hive spells it.
    fn spelled(&self, path: &[u16]) -> Result<Name, Error> {
        let ends = (0..path.len()).filter(|&at| path[at] == u16::from(b'\\'));
        let all = (!path.is_empty()).then_some(path.len());
        ends.chain(all).try_fold(Name::default(), |above, end| {
            Ok(self.key(&path[..end])?.name.below(&above))
        })
    }

    /// Chooses the time that later edits give to keys, in units of 100 nanoseconds since 1601, such
    /// as [`moment_of`] answers. `None`, as at first, is that of now.
    pub fn at(&mut self, moment: Option<u64>) {
        self.moment = moment;
    }

    fn time(&self) -> u64 {
        self.moment.unwrap_or_else(|| moment_of(SystemTime::now()))
    }

    /// Creates the key at a path, and each key that is missing on the way to it. Answers how many were
    /// made: 0 if it was there.
    ///
    /// Refused with `BAD_NAME` of a name that is not printable ASCII or too long, `TOO_DEEP` and
    /// `TOO_LARGE`.
    pub fn create_key(&mut self, path: impl Units) -> Result<usize, Error> {
        let time = self.time();
        self.open.get_mut().create_key(&path.units(), time)
    }

    /// Deletes the key at a path with its values. Refused with `FIXED` and `HAS_SUBKEYS`, too.
    pub fn delete_key(&mut self, path: impl Units) -> Result<(), Error> {
        let time = self.time();
        self.open.get_mut().delete_key(&path.units(), time)
    }

    /// Deletes the key at a path with all keys below it, whatever their names are. Refused with
    /// `FIXED`, too.
    pub fn delete_tree(&mut self, path: impl Units) -> Result<(), Error> {
        let time = self.time();
        self.open.get_mut().delete_tree(&path.units(), time)
    }

    /// Writes a value of a key that is there. Refused with `BAD_NAME` and `TOO_LARGE`, too.
    pub fn set_value(
        &mut self,
        path: impl Units,
        name: impl Units,
        value: &Value,
    ) -> Result<(), Error> {
        let (path, name, time) = (path.units(), name.units(), self.time());
        let (kind, data) = (value.kind.0, &value.data);
        (self.open.get_mut()).set_value(&path, &name, kind, data, time)
    }

    /// Deletes the value of a name.
    pub fn delete_value(&mut self, path: impl Units, name: impl Units) -> Result<(), Error> {
        let (path, name, time) = (path.units(), name.units(), self.time());
        self.open.get_mut().delete_value(&path, &name, time)
    }

    /// The bytes of a whole hive file. Refused with `TOO_LARGE` if it weighs too much.
    pub fn to_bytes(&self) -> Result<Vec<u8>, Error> {
        let (mut file, mut len) = (vec![0; self.size + GROWTH], 0);
        loop {
            match self.open.borrow_mut().write(&mut file, &mut len) {
                Err(Error::NO_ROOM) => file.resize(len, 0),
                told => {
                    told?;
                    file.truncate(len);
                    return Ok(file);
                }
            }
        }
    }
}

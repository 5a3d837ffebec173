//! What may be asked alone and in a transaction.

use crate::key::value_name_word;
use crate::reply::{self, understood};
use crate::{Error, Key, Value};
use scope::Scope;

pub(crate) mod scope {
    use crate::shared::SharedRun;
    use crate::{Error, Transaction};

    /// In what a request is asked: a session, or a transaction.
    pub trait Scope {
        /// What an accepted write is told by.
        type Accepted;

        /// The run, and the session of it.
        fn place(&self) -> (&SharedRun, u32);

        /// Begins a transaction for what takes several writes; none in a transaction.
        fn begin(&self) -> Result<Option<Transaction<'_>>, Error>;

        /// The line of a request.
        fn line(&self, request: &str) -> String;

        /// The reply to a request, which isn't a refusal.
        fn ask(&self, request: &str) -> Result<String, Error> {
            let (run, session) = self.place();
            run.lock().ask(session, &self.line(request))
        }

        /// The same of a request that writes, at the moment of now or the one that was chosen.
        fn write(&self, request: &str) -> Result<String, Error> {
            let (run, session) = self.place();
            run.lock().write(session, self.line(request))
        }

        /// What the reply to a write says, or what stands behind the levels that were created.
        fn accepted(reply: &str) -> Option<Self::Accepted>;
    }
}

/// What [`Requests::create_key`] did.
#[derive(Clone, Copy, Debug, PartialEq, Eq)]
pub enum Creation<A> {
    /// The key was made, and those above it that were missing.
    Created {
        /// How many keys were made.
        levels: u32,
        /// The number of the change, of a write alone.
        accepted: A,
    },
    /// The key was there.
    Opened,
}

/// How full a server's store is, and who waits.
#[derive(Clone, Copy, Debug, PartialEq, Eq)]
pub struct ServerStats {
    /// The number of the last change.
    pub number: u64,
    /// The number of the last durable change.
    pub durable: u64,
    /// How many bytes of the journal's 67,108,864 are used.
    pub room: u64,
    /// How many clients have a place.
    pub clients: u64,
    /// How many of them wait until a change is durable.
    pub waiting: u64,
}

/// What a key has.
#[derive(Clone, Copy, Debug, PartialEq, Eq)]
pub struct KeyInfo {
    /// How many subkeys.
    pub subkeys: u32,
    /// How many values.
    pub values: u32,
    /// When it was written last: units of 100 ns since 1601, UTC.
    pub written: u64,
}

/// What a [`Store`](crate::Store) and a [`Session`](crate::Session) are asked alone, and a
/// [`Transaction`](crate::Transaction) within it.
///
/// A write alone is a change by itself. It answers the change's number, and is durable once a later
/// commit or flush has returned. A write in a transaction answers `()`.
///
/// ```no_run
/// use regtx_client::{Error, Key, Options, Refusal, Requests, Store};
///
/// let store = Store::open("store", &Options::new())?;
/// for path in store.walk(Key::new(0, "Software"))? {
///     for (name, value) in store.items(Key::new(0, &path))? {
///         println!("{path} {name} {:?}", value.kind.name());
///     }
/// }
/// match store.get_value(Key::new(0, "Software"), "none") {
///     Err(Error::Refused(Refusal::NotFound, _)) => println!("there is none"),
///     other => println!("{:?}", other?.to_text()),
/// }
/// # Ok::<(), regtx_client::Error>(())
/// ```
pub trait Requests: Scope {
    /// Creates a key, and the keys above it that are missing, 32 at most. Refused: TooDeep,
    /// TooLarge, Conflict, NotActive, NotFound (no such hive).
    fn create_key(&self, key: Key<'_>) -> Result<Creation<Self::Accepted>, Error> {
        let reply = self.write(&lines::create(key)?)?;
        if reply == "opened" {
            return Ok(Creation::Opened);
        }
        let created = reply.strip_prefix("created ").and_then(|rest| {
            let (levels, rest) = rest.split_once(' ').unwrap_or((rest, ""));
            let levels = levels.parse().ok()?;
            Some(Creation::Created {
                levels,
                accepted: Self::accepted(rest)?,
            })
        });
        understood(created, reply)
    }

    /// Deletes a key without subkeys. Refused: NotFound, HasSubkeys, Fixed, Conflict, NotActive.
    fn delete_key(&self, key: Key<'_>) -> Result<Self::Accepted, Error> {
        let reply = self.write(&lines::delete(key)?)?;
        understood(Self::accepted(&reply), reply)
    }

    /// Writes a value of a key. The empty name is the default value's. Refused: NotFound (no such
    /// key), TooLarge (over 1,048,576 bytes, for one), Conflict, NotActive.
    fn set_value(&self, key: Key<'_>, name: &str, value: &Value) -> Result<Self::Accepted, Error> {
        let reply = self.write(&lines::set(key, name, value)?)?;
        understood(Self::accepted(&reply), reply)
    }

    /// Deletes a value. Refused: NotFound, Conflict, NotActive.
    fn delete_value(&self, key: Key<'_>, name: &str) -> Result<Self::Accepted, Error> {
        let reply = self.write(&lines::unset(key, name)?)?;
        understood(Self::accepted(&reply), reply)
    }

    /// A value. Refused: NotFound, NotActive.
    fn get_value(&self, key: Key<'_>, name: &str) -> Result<Value, Error> {
        let reply = self.ask(&format!("get {} {}", key.word()?, value_name_word(name)?))?;
        understood(reply::value(&reply), reply)
    }

    /// The names of a key's subkeys, in the order of their folded units. A unit that is no UTF-16
    /// is U+FFFD. Refused: NotFound, NotActive.
    fn subkeys(&self, key: Key<'_>) -> Result<Vec<String>, Error> {
        let reply = self.ask(&format!("keys {}", key.word()?))?;
        understood(reply::names(&reply, "keys"), reply)
    }

    /// The names of a key's values, as those of subkeys.
    fn value_names(&self, key: Key<'_>) -> Result<Vec<String>, Error> {
        let reply = self.ask(&format!("values {}", key.word()?))?;
        understood(reply::names(&reply, "values"), reply)
    }

    /// A key's values, each with its name before it, in the order of their names. A name past
    /// ASCII can't be asked for: [`Error::WrongName`]. Refused: NotFound, NotActive.
    fn items(&self, key: Key<'_>) -> Result<Vec<(String, Value)>, Error> {
        let names = self.value_names(key)?.into_iter();
        names
            .map(|name| Ok((name.clone(), self.get_value(key, &name)?)))
            .collect()
    }

    /// The paths of a key and of all keys below it: each before those below it, siblings in the
    /// order of their names. Errors are those of `items`.
    fn walk(&self, key: Key<'_>) -> Result<Vec<String>, Error> {
        let mut found = Vec::new();
        let mut left = vec![key.path.to_owned()];
        while let Some(path) = left.pop() {
            let names = self.subkeys(Key::new(key.hive, &path))?;
            let above = if path.is_empty() { "" } else { "\\" };
            left.extend(
                names
                    .iter()
                    .rev()
                    .map(|name| format!("{path}{above}{name}")),
            );
            found.push(path);
        }
        Ok(found)
    }

    /// Deletes a key with all below it, in one transaction; answers how many keys. In a transaction
    /// that is begun already, a refusal may come after some of them: roll it back then. Refused:
    /// NotFound, Fixed, Conflict, NotActive.
    fn delete_tree(&self, key: Key<'_>) -> Result<u32, Error>
    where
        Self: Sized,
    {
        match self.begin()? {
            Some(tx) => {
                let keys = delete_all(&tx, key)?;
                tx.commit()?;
                Ok(keys)
            }
            None => delete_all(self, key),
        }
    }

    /// What a key has. Refused: NotFound, NotActive.
    fn key_info(&self, key: Key<'_>) -> Result<KeyInfo, Error> {
        let reply = self.ask(&format!("info {}", key.word()?))?;
        understood(reply::info(&reply), reply)
    }
}

impl<S: Scope> Requests for S {}

fn delete_all(place: &impl Requests, key: Key<'_>) -> Result<u32, Error> {
    let paths = place.walk(key)?;
    for path in paths.iter().rev() {
        place.delete_key(Key::new(key.hive, path))?;
    }
    Ok(u32::try_from(paths.len()).expect("a store has fewer than 2^32 keys"))
}

/// The lines of writes.
pub(crate) mod lines {
    use crate::key::value_name_word;
    use crate::{Error, Key, Value};
    use std::fmt::Write;

    pub(crate) fn create(key: Key<'_>) -> Result<String, Error> {
        Ok(format!("create {}", key.word()?))
    }

    pub(crate) fn delete(key: Key<'_>) -> Result<String, Error> {
        Ok(format!("delete {}", key.word()?))
    }

    pub(crate) fn set(key: Key<'_>, name: &str, value: &Value) -> Result<String, Error> {
        let (key, name, kind) = (key.word()?, value_name_word(name)?, value.kind.0);
        Ok(format!("set {key} {name} {kind} {}", hex(&value.data)))
    }

    pub(crate) fn unset(key: Key<'_>, name: &str) -> Result<String, Error> {
        Ok(format!("unset {} {}", key.word()?, value_name_word(name)?))
    }

    fn hex(data: &[u8]) -> String {
        if data.is_empty() {
            return "-".to_owned();
        }
        let mut digits = String::with_capacity(2 * data.len());
        for byte in data {
            write!(digits, "{byte:02x}").expect("a String takes all that is written");
        }
        digits
    }
}

//! Writes that are sent together.

use crate::requests::lines;
use crate::{Error, Key, Value};

/// So many lines are sent together at most: their replies fit into the system's buffers, so that
/// nobody waits to write them. And so many bytes.
const MOST_LINES: usize = 256;
const MOST_BYTES: usize = 65_536;

/// Writes that are gathered, to be sent together by
/// [`transact_writes`](crate::Store::transact_writes), by
/// [`once_writes`](crate::Store::once_writes) or by a transaction's
/// [`write_all`](crate::Transaction::write_all). A key or name that no call carries is
/// [`Error::WrongName`] at once; what else is refused comes once they are sent.
///
/// ```no_run
/// use regtx_client::{Key, Options, Store, Uuid, Value, Writes};
///
/// let vendor = Key::new(0, r"Software\Vendor");
/// let mut writes = Writes::new();
/// writes
///     .create_key(vendor)?
///     .set_value(vendor, "Version", &Value::sz("1.0"))?;
/// let store = Store::connect("/run/regtx/app.sock", &Options::new())?;
/// let unit = Uuid::random().map_err(regtx_client::Error::Io)?;
/// store.transact_writes(&unit, 10, &writes)?;
/// # Ok::<(), regtx_client::Error>(())
/// ```
#[derive(Clone, Debug, Default)]
pub struct Writes {
    requests: Vec<String>,
}

impl Writes {
    /// None yet.
    pub fn new() -> Self {
        Writes::default()
    }

    /// Creates a key, and the keys above it that are missing.
    pub fn create_key(&mut self, key: Key<'_>) -> Result<&mut Self, Error> {
        self.add(lines::create(key))
    }

    /// Deletes a key without subkeys.
    pub fn delete_key(&mut self, key: Key<'_>) -> Result<&mut Self, Error> {
        self.add(lines::delete(key))
    }

    /// Writes a value of a key. The empty name is the default value's.
    pub fn set_value(
        &mut self,
        key: Key<'_>,
        name: &str,
        value: &Value,
    ) -> Result<&mut Self, Error> {
        self.add(lines::set(key, name, value))
    }

    /// Deletes a value.
    pub fn delete_value(&mut self, key: Key<'_>, name: &str) -> Result<&mut Self, Error> {
        self.add(lines::unset(key, name))
    }

    fn add(&mut self, request: Result<String, Error>) -> Result<&mut Self, Error> {
        self.requests.push(request?);
        Ok(self)
    }

    pub(crate) fn requests(&self) -> &[String] {
        &self.requests
    }
}

/// Lines in parts, each of which is sent at once.
pub(crate) fn together(lines: Vec<String>) -> Vec<Vec<String>> {
    let mut parts: Vec<Vec<String>> = Vec::new();
    let mut size = 0;
    for line in lines {
        size += line.len();
        match parts.last_mut() {
            Some(part) if size <= MOST_BYTES && part.len() < MOST_LINES => part.push(line),
            _ => {
                size = line.len();
                parts.push(vec![line]);
            }
        }
    }
    parts
}

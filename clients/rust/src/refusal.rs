//! The refusals of a store.

use std::{error, fmt};

/// Why a store refused a call. `docs/SCRIPTS.md` and `docs/USING.md` say when each comes.
#[derive(Clone, Debug, PartialEq, Eq)]
#[non_exhaustive]
pub enum Refusal {
    /// Memory was refused.
    NoMemory,
    /// There is no such hive, key or value.
    NotFound,
    /// A key with subkeys is to be deleted.
    HasSubkeys,
    /// A name that the store doesn't take.
    BadName,
    /// Over 512 names, or over 32 missing levels in one creation.
    TooDeep,
    /// Over a limit on a value (1 MiB), a hive's weight (16 MiB) or a transaction (4 MiB).
    TooLarge,
    /// The write conflicts with another active transaction.
    Conflict,
    /// The transaction has ended: a write alone, which conflicts with it, rolled it back.
    NotActive,
    /// There is no such transaction or session.
    NoSuchHandle,
    /// 32 sessions are open, or 1,024 transactions are held.
    NoSeat,
    /// The journal has no room for the change.
    JournalFull,
    /// The history has as many changes as it may have: fold it.
    HistoryFull,
    /// The system refused to read, write or sync a file.
    DiskFault,
    /// The same, earlier in this run.
    Faulted,
    /// A hive's file isn't one of this store, or is damaged.
    HiveDamaged {
        /// The hive's number.
        hive: u8,
        /// The cause, by its name in `docs/USING.md`.
        cause: String,
    },
    /// The folder has no store, or its journal is damaged.
    JournalDamaged,
    /// The store keeps no outcomes of commits, or a hive's version isn't read.
    Unsupported,
    /// The root of a hive is to be deleted.
    Fixed,
}

/// The refusals without fields: the first is E1, and so on; E15 has fields.
const PLAIN: [(u8, &str, Refusal); 17] = [
    (1, "NoMemory", Refusal::NoMemory),
    (2, "NotFound", Refusal::NotFound),
    (3, "HasSubkeys", Refusal::HasSubkeys),
    (4, "BadName", Refusal::BadName),
    (5, "TooDeep", Refusal::TooDeep),
    (6, "TooLarge", Refusal::TooLarge),
    (7, "Conflict", Refusal::Conflict),
    (8, "NotActive", Refusal::NotActive),
    (9, "NoSuchHandle", Refusal::NoSuchHandle),
    (10, "NoSeat", Refusal::NoSeat),
    (11, "JournalFull", Refusal::JournalFull),
    (12, "HistoryFull", Refusal::HistoryFull),
    (13, "DiskFault", Refusal::DiskFault),
    (14, "Faulted", Refusal::Faulted),
    (16, "JournalDamaged", Refusal::JournalDamaged),
    (17, "Unsupported", Refusal::Unsupported),
    (18, "Fixed", Refusal::Fixed),
];

const HIVE_DAMAGED: (u8, &str) = (15, "HiveDamaged");

impl Refusal {
    /// The number, such as 2 of `E2 NotFound`.
    pub fn code(&self) -> u8 {
        self.listed().0
    }

    /// The name, such as `NotFound` of `E2 NotFound`.
    pub fn name(&self) -> &'static str {
        self.listed().1
    }

    fn listed(&self) -> (u8, &'static str) {
        let found = PLAIN.iter().find(|(_, _, refusal)| refusal == self);
        found.map_or(HIVE_DAMAGED, |&(code, name, _)| (code, name))
    }

    /// The refusal that a line of the program tells, if it tells one.
    pub(crate) fn parse(line: &str) -> Option<Refusal> {
        let words: Vec<&str> = line.split(' ').collect();
        let code = words[0].strip_prefix('E')?.parse().ok()?;
        match words[1..] {
            [name] => {
                let found = PLAIN
                    .iter()
                    .find(|listed| (listed.0, listed.1) == (code, name));
                found.map(|(_, _, refusal)| refusal.clone())
            }
            [name, hive, cause] if (code, name) == HIVE_DAMAGED => Some(Refusal::HiveDamaged {
                hive: hive.parse().ok()?,
                cause: cause.to_owned(),
            }),
            _ => None,
        }
    }
}

impl fmt::Display for Refusal {
    fn fmt(&self, f: &mut fmt::Formatter<'_>) -> fmt::Result {
        let (code, name) = self.listed();
        match self {
            Refusal::HiveDamaged { hive, cause } => write!(f, "E{code} {name} {hive} {cause}"),
            _ => write!(f, "E{code} {name}"),
        }
    }
}

impl error::Error for Refusal {}

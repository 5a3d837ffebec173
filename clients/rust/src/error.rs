//! Why a call failed.

use crate::{Refusal, Uuid};
use std::{error, fmt, io};

/// Why a call failed.
#[derive(Debug)]
#[non_exhaustive]
pub enum Error {
    /// The store refused the call, and changed nothing. Its text is [`Error::hints`].
    Refused(Refusal, String),
    /// The folder is in use by another run, isn't a folder, or can't be opened.
    /// Its text is [`Error::hints`].
    CannotOpen(String),
    /// The folder has a journal, is in use, or can't be made. Its text is [`Error::hints`].
    CannotMake(String),
    /// A hive's file can't be read. Its text is [`Error::hints`].
    CannotRead(String),
    /// The run ended before its time, or the connection was lost. What was durable is kept; open
    /// the store again. Its text is [`Error::hints`].
    Ended(String),
    /// The changes after a number can't be told: they aren't kept any more, or there is no such
    /// change yet. Those after this number can.
    CannotFollow(u64),
    /// It isn't known whether a commit was done: call [`Store::once`](crate::Store::once) for this
    /// unit in a new run. The cause says why no answer came.
    CommitUnknown(Uuid, Box<Error>),
    /// The server at the socket is one of this user, who isn't trusted. Nothing was sent.
    NotTrusted(u32),
    /// A name that no call can carry, and why. Nothing was sent.
    WrongName(String, &'static str),
    /// The system refused to start the program, or to pass lines to it.
    Io(io::Error),
    /// The program printed a line that isn't a reply to the call.
    Reply(String),
    /// Another process opened the store, such as the one that was forked. Nothing was sent.
    OtherProcess,
}

impl Error {
    /// What the program told on standard error, such as why the system refused a file; empty if it
    /// told nothing.
    pub fn hints(&self) -> &str {
        match self {
            Error::Refused(_, hints)
            | Error::CannotOpen(hints)
            | Error::CannotMake(hints)
            | Error::CannotRead(hints)
            | Error::Ended(hints) => hints,
            Error::CommitUnknown(_, cause) => cause.hints(),
            _ => "",
        }
    }

    /// The run ended, yet without hints.
    pub(crate) fn ended() -> Error {
        Error::Ended(String::new())
    }

    /// The same error with what was told.
    pub(crate) fn hinted(mut self, told: String) -> Error {
        if let Error::Refused(_, hints)
        | Error::CannotOpen(hints)
        | Error::CannotMake(hints)
        | Error::CannotRead(hints)
        | Error::Ended(hints) = &mut self
        {
            *hints = told;
        }
        self
    }

    /// Whether a commit that is answered so may be done all the same.
    pub(crate) fn leaves_commit_open(&self) -> bool {
        match self {
            Error::Refused(why, _) => {
                matches!(
                    why,
                    Refusal::NoMemory | Refusal::DiskFault | Refusal::Faulted
                )
            }
            Error::OtherProcess => false,
            _ => true,
        }
    }
}

impl fmt::Display for Error {
    fn fmt(&self, f: &mut fmt::Formatter<'_>) -> fmt::Result {
        match self {
            Error::Refused(why, _) => write!(f, "{why}"),
            Error::CannotOpen(_) => write!(f, "cannot open store"),
            Error::CannotMake(_) => write!(f, "cannot make store"),
            Error::CannotRead(_) => write!(f, "cannot read file"),
            Error::Ended(_) => write!(f, "the run ended early"),
            Error::CannotFollow(after) => write!(f, "changes can be followed after {after}"),
            Error::CommitUnknown(unit, cause) => {
                // the cause has the hints
                return write!(f, "it isn't known whether {unit} committed: {cause}");
            }
            Error::WrongName(name, why) => write!(f, "no call carries the name {name:?}: {why}"),
            Error::Io(why) => write!(f, "{why}"),
            Error::NotTrusted(user) => write!(f, "the server is one of user {user}"),
            Error::OtherProcess => write!(f, "another process opened the store"),
            Error::Reply(reply) => write!(f, "not a reply: {reply:?}"),
        }?;
        match self.hints() {
            "" => Ok(()),
            hints => write!(f, " ({hints})"),
        }
    }
}

impl error::Error for Error {
    fn source(&self) -> Option<&(dyn error::Error + 'static)> {
        match self {
            Error::Refused(why, _) => Some(why),
            Error::CommitUnknown(_, cause) => Some(&**cause),
            Error::Io(why) => Some(why),
            _ => None,
        }
    }
}

impl From<io::Error> for Error {
    fn from(why: io::Error) -> Self {
        Error::Io(why)
    }
}

//! What lines are sent to, and replies come from.

use crate::connection::Connection;
use crate::program::Program;
use crate::Error;
use std::io::{self, BufRead};

#[derive(Debug)]
pub(crate) enum Link {
    Program(Program),
    Server(Connection),
}

impl Link {
    /// Whether lines may be sent so.
    pub(crate) fn takes(&self, lines: &[u8]) -> bool {
        match self {
            Link::Program(_) => true,
            Link::Server(_) => Connection::takes(lines),
        }
    }

    /// Sends lines by one write. That nobody reads them is no failure yet, since replies may have
    /// come.
    pub(crate) fn send(&mut self, lines: &[u8]) -> io::Result<()> {
        match self {
            Link::Program(program) => program.send(lines),
            Link::Server(connection) => connection.send(lines),
        }
    }

    /// A line with its LF; what there is of it, if no more comes.
    pub(crate) fn read_line(&mut self) -> io::Result<Vec<u8>> {
        let mut line = Vec::new();
        match self {
            Link::Program(program) => {
                program.replies.read_until(b'\n', &mut line)?;
            }
            Link::Server(connection) if connection.is_open() => {
                let read = connection.stream.read_until(b'\n', &mut line);
                read.map(|_| ()).or_else(|why| connection.judge(why))?;
            }
            Link::Server(_) => {}
        }
        Ok(line)
    }

    /// The error with what else is known of it.
    pub(crate) fn hinted(&mut self, why: Error) -> Error {
        match (self, &why) {
            (Link::Program(program), _) => why.hinted(program.hint()),
            (Link::Server(connection), Error::Ended(_)) => why.hinted(connection.over().to_owned()),
            (Link::Server(_), _) => why,
        }
    }

    pub(crate) fn is_open(&self) -> bool {
        match self {
            Link::Program(program) => program.is_open(),
            Link::Server(connection) => connection.is_open(),
        }
    }

    /// Whether it waits for lines, as far as is known.
    pub(crate) fn is_quiet(&mut self) -> bool {
        match self {
            Link::Program(program) => program.is_open(),
            Link::Server(connection) => connection.is_quiet(),
        }
    }

    /// No more comes.
    pub(crate) fn lose(&mut self) {
        if let Link::Server(connection) = self {
            connection.lose();
        }
    }

    /// Ends it, and waits for the end.
    pub(crate) fn finish(&mut self, was_refused: bool) -> Result<(), Error> {
        match self {
            Link::Program(program) => program.finish(was_refused),
            Link::Server(connection) => connection.finish(),
        }
    }

    /// Lets go of what a process has that didn't make it.
    pub(crate) fn leave(&mut self) {
        if let Link::Program(program) = self {
            program.leave();
        }
    }
}

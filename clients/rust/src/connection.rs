//! A connection to the server of a store.

use crate::peer::{own_user, user_of};
use crate::{Error, Options};
use std::io::{self, BufRead, BufReader, ErrorKind, Write};
use std::net::Shutdown;
use std::os::unix::net::UnixStream;
use std::path::{Path, PathBuf};

/// How many bytes a line has at most, with its LF: at a longer one the server ends the connection.
const MOST_LINE: usize = 4_194_305;
const ROOT: u32 = 0;

#[derive(Debug)]
pub(crate) struct Connection {
    path: PathBuf,
    options: Options,
    pub(crate) stream: BufReader<UnixStream>,
    /// Why it can't be used any more.
    over: Option<&'static str>,
}

impl Connection {
    /// Connects, and sends nothing.
    pub(crate) fn begin(path: &Path, options: &Options) -> Result<Connection, Error> {
        let stream = UnixStream::connect(path)?;
        let user = user_of(&stream)?;
        if ![Some(ROOT), Some(own_user()), options.server_uid].contains(&Some(user)) {
            return Err(Error::NotTrusted(user));
        }
        stream.set_read_timeout(options.timeout)?;
        stream.set_write_timeout(options.timeout)?;
        Ok(Connection {
            path: path.to_owned(),
            options: options.clone(),
            stream: BufReader::new(stream),
            over: None,
        })
    }

    /// One more to the same server.
    pub(crate) fn again(&self) -> Result<Connection, Error> {
        Connection::begin(&self.path, &self.options)
    }

    /// Whether a server reads each of these lines.
    pub(crate) fn takes(lines: &[u8]) -> bool {
        let mut each = lines.split_inclusive(|&byte| byte == b'\n');
        each.all(|line| line.len() <= MOST_LINE)
    }

    pub(crate) fn send(&mut self, lines: &[u8]) -> io::Result<()> {
        let sent = self.stream.get_mut().write_all(lines);
        sent.or_else(|why| self.judge(why))
    }

    /// What an error of the socket says: that the server is gone, that it takes too long, or
    /// something that isn't foreseen.
    pub(crate) fn judge(&mut self, why: io::Error) -> io::Result<()> {
        match why.kind() {
            // what the server said before may be read yet
            ErrorKind::BrokenPipe | ErrorKind::ConnectionReset => Ok(()),
            ErrorKind::WouldBlock | ErrorKind::TimedOut => {
                self.over = Some("the server took too long");
                Ok(())
            }
            _ => Err(why),
        }
    }

    /// Whether anything may be read yet.
    pub(crate) fn is_open(&self) -> bool {
        self.over.is_none()
    }

    /// Whether the server has it yet, as far as is known without a line: nothing has come, no end
    /// either.
    pub(crate) fn is_quiet(&mut self) -> bool {
        if !self.is_open() || self.stream.get_ref().set_nonblocking(true).is_err() {
            return false;
        }
        let come = self.stream.fill_buf().map(|_| ());
        let is_quiet = matches!(come, Err(why) if why.kind() == ErrorKind::WouldBlock);
        self.stream.get_ref().set_nonblocking(false).is_ok() && is_quiet
    }

    /// Why it can't be used any more.
    pub(crate) fn over(&self) -> &'static str {
        self.over.unwrap_or("")
    }

    /// It is lost, and the server sees so as well.
    pub(crate) fn lose(&mut self) {
        self.over.get_or_insert("the server ended the connection");
        // it may have gone
        let _ = self.stream.get_ref().shutdown(Shutdown::Both);
    }

    /// Says that nothing follows, and waits until the session has ended. One that was lost has.
    pub(crate) fn finish(&mut self) -> Result<(), Error> {
        if !self.is_open() {
            return Err(Error::ended());
        }
        self.over = Some("the connection was closed");
        if self.stream.get_ref().shutdown(Shutdown::Write).is_ok() {
            // the session ends all the same if this fails, or takes too long
            let _ = io::copy(&mut self.stream, &mut io::sink());
        }
        Ok(())
    }
}

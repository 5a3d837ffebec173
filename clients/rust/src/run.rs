//! A run of the program on a store, or a connection to one that has it: lines are sent, and a
//! reply is read to each.

use crate::connection::Connection;
use crate::link::Link;
use crate::program::Program;
use crate::reply::{answered, number, understood};
use crate::{moment_of, Error, Options, Refusal};
use std::collections::BTreeSet;
use std::os::unix::net::UnixStream;
use std::path::Path;
use std::process;
use std::sync::{Arc, Mutex, PoisonError};
use std::time::SystemTime;

/// The session that is open from the beginning.
pub(crate) const FIRST_SESSION: u32 = 0;

/// A reply, or the refusal that it tells.
pub(crate) type Answer = Result<String, Error>;

#[derive(Debug)]
pub struct Run {
    link: Link,
    /// The process that opened the store.
    maker: u32,
    was_refused: bool,
    /// No line can be sent any more.
    is_lost: bool,
    /// None once the current session has ended.
    current_session: Option<u32>,
    sessions: BTreeSet<u32>,
    labels: BTreeSet<u32>,
    /// An error of a drop, which the next call tells.
    untold: Option<Error>,
    /// The moment of writes that was chosen, if one was; of all sessions of a store.
    chosen: Arc<Mutex<Option<u64>>>,
    /// The moment that the program has.
    moment: u64,
}

impl Run {
    /// Starts the program; answers the number of the store's last change too.
    pub(crate) fn start(folder: &Path, options: &Options) -> Result<(Run, u64), Error> {
        let program = Program::start(folder, options)?;
        Run::open(Link::Program(program), Arc::default())
    }

    /// Connects to a server; answers the number of the store's last change too.
    pub(crate) fn connect(path: &Path, options: &Options) -> Result<(Run, u64), Error> {
        let connection = Connection::begin(path, options)?;
        Run::open(Link::Server(connection), Arc::default())
    }

    /// A session of its own beside this one, if sessions are connections.
    pub(crate) fn beside(&mut self) -> Result<Option<Run>, Error> {
        match &self.link {
            Link::Program(_) => Ok(None),
            Link::Server(_) if self.is_lost => Err(self.lost()),
            Link::Server(connection) => {
                let link = Link::Server(connection.again()?);
                Ok(Some(Run::open(link, Arc::clone(&self.chosen))?.0))
            }
        }
    }

    /// A connection of its own beside this one, whose replies may take as long as they take. Of a
    /// run there is none.
    pub(crate) fn beside_to_follow(&mut self) -> Result<Run, Error> {
        self.tell()?;
        let Some(run) = self.beside()? else {
            return Err(Error::Refused(Refusal::Unsupported, String::new()));
        };
        run.stream()?.set_read_timeout(None)?;
        Ok(run)
    }

    /// The socket of a connection.
    pub(crate) fn stream(&self) -> Result<UnixStream, Error> {
        match &self.link {
            Link::Program(_) => Err(Error::Refused(Refusal::Unsupported, String::new())),
            Link::Server(connection) => Ok(connection.stream.get_ref().try_clone()?),
        }
    }

    /// Sends a line whose replies are read one by one.
    pub(crate) fn send_line(&mut self, line: &str) -> Result<(), Error> {
        self.check_process()?;
        self.link.send(format!("{line}\n").as_bytes())?;
        Ok(())
    }

    fn open(link: Link, chosen: Arc<Mutex<Option<u64>>>) -> Result<(Run, u64), Error> {
        let mut run = Run {
            link,
            maker: process::id(),
            was_refused: false,
            is_lost: false,
            current_session: Some(FIRST_SESSION),
            sessions: BTreeSet::from([FIRST_SESSION]),
            labels: BTreeSet::new(),
            untold: None,
            chosen,
            moment: 0,
        };
        match run.read_opened() {
            Ok(last) => Ok((run, last)),
            Err(why) => {
                run.link.lose();
                // its last words come with its end, which says no more than this error
                let _ = run.link.finish(false);
                Err(run.link.hinted(why))
            }
        }
    }

    /// The number of the store's last change, which is told first.
    fn read_opened(&mut self) -> Result<u64, Error> {
        let line = self.read_reply()?.ok_or(Error::ended())?;
        let opened = answered(line?)?;
        understood(number(&opened, "opened"), opened)
    }

    /// A line that came whole, without its LF; none if no more comes.
    pub(crate) fn read_reply(&mut self) -> Result<Option<Answer>, Error> {
        let mut line = self.link.read_line()?;
        // half a line is none: the run was killed while it wrote
        if line.pop() != Some(b'\n') {
            return Ok(None);
        }
        let text = String::from_utf8(line);
        Ok(Some(text.map_err(|wrong| {
            Error::Reply(String::from_utf8_lossy(wrong.as_bytes()).into_owned())
        })))
    }

    /// The reply to a line of a session. An error that wasn't told is told instead, and then
    /// nothing is sent.
    pub(crate) fn ask(&mut self, session: u32, line: &str) -> Answer {
        self.tell()?;
        self.enter(session)?;
        self.exchange(line)
    }

    /// The same of a line that writes.
    pub(crate) fn write(&mut self, session: u32, line: String) -> Answer {
        first(self.write_all(session, vec![line], 0)?)
    }

    /// The same of lines that are sent together, and of which the main one is answered at least.
    pub(crate) fn write_all(
        &mut self,
        session: u32,
        lines: Vec<String>,
        main: usize,
    ) -> Result<Vec<Answer>, Error> {
        self.tell()?;
        self.enter(session)?;
        let moment = self.moment_of_writes();
        if moment == self.moment {
            return self.exchange_all(&lines, main);
        }
        let mut all = vec![format!("at {moment}")];
        all.extend(lines);
        let mut answers = self.exchange_all(&all, main + 1)?;
        match answers.remove(0) {
            Ok(reply) if reply == "ok" => {
                self.moment = moment;
                Ok(answers)
            }
            // what was written has another moment, which no error tells
            _ => Err(self.lost()),
        }
    }

    /// Chooses the moment of later writes; none is that of now.
    pub(crate) fn choose(&mut self, moment: Option<u64>) -> Result<(), Error> {
        self.tell()?;
        *self.chosen.lock().unwrap_or_else(PoisonError::into_inner) = moment;
        match moment {
            Some(chosen) if chosen != self.moment => {
                self.exchange_ok(&format!("at {chosen}"))?;
                self.moment = chosen;
                Ok(())
            }
            _ => Ok(()),
        }
    }

    /// The moment that was chosen, or the millisecond of now.
    fn moment_of_writes(&self) -> u64 {
        let chosen = *self.chosen.lock().unwrap_or_else(PoisonError::into_inner);
        chosen.unwrap_or_else(|| moment_of(SystemTime::now()) / 10_000 * 10_000)
    }

    /// Makes a session the current one, and opens it if it isn't open.
    pub(crate) fn enter(&mut self, session: u32) -> Result<(), Error> {
        if self.current_session != Some(session) {
            self.exchange_ok(&format!("session {session}"))?;
            self.current_session = Some(session);
        }
        Ok(())
    }

    /// Sends a line as it is, to which the reply is `ok`.
    pub(crate) fn exchange_ok(&mut self, line: &str) -> Result<(), Error> {
        let reply = self.exchange(line)?;
        understood((reply == "ok").then_some(()), reply)
    }

    /// The reply to a line.
    pub(crate) fn exchange(&mut self, line: &str) -> Answer {
        first(self.exchange_all(&[line.to_owned()], 0)?)
    }

    /// The replies to lines that are sent together; those after the main one may be missing.
    pub(crate) fn exchange_all(
        &mut self,
        lines: &[String],
        main: usize,
    ) -> Result<Vec<Answer>, Error> {
        self.check_process()?;
        let text = lines.join("\n") + "\n";
        if self.is_lost {
            return Err(self.lost());
        }
        if !self.link.takes(text.as_bytes()) {
            return Err(Error::Refused(Refusal::TooLarge, String::new()));
        }
        let answers = self.send_and_read(text.as_bytes(), lines.len());
        // replies that weren't read would be taken for those to later lines
        self.is_lost |= answers.is_err();
        let answers = answers?;
        if answers.len() < lines.len() {
            let why = self.lost();
            if answers.len() <= main {
                return Err(why);
            }
        }
        Ok(answers)
    }

    /// The replies to so many lines; fewer if no more come.
    fn send_and_read(&mut self, text: &[u8], lines: usize) -> Result<Vec<Answer>, Error> {
        self.link.send(text)?;
        let mut answers = Vec::new();
        while answers.len() < lines {
            match self.read_reply()? {
                // whoever doesn't understand a line ends
                Some(Ok(reply)) if reply.starts_with("line ") => break,
                Some(reply) => answers.push(self.judge(reply)),
                None => break,
            }
        }
        Ok(answers)
    }

    fn judge(&mut self, reply: Answer) -> Answer {
        let answer = reply.and_then(answered);
        self.was_refused |= matches!(answer, Err(Error::Refused(..)));
        answer.map_err(|why| self.link.hinted(why))
    }

    /// No line is sent any more.
    pub(crate) fn lost(&mut self) -> Error {
        self.is_lost = true;
        self.link.lose();
        self.link.hinted(Error::ended())
    }

    /// Whether lines can be sent yet, so that a call that fails may have been carried out.
    pub(crate) fn may_send(&self) -> bool {
        !self.is_lost
    }

    /// Whether it can be used, and nothing is left of whoever used it: no transaction, no chosen
    /// moment, no error.
    pub(crate) fn is_as_new(&mut self) -> bool {
        let chosen = self.chosen.lock().unwrap_or_else(PoisonError::into_inner);
        let is_clear = self.labels.is_empty() && self.untold.is_none() && chosen.is_none();
        drop(chosen);
        is_clear && !self.is_lost && self.check_process().is_ok() && self.link.is_quiet()
    }

    /// Whether a server has the store.
    pub(crate) fn is_served(&self) -> bool {
        matches!(self.link, Link::Server(_))
    }

    /// A number for a new session: the lowest that is free.
    pub(crate) fn take_session(&mut self) -> u32 {
        take_lowest(&mut self.sessions)
    }

    pub(crate) fn free_session(&mut self, session: u32) {
        self.sessions.remove(&session);
        if self.current_session == Some(session) {
            self.current_session = None;
        }
    }

    /// A number for a new transaction, which is its label.
    pub(crate) fn take_label(&mut self) -> u32 {
        take_lowest(&mut self.labels)
    }

    pub(crate) fn free_label(&mut self, label: u32) {
        self.labels.remove(&label);
    }

    /// Keeps what a drop met, for the next call. The first such error is the cause of others.
    pub(crate) fn keep(&mut self, ended: Result<(), Error>) {
        if self.untold.is_none() {
            self.untold = ended.err();
        }
    }

    /// Two processes would read each other's replies.
    pub(crate) fn check_process(&self) -> Result<(), Error> {
        if self.maker == process::id() {
            Ok(())
        } else {
            Err(Error::OtherProcess)
        }
    }

    /// Tells an error that was kept.
    pub(crate) fn tell(&mut self) -> Result<(), Error> {
        self.check_process()?;
        self.untold.take().map_or(Ok(()), Err)
    }

    /// Ends the run, and waits until it has done its work at the end; or the connection. In another
    /// process than its maker's it goes on.
    pub(crate) fn end(&mut self) -> Result<(), Error> {
        if self.check_process().is_err() {
            self.link.leave();
            return Ok(());
        }
        let finished = self.link.finish(self.was_refused);
        self.tell()?;
        finished.map_err(|why| self.link.hinted(why))
    }
}

impl Drop for Run {
    fn drop(&mut self) {
        // nobody is left to be told: `Store::close` says so
        if self.link.is_open() {
            let _ = self.end();
        }
    }
}

/// The first of some answers, of which there is one.
fn first(answers: Vec<Answer>) -> Answer {
    answers
        .into_iter()
        .next()
        .unwrap_or_else(|| Err(Error::ended()))
}

fn take_lowest(taken: &mut BTreeSet<u32>) -> u32 {
    let free = (0..).find(|number| !taken.contains(number));
    let lowest = free.expect("fewer than 2^32 numbers are taken");
    taken.insert(lowest);
    lowest
}

//! Transactions.

use crate::reply::{number, understood};
use crate::requests::scope::Scope;
use crate::run::{Answer, Run};
use crate::shared::SharedRun;
use crate::writes::together;
use crate::{Error, Refusal, Uuid, Writes};
use std::cell::Cell;

/// A transaction: its writes become one change by [`commit`](Self::commit), over all hives.
///
/// ```no_run
/// use regtx_client::{Key, Options, Requests, Store, Uuid, Value};
///
/// let store = Store::open("store", &Options::new())?;
/// let tx = store.transaction(&Uuid::random().map_err(regtx_client::Error::Io)?)?;
/// tx.create_key(Key::new(0, "Users"))?;
/// tx.set_value(Key::new(1, "Services"), "Start", &Value::dword(2))?;
/// println!("change {:?}", tx.commit()?);
/// # Ok::<(), regtx_client::Error>(())
/// ```
///
/// If it is dropped without a commit, it is rolled back; an error of that is told by the store's
/// next call.
#[derive(Debug)]
#[must_use = "a transaction that is dropped is rolled back"]
pub struct Transaction<'a> {
    run: &'a SharedRun,
    session: u32,
    label: u32,
    unit: Uuid,
    /// Whether its place is to be freed at its end.
    is_held: Cell<bool>,
}

impl<'a> Transaction<'a> {
    /// One that isn't begun yet.
    pub(crate) fn of(run: &'a SharedRun, session: u32, unit: &Uuid) -> Result<Self, Error> {
        let mut opened = run.lock();
        opened.tell()?;
        Ok(Transaction {
            run,
            session,
            label: opened.take_label(),
            unit: *unit,
            is_held: Cell::new(false),
        })
    }

    pub(crate) fn begin(run: &'a SharedRun, session: u32, unit: &Uuid) -> Result<Self, Error> {
        let tx = Transaction::of(run, session, unit)?;
        tx.start()?;
        Ok(tx)
    }

    pub(crate) fn start(&self) -> Result<(), Error> {
        let mut run = self.run.lock();
        run.enter(self.session)?;
        run.exchange_ok(&self.line_of_begin())?;
        self.is_held.set(true);
        Ok(())
    }

    /// Begins it, and asks for the outcome of its unit by the same write.
    pub(crate) fn start_and_ask_kept(&self) -> Result<Answer, Error> {
        let mut run = self.run.lock();
        run.enter(self.session)?;
        let lines = [self.line_of_begin(), format!("kept {}", self.unit)];
        let mut answers = run.exchange_all(&lines, 1)?.into_iter();
        let mut next = || answers.next().unwrap_or_else(|| Err(Error::ended()));
        self.judge_begun(next())?;
        Ok(next())
    }

    fn line_of_begin(&self) -> String {
        format!("begin {} {}", self.label, self.unit)
    }

    fn judge_begun(&self, begun: Answer) -> Result<(), Error> {
        let reply = begun?;
        self.is_held.set(true);
        understood((reply == "ok").then_some(()), reply)
    }

    /// The unit of work whose outcome is kept.
    pub fn unit(&self) -> &Uuid {
        &self.unit
    }

    /// Whether it is active: a write alone that conflicts with it rolls it back.
    pub fn is_active(&self) -> Result<bool, Error> {
        let reply = self
            .run
            .lock()
            .ask(self.session, &format!("outcome {}", self.label))?;
        let active = match reply.as_str() {
            "active" => Some(true),
            "committed" | "rolledback" => Some(false),
            _ => None,
        };
        understood(active, reply)
    }

    /// Carries out writes, which are sent together. A refusal may come after some of them: roll it
    /// back then. Refused: as each of them.
    pub fn write_all(&self, writes: &Writes) -> Result<(), Error> {
        for part in together(self.lines_of(writes)) {
            let main = part.len() - 1;
            let answers = self.run.lock().write_all(self.session, part, main)?;
            answers.into_iter().try_for_each(judge_write)?;
        }
        Ok(())
    }

    fn lines_of(&self, writes: &Writes) -> Vec<String> {
        let requests = writes.requests().iter();
        requests.map(|request| self.line(request)).collect()
    }

    /// Commits, and returns when the change is durable: its number; none if there were no writes.
    ///
    /// A commit that is refused (TooLarge, HistoryFull, JournalFull, NotActive) is rolled back.
    /// After [`Error::CommitUnknown`] call [`Store::once`](crate::Store::once) in a new run.
    pub fn commit(self) -> Result<Option<u64>, Error> {
        self.commit_after(Vec::new())
    }

    /// Carries out writes, and commits.
    pub(crate) fn commit_writes(self, writes: &Writes) -> Result<Option<u64>, Error> {
        let lines = self.lines_of(writes);
        if lines.len() == 1 {
            return self.commit_after(lines);
        }
        self.write_all(writes)?;
        self.commit()
    }

    /// Begins it, carries out writes, and commits.
    pub(crate) fn begin_and_commit(self, writes: &Writes) -> Result<Option<u64>, Error> {
        let mut lines = vec![self.line_of_begin()];
        lines.extend(self.lines_of(writes));
        if lines.len() <= 2 {
            return self.commit_after(lines);
        }
        for part in together(lines) {
            let main = part.len() - 1;
            let mut answers = self.run.lock().write_all(self.session, part, main)?;
            if !self.is_held.get() {
                self.judge_begun(answers.remove(0))?;
            }
            answers.into_iter().try_for_each(judge_write)?;
        }
        self.commit()
    }

    /// Commits and frees its place, by lines that are sent together, and after these.
    ///
    /// One write at most may be among these: a commit is carried out though a write was refused, and
    /// has nothing to do then. After two it would make one without the other.
    fn commit_after(self, mut lines: Vec<String>) -> Result<Option<u64>, Error> {
        let before = lines.len();
        lines.push(format!("commit {}", self.label));
        lines.push(format!("close {}", self.label));
        let mut run = self.run.lock();
        run.tell()?;
        run.enter(self.session)?;
        // a commit that isn't sent isn't done
        let may_send = run.may_send();
        self.is_held.set(may_send && self.is_held.get());
        let mut answers = match run.write_all(self.session, lines, before) {
            Ok(answers) => answers.into_iter(),
            Err(why) => return Err(self.judge_unanswered(why, may_send)),
        };
        // a close that was refused is tried again by the drop
        let closed = answers.as_slice().get(before + 1);
        self.is_held.set(matches!(
            closed,
            Some(Err(why)) if !matches!(why, Error::Refused(Refusal::NoSuchHandle, _))
        ));
        for answer in answers.by_ref().take(before) {
            answer?;
        }
        let reply = answers.next().unwrap_or_else(|| Err(Error::ended()));
        match reply.and_then(|reply| understood(number(&reply, "committed"), reply)) {
            Ok(number) => Ok((number != 0).then_some(number)),
            Err(why) => Err(self.judge_unanswered(why, true)),
        }
    }

    /// The error of a commit that was answered so, or not at all.
    fn judge_unanswered(&self, why: Error, is_sent: bool) -> Error {
        if is_sent && why.leaves_commit_open() {
            Error::CommitUnknown(self.unit, Box::new(why))
        } else {
            why
        }
    }

    /// Drops all of its writes.
    pub fn rollback(self) -> Result<(), Error> {
        let run = self.run;
        drop(self);
        let told = run.lock().tell();
        told
    }

    // frees its place; one that is active is rolled back
    fn close(&self, run: &mut Run) -> Result<(), Error> {
        run.enter(self.session)?;
        run.exchange_ok(&format!("close {}", self.label))
    }
}

/// The reply to a write in a transaction.
fn judge_write(answer: Answer) -> Result<(), Error> {
    let reply = answer?;
    let is_write = matches!(reply.as_str(), "ok" | "opened") || reply.starts_with("created ");
    understood(is_write.then_some(()), reply)
}

impl Drop for Transaction<'_> {
    fn drop(&mut self) {
        let mut run = self.run.lock();
        let closed = if self.is_held.get() {
            self.close(&mut run)
        } else {
            Ok(())
        };
        let is_gone = match &closed {
            Ok(()) | Err(Error::Refused(Refusal::NoSuchHandle, _)) => true,
            Err(_) => false,
        };
        // a label that still names this transaction is never another one's
        if is_gone {
            run.free_label(self.label);
        }
        // a server may have ended it, to make room in its history
        if !(is_gone && run.is_served()) {
            run.keep(closed);
        }
    }
}

impl Scope for Transaction<'_> {
    type Accepted = ();

    fn place(&self) -> (&SharedRun, u32) {
        (self.run, self.session)
    }

    fn begin(&self) -> Result<Option<Transaction<'_>>, Error> {
        Ok(None)
    }

    fn line(&self, request: &str) -> String {
        format!("tx {} {request}", self.label)
    }

    fn accepted(reply: &str) -> Option<()> {
        matches!(reply, "ok" | "").then_some(())
    }
}

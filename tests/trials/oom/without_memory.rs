//! What takes no memory: an event that is refused memory has failed.
use crate::engine_calls::{Answer, SESSION, ask};
use crate::fault::Fault;
use crate::oom::engine_driver::EngineDriver;
use refusals::Refusal;
use store_model::{Event, Outcome, Progress, Tx};

// more steps than a batch, a flush or a trim takes
const MANY: u32 = 32;

impl EngineDriver {
    /// Ends what is under way, in any state of the store.
    pub(crate) fn end(&mut self) -> Result<(), Fault> {
        self.end_journaling()?;
        self.end_flush()?;
        self.end_transaction()?;
        self.look()
    }

    /// Ends a batch or a trim that is under way.
    pub(crate) fn end_journaling(&mut self) -> Result<(), Fault> {
        if self.is_journaling {
            self.is_journaling = false;
            self.steps_to_done(false)?;
        }
        Ok(())
    }

    /// Ends a flush that is under way.
    pub(crate) fn end_flush(&mut self) -> Result<(), Fault> {
        if self.is_flushing {
            self.is_flushing = false;
            self.steps_to_done(true)?;
        }
        Ok(())
    }

    // makes steps of the flush or of the journal until one is the last
    fn steps_to_done(&mut self, of_flush: bool) -> Result<(), Fault> {
        for _step in 0..MANY {
            let event = if of_flush {
                Event::FlusherStep { hive: 0 }
            } else {
                Event::JournalStep
            };
            match ask(&mut self.engine, event) {
                Answer::Stepped(Progress::Done) => return Ok(()),
                Answer::Stepped(Progress::More) => {}
                _ => return Err(Fault::Otherwise("another step")),
            }
        }
        Err(Fault::Otherwise("more steps"))
    }

    /// The first step of a trim.
    pub(crate) fn trim(&mut self) -> Result<(), Fault> {
        match ask(&mut self.engine, Event::TrimStep) {
            Answer::Stepped(Progress::More) => {
                self.is_journaling = true;
                Ok(())
            }
            _ => Err(Fault::Otherwise("no trim")),
        }
    }

    // rolls a transaction back that is active, and closes it
    fn end_transaction(&mut self) -> Result<(), Fault> {
        let Some(tx) = self.tx.take() else {
            return Ok(());
        };
        let session = SESSION;
        self.stands(tx, Outcome::Active)?;
        self.done(Event::Rollback { session, tx })?;
        self.stands(tx, Outcome::RolledBack)?;
        self.done(Event::Close { session, tx })?;
        match ask(&mut self.engine, Event::Outcome { session, tx }) {
            Answer::Refused(Refusal::NoSuchHandle) => Ok(()),
            _ => Err(Fault::Otherwise("a closed transaction")),
        }
    }

    // an event whose reply has no content
    fn done(&mut self, event: Event) -> Result<(), Fault> {
        match ask(&mut self.engine, event) {
            Answer::Done => Ok(()),
            _ => Err(Fault::Otherwise("an event that isn't done")),
        }
    }

    // checks the outcome of a transaction
    fn stands(&mut self, tx: Tx, wanted: Outcome) -> Result<(), Fault> {
        let session = SESSION;
        match ask(&mut self.engine, Event::Outcome { session, tx }) {
            Answer::OutcomeIs(outcome) if outcome == wanted => Ok(()),
            _ => Err(Fault::Otherwise("another outcome")),
        }
    }

    // number 0 is durable, no change has number 3, and a flush waits for some number below that
    fn look(&mut self) -> Result<(), Fault> {
        let none = ask(&mut self.engine, Event::Acked { number: 0 });
        let third = ask(&mut self.engine, Event::Acked { number: 3 });
        let asked = ask(&mut self.engine, Event::FlushAsk);
        match (none, third, asked) {
            (Answer::Receipt(0), Answer::NotYet, Answer::Awaits(0..3)) => Ok(()),
            _ => Err(Fault::Otherwise("another number")),
        }
    }

    /// Ends the session.
    pub(crate) fn end_session(&mut self) -> Result<(), Fault> {
        self.done(Event::EndSession { session: SESSION })
    }
}

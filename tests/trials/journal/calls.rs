//! The calls of a journal, and what is seen of it.

use crate::fault::Fault;
use crate::journal::driver::{ID, JournalDriver};
use crate::journal::names::number;
use crate::journal::steps;
use commit_journal::{Journal, Layout, OpenedJournal};
use disk_model::Progress;
use refusals::Refusal;
use refusals::limits::MOST_HIVES;
use uuid::Uuid;

impl JournalDriver {
    /// Creates the journal of a store of this layout, in which calls name `hives` hives.
    pub fn create(&mut self, hives: &str, layout: Layout, wanted: &[&str]) -> Result<(), Fault> {
        let hives = number(hives)?;
        if hives == 0 || hives > MOST_HIVES as u64 {
            return Err(Fault::NotUnderstood);
        }
        let came = match self.created(hives as u8, layout)? {
            Ok(journal) => {
                self.journal = Some(journal);
                "Done"
            }
            Err(why) => refusal_text(why),
        };
        expect(came, wanted)
    }

    fn created(&mut self, hives: u8, layout: Layout) -> Result<Result<Journal, Refusal>, Fault> {
        let id = Uuid::from_bytes(ID);
        let before = self.look()?;
        match Journal::create(self.alloc, &mut self.disk, id, hives, layout) {
            Err(Refusal::NoMemory) => {
                self.sees_no_change(before)?;
                Ok(Journal::create(self.alloc, &mut self.disk, id, hives, layout))
            }
            made => Ok(made),
        }
    }

    /// Opens the journal: the number of hives of its store, the number before the first element, and the used room.
    pub fn open(&mut self, wanted: &[&str]) -> Result<(), Fault> {
        match self.reopened()? {
            Ok(OpenedJournal { journal, elements }) => {
                let numbers = [u64::from(journal.hives()), journal.base(), journal.used()];
                self.journal = Some(journal);
                self.opened = elements;
                are_numbers(&numbers, wanted)
            }
            Err(why) => expect(refusal_text(why), wanted),
        }
    }

    fn reopened(&mut self) -> Result<Result<OpenedJournal, Refusal>, Fault> {
        let before = self.look()?;
        match Journal::open(self.alloc, &mut self.disk) {
            Err(Refusal::NoMemory) => {
                self.sees_no_change(before)?;
                Ok(Journal::open(self.alloc, &mut self.disk))
            }
            made => Ok(made),
        }
    }

    /// As many steps as answers are wanted.
    pub fn steps(&mut self, wanted: &[&str]) -> Result<(), Fault> {
        for word in wanted {
            let came = self.step()?;
            if came != *word {
                return Err(Fault::Otherwise(came));
            }
        }
        Ok(())
    }

    fn step(&mut self) -> Result<&'static str, Fault> {
        let before = self.look()?;
        match self.step_once()? {
            Err(Refusal::NoMemory) => {
                self.sees_no_change(before)?;
                Ok(answer_text(self.step_once()?))
            }
            answer => Ok(answer_text(answer)),
        }
    }

    fn step_once(&mut self) -> Result<Result<Progress, Refusal>, Fault> {
        let Some(journal) = &mut self.journal else {
            return Err(Fault::NotUnderstood);
        };
        match steps::step(journal, &mut self.disk, &self.handed) {
            Some(answer) => Ok(answer),
            None => Err(Fault::NotUnderstood),
        }
    }

    /// As many steps of a trim as answers are wanted.
    pub fn trims(&mut self, wanted: &[&str]) -> Result<(), Fault> {
        for word in wanted {
            let came = self.trim()?;
            if came != *word {
                return Err(Fault::Otherwise(came));
            }
        }
        Ok(())
    }

    fn trim(&mut self) -> Result<&'static str, Fault> {
        let Some(journal) = &mut self.journal else {
            return Err(Fault::NotUnderstood);
        };
        match steps::trim_step(journal, &mut self.disk) {
            Some(answer) => Ok(answer_text(answer)),
            None => Err(Fault::NotUnderstood),
        }
    }

    /// The used room and the last number.
    pub fn numbers(&mut self, wanted: &[&str]) -> Result<(), Fault> {
        let Some(journal) = &self.journal else {
            return Err(Fault::NotUnderstood);
        };
        are_numbers(&[journal.used(), journal.last_number()], wanted)
    }

    /// The layout, how many hives calls name, and how many there are.
    pub fn layout(&mut self, wanted: &[&str]) -> Result<(), Fault> {
        let Some(journal) = &self.journal else {
            return Err(Fault::NotUnderstood);
        };
        let Some((layout, numbers)) = wanted.split_first() else {
            return Err(Fault::NotUnderstood);
        };
        let hives = [u64::from(journal.hives()), u64::from(journal.all_hives())];
        expect(layout_text(journal.layout()), &[*layout])?;
        are_numbers(&hives, numbers)
    }
}

/// Sees that this and nothing else is wanted.
pub(crate) fn expect(came: &'static str, wanted: &[&str]) -> Result<(), Fault> {
    match wanted {
        [word] if *word == came => Ok(()),
        _ => Err(Fault::Otherwise(came)),
    }
}

/// Sees that these numbers are wanted.
pub(crate) fn are_numbers(came: &[u64], wanted: &[&str]) -> Result<(), Fault> {
    if came.len() != wanted.len() {
        return Err(Fault::Otherwise("numbers"));
    }
    for (value, word) in came.iter().zip(wanted) {
        if *value != number(word)? {
            return Err(Fault::Otherwise("another number"));
        }
    }
    Ok(())
}

fn layout_text(layout: Layout) -> &'static str {
    match layout {
        Layout::HivesAlone => "HivesAlone",
        Layout::WithOutcomes => "WithOutcomes",
    }
}

fn answer_text(answer: Result<Progress, Refusal>) -> &'static str {
    match answer {
        Ok(Progress::Idle) => "Idle",
        Ok(Progress::More) => "More",
        Ok(Progress::Done) => "Done",
        Err(why) => refusal_text(why),
    }
}

fn refusal_text(why: Refusal) -> &'static str {
    match why {
        Refusal::NoMemory => "NoMemory",
        Refusal::JournalDamaged => "JournalDamaged",
        Refusal::DiskFault => "DiskFault",
        Refusal::Faulted => "Faulted",
        _ => "another refusal",
    }
}

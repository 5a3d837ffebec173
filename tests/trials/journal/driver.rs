//! A journal, the disk in memory that it is on, and what lines have named.
use crate::fault::Fault;
use crate::journal::files::tear_of;
use crate::journal::names::{NamedBytes, number};
use change_codec::EncodedChange;
use commit_journal::{Journal, Layout};
use disk_model::{Disk, MemDisk, Plan};
use refusals::limits::MOST_HIVES;
use std::alloc::{AllocError, Global};
use std::sync::Arc;

/// The id of each store that is created.
pub(crate) const ID: [u8; 16] = [1, 2, 3, 4, 5, 6, 7, 8, 9, 10, 11, 12, 13, 14, 15, 16];

/// What the lines so far have made.
#[derive(Drop)]
pub(crate) struct JournalDriver {
    pub alloc: Global,
    pub names: NamedBytes,
    pub plan: Arc<Plan>,
    pub disk: MemDisk,
    pub journal: Option<Journal>,
    /// What is handed in at a step.
    pub handed: Vec<EncodedChange>,
    /// What the last opening answered.
    pub opened: Vec<EncodedChange>,
    /// Whether each call that takes memory is checked, before it and after it.
    pub is_watched: bool,
    /// Whether a call of the journal was refused memory.
    pub was_refused: bool,
}

/// A plan that refuses nothing.
pub(crate) fn plan(alloc: Global) -> Result<Arc<Plan>, AllocError> {
    Ok(Arc::new(alloc, Plan::new())?)
}

impl JournalDriver {
    /// A disk on which nothing was written.
    pub fn new(alloc: Global) -> Result<JournalDriver, Fault> {
        let plan = plan(alloc)?;
        let disk = MemDisk::new(alloc, Arc::try_clone(&plan)?);
        Ok(JournalDriver {
            alloc,
            names: NamedBytes::new(alloc),
            plan,
            disk,
            journal: None,
            handed: Vec::new(alloc),
            opened: Vec::new(alloc),
            is_watched: false,
            was_refused: false,
        })
    }

    /// Whether a call of the journal was refused memory.
    pub fn was_refused(&self) -> bool {
        self.was_refused
    }

    /// Plays a line: its words before the `>`, and those after it, which say what has to come.
    pub fn play(&mut self, asked: &[&str], wanted: &[&str]) -> Result<(), Fault> {
        let Some((verb, words)) = asked.split_first() else {
            return Err(Fault::NotUnderstood);
        };
        match *verb {
            "let" | "disk" | "hand" => self.give(verb, words),
            "write" | "cut" | "sync" | "length" | "get" | "left" => self.call(verb, words, wanted),
            _ => match words {
                [] => self.ask(verb, wanted),
                [word] => self.make(verb, word, wanted),
                _ => Err(Fault::NotUnderstood),
            },
        }
    }

    /// A line of words that give bytes.
    fn give(&mut self, verb: &str, words: &[&str]) -> Result<(), Fault> {
        match (verb, words) {
            ("let", [name, words @ ..]) => self.names.name(name, words),
            ("disk", words) => self.begin(words),
            ("hand", words) => self.hand(words),
            _ => Err(Fault::NotUnderstood),
        }
    }

    /// A line about one of the disk's files.
    fn call(&mut self, verb: &str, words: &[&str], wanted: &[&str]) -> Result<(), Fault> {
        match (verb, words) {
            ("write", [file, offset, words @ ..]) => self.write(file, offset, words, wanted),
            ("cut", [file, len]) => self.cut(file, len, wanted),
            ("sync", [file]) => self.sync(file, wanted),
            ("length", [file]) => self.length(file, wanted),
            ("get", [file, offset]) => self.get(file, offset, wanted),
            ("left", [tear, file]) => self.left(tear, file, wanted),
            _ => Err(Fault::NotUnderstood),
        }
    }

    /// A line of one word.
    fn ask(&mut self, verb: &str, wanted: &[&str]) -> Result<(), Fault> {
        match verb {
            "open" => self.open(wanted),
            "opened" => self.opened(wanted),
            "step" => self.steps(wanted),
            "trim" => self.trims(wanted),
            "numbers" => self.numbers(wanted),
            "layout" => self.layout(wanted),
            "file" => self.file(wanted),
            "read" => self.read(wanted),
            _ => Err(Fault::NotUnderstood),
        }
    }

    /// A line of two words.
    fn make(&mut self, verb: &str, word: &str, wanted: &[&str]) -> Result<(), Fault> {
        match verb {
            "create" => self.create(word, Layout::HivesAlone, wanted),
            "create-with-outcomes" => self.create(word, Layout::WithOutcomes, wanted),
            "stop" => self.stop(word),
            "fail" => self.fail(word),
            "crash" => self.crash(word),
            "watch" => self.watch(word),
            _ => Err(Fault::NotUnderstood),
        }
    }

    /// A new disk, whose journal's file has these bytes.
    fn begin(&mut self, words: &[&str]) -> Result<(), Fault> {
        let bytes = self.names.bytes(words)?;
        let plan = plan(self.alloc)?;
        self.disk = MemDisk::new(self.alloc, Arc::try_clone(&plan)?);
        self.disk.room(1, bytes.len(), 2)?;
        self.plan = plan;
        self.journal = None;
        done(self.disk.write_at(0, 0, &bytes).is_ok() && self.disk.sync(0).is_ok())
    }

    /// The k-th call that changes, and all after it, fail.
    fn stop(&mut self, k: &str) -> Result<(), Fault> {
        let k = number(k)?;
        if k > 0 {
            self.plan.stop_at(k);
        }
        done(k > 0)
    }

    /// The k-th call fails, and does nothing.
    fn fail(&mut self, k: &str) -> Result<(), Fault> {
        let k = number(k)?;
        if k > 0 {
            self.plan.fail_at(k);
        }
        done(k > 0)
    }

    /// What a crash leaves is the disk.
    fn crash(&mut self, tear: &str) -> Result<(), Fault> {
        let tear = tear_of(tear)?;
        let plan = plan(self.alloc)?;
        self.disk = self.disk.crashed(tear, Arc::try_clone(&plan)?)?;
        self.plan = plan;
        self.journal = None;
        Ok(())
    }

    /// Hands in the elements whose encodings the words give.
    fn hand(&mut self, words: &[&str]) -> Result<(), Fault> {
        let bytes = self.names.bytes(words)?;
        self.handed = elements_of(self.alloc, &bytes)?;
        Ok(())
    }
}

fn done(is_done: bool) -> Result<(), Fault> {
    if is_done {
        Ok(())
    } else {
        Err(Fault::NotUnderstood)
    }
}

/// The elements whose encodings the bytes are, one after another, on whatever hives a store may have.
fn elements_of(alloc: Global, bytes: &[u8]) -> Result<Vec<EncodedChange>, Fault> {
    let hives = Layout::WithOutcomes.all_hives(MOST_HIVES as u8);
    let mut elements = Vec::new(alloc);
    let mut rest = bytes;
    for _ in 0..bytes.len() {
        if rest.is_empty() {
            break;
        }
        let (element, behind) = EncodedChange::take(alloc, hives, rest)?;
        elements.push(element)?;
        rest = behind;
    }
    Ok(elements)
}

//! What is on the disk and in the journal, as lines see it.
use crate::fault::Fault;
use crate::journal::driver::JournalDriver;
use crate::journal::files::same;
use crate::journal::names::number;
use disk_model::{Disk, Tear};

/// The bytes that one reading call asks for.
const CHUNK_BYTES: usize = 65_536;

/// The journal's file, and the numbers of the journal if there is one.
#[derive(Drop)]
pub(crate) struct Look {
    file: Vec<u8>,
    numbers: Option<(u64, u64, bool)>,
}

impl JournalDriver {
    /// From here on each call of the journal that takes memory is checked, on a disk that takes none for so many bytes.
    pub fn watch(&mut self, bytes: &str) -> Result<(), Fault> {
        let bytes = number(bytes)?;
        self.disk.room(2, bytes as usize, 64)?;
        self.is_watched = true;
        Ok(())
    }

    /// What is there before a call, if calls are watched.
    pub fn look(&self) -> Result<Option<Look>, Fault> {
        if self.is_watched {
            Ok(Some(self.look_now()?))
        } else {
            Ok(None)
        }
    }

    fn look_now(&self) -> Result<Look, Fault> {
        let numbers = match &self.journal {
            Some(journal) => Some((journal.used(), journal.last_number(), journal.is_halfway())),
            None => None,
        };
        Ok(Look {
            file: self.left_of(Tear::New, 0)?,
            numbers,
        })
    }

    /// Sees that a call that was refused memory has changed nothing.
    pub fn sees_no_change(&mut self, before: Option<Look>) -> Result<(), Fault> {
        self.was_refused = true;
        let Some(before) = before else {
            return Err(Fault::Otherwise("NoMemory"));
        };
        let after = self.look_now()?;
        if before.file == after.file && before.numbers == after.numbers {
            Ok(())
        } else {
            Err(Fault::Otherwise("a change by a call that was refused memory"))
        }
    }

    /// Checks that the journal's file has the bytes of the words.
    pub fn file(&mut self, wanted: &[&str]) -> Result<(), Fault> {
        let wanted = self.names.bytes(wanted)?;
        same(&self.left_of(Tear::New, 0)?, &wanted)
    }

    /// Checks that the last opening answered the elements whose encodings the words give.
    pub fn opened(&mut self, wanted: &[&str]) -> Result<(), Fault> {
        let wanted = self.names.bytes(wanted)?;
        let mut encodings = Vec::new(self.alloc);
        for element in &self.opened {
            encodings.extend_from_slice(element.bytes())?;
        }
        if encodings == wanted {
            Ok(())
        } else {
            Err(Fault::Otherwise("other elements"))
        }
    }

    /// Reads the journal's file to its end, chunk by chunk: how many bytes came.
    pub fn read(&mut self, wanted: &[&str]) -> Result<(), Fault> {
        let mut piece = vec![in self.alloc; 0u8; CHUNK_BYTES]?;
        let len = self.disk.len(0)?;
        let mut at = 0u64;
        for _ in 0..len {
            if at >= len {
                break;
            }
            at = at.saturating_add(self.disk.read(0, at, &mut piece)? as u64);
        }
        match wanted {
            [word] if number(word)? == at => Ok(()),
            _ => Err(Fault::Otherwise("another length")),
        }
    }
}

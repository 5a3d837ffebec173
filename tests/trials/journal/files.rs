//! The calls of the disk, and what a crash would leave of a file.
use crate::fault::Fault;
use crate::journal::calls::{are_numbers, expect};
use crate::journal::driver::{JournalDriver, plan};
use crate::journal::names::number;
use disk_model::{Disk, Failed, Tear};

impl JournalDriver {
    /// Writes into a file.
    pub fn write(
        &mut self,
        file: &str,
        offset: &str,
        words: &[&str],
        wanted: &[&str],
    ) -> Result<(), Fault> {
        let bytes = self.names.bytes(words)?;
        let offset = number(offset)?;
        expect(
            call_text(self.disk.write_at(file_number(file)?, offset, &bytes)),
            wanted,
        )
    }

    /// Cuts a file, or makes it longer.
    pub fn cut(&mut self, file: &str, len: &str, wanted: &[&str]) -> Result<(), Fault> {
        let len = number(len)?;
        expect(call_text(self.disk.cut(file_number(file)?, len)), wanted)
    }

    /// Syncs a file.
    pub fn sync(&mut self, file: &str, wanted: &[&str]) -> Result<(), Fault> {
        expect(call_text(self.disk.sync(file_number(file)?)), wanted)
    }

    /// Asks for a file's length.
    pub fn length(&mut self, file: &str, wanted: &[&str]) -> Result<(), Fault> {
        match self.disk.len(file_number(file)?) {
            Ok(len) => are_numbers(&[len], wanted),
            Err(failed) => expect(call_text(Err(failed)), wanted),
        }
    }

    /// One read of at most four bytes, from an offset on.
    pub fn get(&mut self, file: &str, offset: &str, wanted: &[&str]) -> Result<(), Fault> {
        let wanted = self.names.bytes(wanted)?;
        let mut buffer = [0; 4];
        let offset = number(offset)?;
        let count = self.disk.read(file_number(file)?, offset, &mut buffer)?;
        same(&buffer[..count], &wanted)
    }

    /// Sees that a crash now would leave these bytes of a file. The disk meets no call.
    pub fn left(&self, tear: &str, file: &str, wanted: &[&str]) -> Result<(), Fault> {
        let wanted = self.names.bytes(wanted)?;
        same(&self.left_of(tear_of(tear)?, file_number(file)?)?, &wanted)
    }

    /// The bytes that a crash now would leave of a file.
    pub fn left_of(&self, tear: Tear, file: u32) -> Result<Vec<u8>, Fault> {
        let mut left = self.disk.crashed(tear, plan(self.alloc)?)?;
        let len = left.len(file)?;
        let mut bytes = vec![in self.alloc; 0u8; len as usize]?;
        let count = left.read(file, 0, &mut bytes)?;
        if count == bytes.len() {
            Ok(bytes)
        } else {
            Err(Fault::Otherwise("a short read"))
        }
    }
}

/// Sees that these bytes came.
pub(crate) fn same(came: &[u8], wanted: &[u8]) -> Result<(), Fault> {
    if came == wanted {
        Ok(())
    } else {
        Err(Fault::Otherwise("other bytes"))
    }
}

/// The tear of this name.
pub(crate) fn tear_of(name: &str) -> Result<Tear, Fault> {
    match name {
        "old" => Ok(Tear::Old),
        "new" => Ok(Tear::New),
        "torn" => Ok(Tear::Torn),
        _ => Err(Fault::NotUnderstood),
    }
}

fn call_text(called: Result<(), Failed>) -> &'static str {
    match called {
        Ok(()) => "Done",
        Err(_) => "DiskFault",
    }
}

fn file_number(word: &str) -> Result<u32, Fault> {
    let file = number(word)?;
    if file > u64::from(u32::MAX) {
        return Err(Fault::NotUnderstood);
    }
    Ok(file as u32)
}

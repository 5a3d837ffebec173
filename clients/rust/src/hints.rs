//! What the program tells on standard error of why something can't be done.

use std::fs::{self, File, OpenOptions};
use std::io;
use std::os::unix::fs::{FileExt, OpenOptionsExt};
use std::process::{self, Stdio};
use std::sync::atomic::{AtomicU32, Ordering};

/// By which the program tells hints without a terminal too.
pub(crate) const ASKED: (&str, &str) = ("REGTX_HINTS", "1");

const MOST_HINTS: usize = 4_096;

/// The standard error of a run: a file without a name, or the caller's if none can be made.
#[derive(Debug)]
pub(crate) struct Hints {
    file: Option<File>,
    told: u64,
}

impl Hints {
    pub(crate) fn open() -> Hints {
        Hints {
            file: nameless().ok(),
            told: 0,
        }
    }

    /// Where the program writes.
    pub(crate) fn stdio(&self) -> Stdio {
        let copy = self.file.as_ref().and_then(|file| file.try_clone().ok());
        copy.map_or_else(Stdio::inherit, Stdio::from)
    }

    /// What was told since the last time.
    pub(crate) fn take(&mut self) -> String {
        let mut bytes = [0; MOST_HINTS];
        let read = self
            .file
            .as_ref()
            .map(|file| file.read_at(&mut bytes, self.told));
        let size = read.and_then(Result::ok).unwrap_or(0);
        self.told += size as u64;
        text(&bytes[..size])
    }
}

/// The lines as one.
pub(crate) fn text(told: &[u8]) -> String {
    let told = &told[..told.len().min(MOST_HINTS)];
    String::from_utf8_lossy(told).trim_end().replace('\n', "; ")
}

fn nameless() -> io::Result<File> {
    static COUNT: AtomicU32 = AtomicU32::new(0);
    let number = COUNT.fetch_add(1, Ordering::Relaxed);
    let name = format!("regtx-{}-{number}", process::id());
    let path = std::env::temp_dir().join(name);
    let mut options = OpenOptions::new();
    options.read(true).write(true).create_new(true).mode(0o600);
    let file = options.open(&path)?;
    fs::remove_file(path)?;
    Ok(file)
}

//! The program, which runs on a store beside this process.

use crate::hints::{Hints, ASKED};
use crate::store::file_word;
use crate::{Error, Options, Refusal};
use std::io::{self, BufReader, Read, Write};
use std::os::unix::process::CommandExt;
use std::path::Path;
use std::process::{Child, ChildStdin, ChildStdout, Command, ExitStatus, Stdio};

#[derive(Debug)]
pub(crate) struct Program {
    child: Child,
    hints: Hints,
    /// Where lines go; none once the script has ended.
    script: Option<ChildStdin>,
    pub(crate) replies: BufReader<ChildStdout>,
}

impl Program {
    pub(crate) fn start(folder: &Path, options: &Options) -> Result<Program, Error> {
        let hints = Hints::open();
        let mut child = Command::new(&options.program)
            .args(["wait", &options.wait.to_string(), "run"])
            .arg(file_word(folder))
            .arg("/dev/stdin")
            .stdin(Stdio::piped())
            .stdout(Stdio::piped())
            .stderr(hints.stdio())
            .env(ASKED.0, ASKED.1)
            // Ctrl-C is for the caller, who can still flush and close then
            .process_group(0)
            .spawn()?;
        let script = child.stdin.take();
        let replies = BufReader::new(child.stdout.take().expect("standard output is a pipe"));
        Ok(Program {
            child,
            hints,
            script,
            replies,
        })
    }

    /// Sends lines by one write.
    pub(crate) fn send(&mut self, lines: &[u8]) -> io::Result<()> {
        let script = self.script.as_mut();
        match script.map_or(Ok(()), |script| script.write_all(lines)) {
            // what the run printed before it ended may be the reply
            Err(why) if why.kind() == io::ErrorKind::BrokenPipe => Ok(()),
            sent => sent,
        }
    }

    /// What was told of an error since the last one.
    pub(crate) fn hint(&mut self) -> String {
        self.hints.take()
    }

    pub(crate) fn is_open(&self) -> bool {
        self.script.is_some()
    }

    /// Lets go of this process's copies.
    pub(crate) fn leave(&mut self) {
        drop(self.script.take());
    }

    /// Ends the script, and waits until the run has done its work at the end.
    pub(crate) fn finish(&mut self, was_refused: bool) -> Result<(), Error> {
        drop(self.script.take());
        let mut rest = String::new();
        let read = self.replies.read_to_string(&mut rest);
        let status = self.child.wait()?;
        read?;
        judge(status, &rest, was_refused)
    }
}

// by the statuses of docs/USING.md: 1 is also that of a run in which a line was refused
fn judge(status: ExitStatus, rest: &str, was_refused: bool) -> Result<(), Error> {
    match (status.code(), rest.lines().last()) {
        (Some(0), None) => Ok(()),
        (Some(1), None) if was_refused => Ok(()),
        (Some(_), Some(last)) => match Refusal::parse(last) {
            Some(why) => Err(Error::Refused(why, String::new())),
            None => Err(Error::Reply(last.to_owned())),
        },
        _ => Err(Error::ended()),
    }
}

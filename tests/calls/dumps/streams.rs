//! Files that can't be read on, and texts that can't be written.
use crate::dumps::hives::{TEXT, file};
use hive_dump::{DumpError, dump};
use reply_lines::Status;
use std::io;
use std::io::{ErrorKind, Read, Write};
use std::test::Fail;

// gives a byte at a time, with an interruption before each other one, and then fails
#[derive(Drop)]
struct Slow<'a> {
    rest: &'a [u8],
    is_interrupted: bool,
    end: ErrorKind,
}

impl<'a> Slow<'a> {
    fn new(rest: &'a [u8], end: ErrorKind) -> Slow<'a> {
        Slow {
            rest,
            is_interrupted: false,
            end,
        }
    }
}

impl<'a> Read for Slow<'a> {
    fn read(&mut self, buf: &mut [u8]) -> io::Result<usize> {
        if self.rest.is_empty() {
            return Err(io::Error::from(self.end));
        }
        self.is_interrupted = !self.is_interrupted;
        if self.is_interrupted {
            return Err(io::Error::from(ErrorKind::Interrupted));
        }
        let room = buf.len().min(1);
        self.rest.read(&mut buf[..room])
    }
}

// takes this many writes, and then fails
#[derive(Drop)]
struct Full {
    left: usize,
}

impl Write for Full {
    fn write(&mut self, buf: &[u8]) -> io::Result<usize> {
        if self.left == 0 {
            return Err(io::Error::from(ErrorKind::BrokenPipe));
        }
        self.left -= 1;
        Ok(buf.len())
    }

    fn flush(&mut self) -> io::Result<()> {
        Ok(())
    }
}

#[test]
fn a_hive_is_printed_and_what_follows_it_is_unread(rt: HostRuntime) -> Result<(), Fail> {
    let alloc = rt.alloc();
    let file = file(alloc, b"more")?;
    let mut reader = file.as_slice();
    let mut printed = Vec::new(alloc);
    assert_eq!(&rt; dump(alloc, &mut reader, &mut printed), Ok(Status::Clean));
    assert!(&rt; printed.as_slice() == TEXT);
    assert!(&rt; reader == b"more".as_slice());
    Ok(())
}

#[test]
fn a_reader_may_give_a_byte_at_a_time_and_be_interrupted(rt: HostRuntime) -> Result<(), Fail> {
    let alloc = rt.alloc();
    let file = file(alloc, b"")?;
    let mut printed = Vec::new(alloc);
    let mut reader = Slow::new(&file, ErrorKind::BrokenPipe);
    assert_eq!(&rt; dump(alloc, &mut reader, &mut printed), Ok(Status::Clean));
    assert!(&rt; printed.as_slice() == TEXT);
    Ok(())
}

#[test]
fn a_reader_that_fails_leaves_nothing_printed(rt: HostRuntime) -> Result<(), Fail> {
    let alloc = rt.alloc();
    let file = file(alloc, b"")?;
    for count in [0, 1, 511, 512, 4_095, 4_096, 8_191] {
        let mut printed = Vec::new(alloc);
        let mut reader = Slow::new(file.get(..count).unwrap_or(b""), ErrorKind::BrokenPipe);
        let told = dump(alloc, &mut reader, &mut printed);
        assert!(&rt; told == Err(DumpError::CannotRead), "{count}");
        assert!(&rt; printed.is_empty(), "{count}");
    }
    Ok(())
}

#[test]
fn a_reader_that_wants_memory_is_told_so(rt: HostRuntime) -> Result<(), Fail> {
    let alloc = rt.alloc();
    let file = file(alloc, b"")?;
    for count in [0, 5_000] {
        let mut printed = Vec::new(alloc);
        let mut reader = Slow::new(file.get(..count).unwrap_or(b""), ErrorKind::OutOfMemory);
        let told = dump(alloc, &mut reader, &mut printed);
        assert!(&rt; told == Ok(Status::Refused), "{count}");
        assert!(&rt;
            printed.as_slice() == b"E1 NoMemory\n".as_slice(),
            "{count}"
        );
    }
    Ok(())
}

#[test]
fn a_write_that_fails_is_told(rt: HostRuntime) -> Result<(), Fail> {
    let alloc = rt.alloc();
    let file = file(alloc, b"")?;
    for left in [0, 1, 2] {
        let mut full = Full { left };
        let told = dump(alloc, &mut file.as_slice(), &mut full);
        assert!(&rt; told == Err(DumpError::CannotWrite), "{left}");
        // the same of a refusal's line
        let told = dump(alloc, &mut b"short".as_slice(), &mut Full { left: 0 });
        assert!(&rt; told == Err(DumpError::CannotWrite), "{left}");
    }
    Ok(())
}

//! Scripts that can't be read on, and replies that can't be written.
use reply_lines::Status;
use script_runner::play;
use std::io;
use std::io::{BufReader, Read, Write};
use std::test::Fail;

// gives some bytes, and then fails
#[derive(Drop)]
struct Failing<'a> {
    rest: &'a [u8],
}

impl<'a> Read for Failing<'a> {
    fn read(&mut self, buf: &mut [u8]) -> io::Result<usize> {
        if self.rest.is_empty() {
            return Err(io::Error::from(io::ErrorKind::BrokenPipe));
        }
        self.rest.read(buf)
    }
}

// takes some writes, and then fails
#[derive(Drop)]
struct Full {
    taken: Vec<u8>,
    left: usize,
}

impl Write for Full {
    fn write(&mut self, buf: &[u8]) -> io::Result<usize> {
        if self.left == 0 {
            return Err(io::Error::from(io::ErrorKind::BrokenPipe));
        }
        self.left -= 1;
        self.taken.write(buf)
    }

    fn flush(&mut self) -> io::Result<()> {
        Ok(())
    }
}

#[test]
fn a_script_that_breaks_off_has_its_replies_so_far(rt: HostRuntime) -> Result<(), Fail> {
    let alloc = rt.alloc();
    let cases: [(&str, &str); 3] = [
        (
            "hives 1\ncreate 0:A\nkeys 0",
            "ok\ncreated 1 accepted 1\ncannot read script\n",
        ),
        ("hiv", "cannot read script\n"),
        ("", "cannot read script\n"),
    ];
    for (script, wanted) in cases {
        let failing = Failing {
            rest: script.as_bytes(),
        };
        let mut reader = BufReader::with_capacity(alloc, 4, failing)?;
        let mut printed = Vec::new(alloc);
        let status = play(alloc, &mut reader, &mut printed)?;
        assert!(&rt; printed.as_slice() == wanted.as_bytes(), "{script}");
        assert!(&rt; status == Status::Refused, "{script}");
    }
    Ok(())
}

#[test]
fn a_write_that_fails_ends_the_run(rt: HostRuntime) -> Result<(), Fail> {
    let alloc = rt.alloc();
    let mut reader = b"hives 1\ncreate 0:A\nkeys 0:\n".as_slice();
    let mut full = Full {
        taken: Vec::new(alloc),
        left: 1,
    };
    assert!(&rt; play(alloc, &mut reader, &mut full).is_err());
    // the third line was not read
    assert!(&rt; reader == b"keys 0:\n".as_slice());
    Ok(())
}

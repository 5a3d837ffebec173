//! Sessions that echo over frames in memory, and frames that aren't due.
use crate::desks::pipes::{Pipe, PipeReader, Service};
use client_desks::{
    Arrival, Desk, DeskReader, DeskWriter, Desks, FramesEnd, InputEnd, read_frames,
};
use client_frames::{Frame, read_frame};
use std::alloc::{AllocError, Global};
use std::io::{self, BufRead, BufReader, Write};
use std::sync::Wait;
use std::test::Fail;
use std::thread::{Threads, join};

// what a session did
#[derive(Drop)]
struct Session {
    end: Option<InputEnd>,
    lines: u64,
}

// hands each line back, up to the end
fn echo<R: Wait + Print>(rt: &R, alloc: Global, desk: Desk<'_>) -> io::Result<Session> {
    let mut reader = BufReader::new(alloc, DeskReader::new(rt, alloc, desk))?;
    let mut writer = DeskWriter::new(rt, alloc, desk);
    let mut line = Vec::new(alloc);
    let mut lines = 0;
    'lines: for _ in 0..u64::MAX {
        line.clear();
        if reader.read_until(b'\n', &mut line)? == 0 {
            break;
        }
        lines += 1;
        if desk.is_over(rt) {
            break;
        }
        writer.write_all(&line)?;
        if !desk.has_line(rt) {
            writer.flush()?;
        }
    }
    let _ = writer.flush();
    let end = reader.get_ref().end();
    Ok(Session { end, lines })
}

// serves the clients of a place, one after the other, up to a stop; answers how many
fn serve<R: Wait + Print>(rt: &R, alloc: Global, desk: Desk<'_>) -> u64 {
    let mut served = 0;
    'clients: for _ in 0..u64::MAX {
        match desk.wait(rt) {
            Arrival::Client | Arrival::Resumed { .. } => {
                let _ = echo(rt, alloc, desk);
                desk.clear(rt);
                served += 1;
            }
            Arrival::Rest | Arrival::Stop => break,
        }
    }
    served
}

// a frame as text
fn told(alloc: Global, frame: &Frame) -> Result<String, AllocError> {
    match frame {
        Frame::Ready => format!(in alloc; "ready"),
        Frame::Open { place } => format!(in alloc; "open {}", place.number()),
        Frame::Data { place, piece } => {
            let text = str::from_utf8(piece.bytes()).unwrap_or("?");
            format!(in alloc; "data {} {text:?}", place.number())
        }
        Frame::More { place } => format!(in alloc; "more {}", place.number()),
        Frame::End { place } => format!(in alloc; "end {}", place.number()),
        Frame::Gone { place } => format!(in alloc; "gone {}", place.number()),
    }
}

/// What the broker says, and what it has to be told then.
pub type Turn = (&'static [u8], &'static [&'static str]);

/// A client's talk with the program: answers what it was told instead, at the first difference.
pub fn talk<R: Wait>(
    rt: &R,
    alloc: Global,
    input: &Pipe,
    output: &Pipe,
    words: &[Turn],
) -> io::Result<Option<String>> {
    let mut reader = BufReader::new(alloc, PipeReader { rt, pipe: output })?;
    for (said, wanted) in words {
        input.put(rt, said)?;
        for text in *wanted {
            let heard = match read_frame(alloc, &mut reader) {
                Ok(frame) => told(alloc, &frame)?,
                Err(why) => format!(in alloc; "{why:?}")?,
            };
            if heard.as_str() != *text {
                return Ok(Some(heard));
            }
        }
    }
    Ok(None)
}

// plays a talk with sessions that echo at two desks; answers how the frames ended, and the first difference
fn play<R: Threads + Wait + Sync>(
    rt: &R,
    alloc: Global,
    words: &[Turn],
) -> Result<(FramesEnd, Option<String>, u64), Fail> {
    let input = Pipe::new(alloc);
    let output = Pipe::new(alloc);
    let service = Service {
        rt,
        output: &output,
    };
    let desks = Desks::new(alloc, 2)?;
    let (Some(first), Some(second)) = (desks.desk(0), desks.desk(1)) else {
        return Err(Fail::from("no desk"));
    };
    desks.write_ready(&service)?;
    let frames = || {
        let Ok(mut reader) = BufReader::new(alloc, PipeReader { rt, pipe: &input }) else {
            return FramesEnd::NoMemory;
        };
        let end = read_frames(&service, alloc, &desks, &mut reader);
        output.close(rt);
        end
    };
    let sessions = || {
        let (one, other) = join(
            rt,
            || serve(&service, alloc, first),
            || serve(&service, alloc, second),
        );
        one + other
    };
    let broker = || {
        let difference = talk(rt, alloc, &input, &output, words);
        input.close(rt);
        difference
    };
    let ((end, served), difference) = join(rt, || join(rt, frames, sessions), broker);
    Ok((end, difference?, served))
}

#[test]
fn sessions_echo_whole_lines(rt: HostRuntime) -> Result<(), Fail> {
    let alloc = rt.alloc();
    let words: [Turn; 9] = [
        (b"open 0\ndata 0 3\nhel", &["ready", "more 0"]),
        (b"data 0 6\nlo\nwor", &["more 0", "data 0 \"hello\\n\""]),
        (
            b"open 1\ndata 1 4\na\nb\n",
            &["more 1", "data 1 \"a\\nb\\n\""],
        ),
        // a reply waits until the one before was handed on
        (b"data 0 3\nld\n", &["more 0"]),
        (b"more 0\n", &["data 0 \"world\\n\""]),
        (
            b"data 1 2\nc\nend 1\nmore 1\n",
            &["more 1", "data 1 \"c\\n\"", "end 1"],
        ),
        // what crosses the end is thrown away, and another client takes the place
        (
            b"more 1\ngone 1\nopen 1\ndata 1 2\nd\n",
            &["more 1", "data 1 \"d\\n\""],
        ),
        (b"gone 1\n", &["end 1"]),
        (b"more 0\nend 0\n", &["end 0"]),
    ];
    let (end, difference, served) = play(&rt, alloc, &words)?;
    assert!(&rt; difference.is_none(), "{difference:?}");
    assert_eq!(&rt; end, FramesEnd::Ended);
    assert_eq!(&rt; served, 3);
    Ok(())
}

#[test]
fn half_a_line_is_not_handed_out(rt: HostRuntime) -> Result<(), Fail> {
    let alloc = rt.alloc();
    let words: [Turn; 2] = [
        (
            b"open 0\ndata 0 3\na\nb",
            &["ready", "more 0", "data 0 \"a\\n\""],
        ),
        (b"more 0\nend 0\n", &["end 0"]),
    ];
    let (end, difference, _) = play(&rt, alloc, &words)?;
    assert!(&rt; difference.is_none(), "{difference:?}");
    assert_eq!(&rt; end, FramesEnd::Ended);
    Ok(())
}

// frames that are read to their end
const WHOLE: [&[u8]; 6] = [
    b"",
    b"open 0\n",
    b"open 0\nopen 1\ndata 0 1\nadata 1 2\nbc",
    b"open 0\nend 0\n",
    b"open 0\nend 0\ngone 0\n",
    b"open 1\ndata 1 1\nagone 1\n",
];

// frames of which one is none, or isn't due, with two places
const WRONG: [&[u8]; 17] = [
    b"ready\n",
    b"open 2\n",
    b"open 30\n",
    b"opens 0\n",
    b"open 0\nopen 0\n",
    b"data 0 1\na",
    b"more 0\n",
    b"end 0\n",
    b"gone 0\n",
    b"open 0\nmore 0\n",
    b"open 0\ndata 0 1\nadata 0 1\nb",
    b"open 0\ndata 0 2\na",
    b"open 0\nend 0\ndata 0 1\na",
    b"open 0\nend 0\nend 0\n",
    b"open 0\ngone 0\ngone 0\n",
    b"open 0\ngone 0\nend 0\n",
    b"open 0\ngone 0\nopen 0\n",
];

#[test]
fn frames_out_of_turn_are_refused(rt: HostRuntime) -> Result<(), Fail> {
    let alloc = rt.alloc();
    let tries = WHOLE.iter().map(|bytes| (*bytes, FramesEnd::Ended));
    let wrong = WRONG.iter().map(|bytes| (*bytes, FramesEnd::Broken));
    for (bytes, wanted) in tries.chain(wrong) {
        let desks = Desks::new(alloc, 2)?;
        let mut reader = bytes;
        let end = read_frames(&rt, alloc, &desks, &mut reader);
        assert!(&rt; end == wanted, "{bytes:?}");
        let Some(desk) = desks.desk(0) else {
            return Err(Fail::from("no desk"));
        };
        assert!(&rt; desk.wait(&rt) == Arrival::Stop);
    }
    Ok(())
}

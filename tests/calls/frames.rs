//! Frames between a broker and the program: their bytes, what is none, and streams that break off.
use client_frames::{ClientPlace, Frame, FrameError, PIECE_BYTES, Piece, read_frame, write_frame};
use std::alloc::{AllocError, Global};
use std::io;
use std::io::{BufReader, Read, Write};
use std::process::Abort;
use std::test::Fail;

// heads that are none, each before bytes that would do
const WRONG: [&[u8]; 36] = [
    b"\n",
    b"ready \n",
    b"ready 1\n",
    b"READY\n",
    b"opens 1\n",
    b"open\n",
    b"open \n",
    b"open 31\n",
    b"open 255\n",
    b"open 256\n",
    b"open 01\n",
    b"open 00\n",
    b"open  1\n",
    b"open 1 \n",
    b" open 1\n",
    b"open +1\n",
    b"open -1\n",
    b"open 1x\n",
    b"open 1\r\n",
    b"open\t1\n",
    b"open 1 2\n",
    b"more 31\n",
    b"end\n",
    b"gone 99\n",
    b"data 1\nhello",
    b"data 1 \nhello",
    b"data 1 0\nhello",
    b"data 1 05\nhello",
    b"data 1 65537\nhello",
    b"data 1 -5\nhello",
    b"data 1 5 5\nhello",
    b"data 31 5\nhello",
    b"data 1 9999999\nhello",
    b"data 30 655360\nhello",
    b"data 00000000001 5\nhello",
    b"create 0:Software",
];

// inputs that end inside of a frame
const CUT: [&[u8]; 9] = [
    b"r",
    b"ready",
    b"open 1",
    b"data 3 5",
    b"data 3 5\n",
    b"data 3 5\nhell",
    b"data 30 65536\nx",
    b"xyz",
    b"data 30 655",
];

fn place(rt: &impl Abort, number: u8) -> ClientPlace {
    ClientPlace::new(number).expect(rt, "a place")
}

fn data(rt: &impl Abort, alloc: Global, number: u8, text: &[u8]) -> Result<Frame, AllocError> {
    let piece = Piece::new(text.to_vec(alloc)?);
    Ok(Frame::Data {
        place: place(rt, number),
        piece,
    })
}

// a frame as text
fn told(alloc: Global, frame: &Frame) -> Result<String, AllocError> {
    match frame {
        Frame::Ready => format!(in alloc; "ready"),
        Frame::Open { place } => format!(in alloc; "open {}", place.number()),
        Frame::Data { place, piece } => {
            let bytes = piece.bytes();
            format!(in alloc; "data {} {bytes:?}", place.number())
        }
        Frame::More { place } => format!(in alloc; "more {}", place.number()),
        Frame::End { place } => format!(in alloc; "end {}", place.number()),
        Frame::Gone { place } => format!(in alloc; "gone {}", place.number()),
    }
}

#[test]
fn frames_have_these_bytes(rt: HostRuntime) -> Result<(), Fail> {
    let alloc = rt.alloc();
    let frames = [
        (Frame::Ready, b"ready\n".as_slice()),
        (
            Frame::Open {
                place: place(&rt, 0),
            },
            b"open 0\n",
        ),
        (data(&rt, alloc, 7, b"ab\n")?, b"data 7 3\nab\n"),
        (
            Frame::More {
                place: place(&rt, 30),
            },
            b"more 30\n",
        ),
        (
            Frame::End {
                place: place(&rt, 12),
            },
            b"end 12\n",
        ),
        (
            Frame::Gone {
                place: place(&rt, 3),
            },
            b"gone 3\n",
        ),
    ];
    for (frame, bytes) in &frames {
        let mut written = Vec::new(alloc);
        write_frame(&mut written, frame)?;
        assert!(&rt; written.as_slice() == *bytes);
    }
    Ok(())
}

#[test]
fn frames_are_read_one_after_the_other(rt: HostRuntime) -> Result<(), Fail> {
    let alloc = rt.alloc();
    let bytes = b"ready\nopen 0\ndata 7 3\nab\ndata 30 1\n\nmore 30\nend 12\ngone 3\n";
    let wanted = [
        "ready",
        "open 0",
        "data 7 [97, 98, 10]",
        "data 30 [10]",
        "more 30",
        "end 12",
        "gone 3",
    ];
    let mut reader = bytes.as_slice();
    for text in wanted {
        let Ok(frame) = read_frame(alloc, &mut reader) else {
            return Err(Fail::from("no frame"));
        };
        assert!(&rt; told(alloc, &frame)?.as_str() == text, "{text}");
    }
    assert!(&rt; read_frame(alloc, &mut reader).err() == Some(FrameError::Ended));
    Ok(())
}

#[test]
fn heads_that_are_none_are_refused(rt: HostRuntime) {
    for bytes in WRONG {
        let mut reader = bytes;
        let refused = read_frame(rt.alloc(), &mut reader).err();
        assert!(&rt; refused == Some(FrameError::NotFrame), "{bytes:?}");
    }
}

#[test]
fn inputs_that_end_in_a_frame_are_broken(rt: HostRuntime) {
    for bytes in CUT {
        let mut reader = bytes;
        let refused = read_frame(rt.alloc(), &mut reader).err();
        assert!(&rt; refused == Some(FrameError::Broken), "{bytes:?}");
    }
}

#[test]
fn the_longest_piece_is_read_back(rt: HostRuntime) -> Result<(), Fail> {
    let alloc = rt.alloc();
    let bytes = vec![in alloc; 10u8; PIECE_BYTES]?;
    let mut written = Vec::new(alloc);
    let frame = data(&rt, alloc, 30, bytes.as_slice())?;
    write_frame(&mut written, &frame)?;
    assert_eq!(&rt; written.len(), 65_550);
    written.extend_from_slice(b"more 1\n")?;
    let mut reader = written.as_slice();
    let Ok(Frame::Data { place, piece }) = read_frame(alloc, &mut reader) else {
        return Err(Fail::from("no data"));
    };
    assert_eq!(&rt; place.number(), 30);
    assert!(&rt; piece.into_bytes().as_slice() == bytes.as_slice());
    assert!(&rt; reader == b"more 1\n".as_slice());
    Ok(())
}

// gives a byte at a time, is interrupted before each, and fails at the end
#[derive(Drop)]
struct Halting<'a> {
    rest: &'a [u8],
    is_interrupted: bool,
}

impl<'a> Read for Halting<'a> {
    fn read(&mut self, buf: &mut [u8]) -> io::Result<usize> {
        self.is_interrupted = !self.is_interrupted;
        if self.is_interrupted {
            return Err(io::Error::from(io::ErrorKind::Interrupted));
        }
        let Some((first, rest)) = self.rest.split_first() else {
            return Err(io::Error::from(io::ErrorKind::BrokenPipe));
        };
        if buf.is_empty() {
            return Ok(0);
        }
        buf[0] = *first;
        self.rest = rest;
        Ok(1)
    }
}

#[test]
fn slow_streams_are_read_until_they_fail(rt: HostRuntime) -> Result<(), Fail> {
    let alloc = rt.alloc();
    for (bytes, frames) in [
        (b"open 1\ndata 1 5\nhello".as_slice(), 2),
        (b"open 1\ndata 1 5\nhel", 1),
        (b"ope", 0),
    ] {
        let halting = Halting {
            rest: bytes,
            is_interrupted: false,
        };
        let mut reader = BufReader::with_capacity(alloc, 3, halting)?;
        for _ in 0..frames {
            assert!(&rt; read_frame(alloc, &mut reader).is_ok(), "{bytes:?}");
        }
        assert!(&rt;
            read_frame(alloc, &mut reader).err() == Some(FrameError::Unreadable),
            "{bytes:?}"
        );
    }
    Ok(())
}

// takes so many bytes, and then fails
#[derive(Drop)]
struct Narrow {
    left: usize,
}

impl Write for Narrow {
    fn write(&mut self, buf: &[u8]) -> io::Result<usize> {
        if self.left < buf.len() {
            return Err(io::Error::from(io::ErrorKind::BrokenPipe));
        }
        self.left -= buf.len();
        Ok(buf.len())
    }

    fn flush(&mut self) -> io::Result<()> {
        Ok(())
    }
}

#[test]
fn a_write_that_fails_is_told(rt: HostRuntime) -> Result<(), Fail> {
    let frame = data(&rt, rt.alloc(), 1, b"hello")?;
    for left in 0..14 {
        assert!(&rt;
            write_frame(&mut Narrow { left }, &frame).is_err(),
            "{left}"
        );
    }
    assert!(&rt; write_frame(&mut Narrow { left: 14 }, &frame).is_ok());
    Ok(())
}

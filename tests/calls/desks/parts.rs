//! Lines of pieces, pieces of replies, and units of work.
use client_desks::{
    LINE_BYTES, LineBuffer, NextLine, PieceSink, PieceWriter, UnitRefusal, UnitTable, Units,
};
use client_frames::{ClientPlace, PIECE_BYTES, Piece};
use std::alloc::Global;
use std::io::{self, ErrorKind, Write};
use std::process::Abort;
use std::test::Fail;
use uuid::Uuid;

// the lines of these bytes come out as they stand there, in pieces of so many bytes; the last one has no line feed
fn come_out(alloc: Global, bytes: &[u8], size: usize) -> Result<bool, Fail> {
    let mut buffer = LineBuffer::new(alloc);
    let mut line = Vec::new(alloc);
    let mut wanted = bytes.split(|byte| *byte == b'\n');
    for piece in bytes.chunks(size) {
        buffer.append(piece)?;
        'lines: for _ in 0..piece.len() {
            if buffer.take_line(&mut line)? != NextLine::Whole {
                break;
            }
            let Some(text) = wanted.next() else {
                return Ok(false);
            };
            if line.last() != Some(&b'\n') || &line[..line.len() - 1] != text {
                return Ok(false);
            }
        }
    }
    let rest = wanted.next().is_some() && wanted.next().is_none();
    Ok(rest && !buffer.has_line_feed())
}

#[test]
fn lines_come_out_of_pieces(rt: HostRuntime) -> Result<(), Fail> {
    let bytes = b"keys 0:\n\nset 0:A v 4 01000000\n\n\nget 0:A v\nhalf a line";
    for size in 1..bytes.len() + 1 {
        assert!(&rt; come_out(rt.alloc(), bytes, size)?, "{size}");
    }
    Ok(())
}

// what stands first after so many bytes without a line feed, and perhaps one
fn first(alloc: Global, count: usize, is_ended: bool) -> Result<NextLine, Fail> {
    let mut buffer = LineBuffer::new(alloc);
    buffer.append(vec![in alloc; b'x'; count]?.as_slice())?;
    if is_ended {
        buffer.append(b"\n")?;
    }
    let mut line = Vec::new(alloc);
    Ok(buffer.take_line(&mut line)?)
}

#[test]
fn longer_lines_are_too_long(rt: HostRuntime) -> Result<(), Fail> {
    let alloc = rt.alloc();
    assert!(&rt; LINE_BYTES == 4_194_304);
    assert!(&rt; first(alloc, LINE_BYTES, false)? == NextLine::Part);
    assert!(&rt; first(alloc, LINE_BYTES, true)? == NextLine::Whole);
    assert!(&rt; first(alloc, LINE_BYTES + 1, false)? == NextLine::TooLong);
    assert!(&rt; first(alloc, LINE_BYTES + 1, true)? == NextLine::TooLong);
    Ok(())
}

// keeps the bytes of the pieces that it takes, and how many each has; it can be closed
#[derive(Drop)]
struct KeptPieces {
    bytes: Vec<u8>,
    lengths: Vec<usize>,
    is_closed: bool,
}

impl PieceSink for KeptPieces {
    fn send(&mut self, piece: Piece) -> (Piece, io::Result<()>) {
        if self.is_closed {
            return (piece, Err(ErrorKind::BrokenPipe.into()));
        }
        let kept = self.bytes.extend_from_slice(piece.bytes()).is_ok()
            && self.lengths.push(piece.bytes().len()).is_ok();
        match kept {
            true => (piece, Ok(())),
            false => (piece, Err(ErrorKind::OutOfMemory.into())),
        }
    }
}

fn kept_pieces(alloc: Global) -> PieceWriter<KeptPieces> {
    let sink = KeptPieces {
        bytes: Vec::new(alloc),
        lengths: Vec::new(alloc),
        is_closed: false,
    };
    PieceWriter::over(alloc, sink)
}

#[test]
fn replies_go_in_pieces(rt: HostRuntime) -> Result<(), Fail> {
    let alloc = rt.alloc();
    let mut bytes = Vec::new(alloc);
    for number in 0..20_000 {
        write!(bytes, "created {number}\n")?;
    }
    for size in [1_000, PIECE_BYTES, 200_000] {
        let mut writer = kept_pieces(alloc);
        for part in bytes.chunks(size) {
            writer.write_all(part)?;
        }
        writer.flush()?;
        writer.flush()?;
        assert!(&rt; writer.sink.bytes == bytes, "{size}");
        let count = bytes.len() / PIECE_BYTES;
        assert!(&rt; writer.sink.lengths.len() == count + 1);
        assert!(&rt;
            writer.sink.lengths[..count]
                .iter()
                .all(|len| *len == PIECE_BYTES)
        );
    }
    Ok(())
}

#[test]
fn a_piece_that_is_refused_is_kept(rt: HostRuntime) -> Result<(), Fail> {
    let mut writer = kept_pieces(rt.alloc());
    writer.sink.is_closed = true;
    writer.write_all(b"ok\n")?;
    let refused = writer.flush();
    assert!(&rt; refused.is_err_and(|why| why.kind() == ErrorKind::BrokenPipe));
    writer.sink.is_closed = false;
    writer.write_all(b"opened 7\n")?;
    writer.flush()?;
    assert!(&rt; writer.sink.bytes.as_slice() == b"ok\nopened 7\n".as_slice());
    Ok(())
}

fn place(rt: &impl Abort, number: u8) -> ClientPlace {
    ClientPlace::new(number).expect(rt, "a place")
}

#[test]
fn a_unit_has_one_place(rt: HostRuntime) {
    let mut table = UnitTable::new(rt.alloc());
    let (first, second) = (place(&rt, 0), place(&rt, 30));
    let unit = Uuid::from_u128(7);
    let taken = Err(UnitRefusal::Taken);
    assert!(&rt; table.enter(first, unit) == Ok(()));
    assert!(&rt; table.enter(first, unit) == Ok(()));
    assert!(&rt; table.enter(second, unit) == taken);
    assert!(&rt; table.enter(second, Uuid::nil()) == Ok(()));
    assert!(&rt; table.enter(first, Uuid::nil()) == taken);
    // it is left as often as it was entered, and nobody else leaves it
    table.leave(first, unit);
    table.leave(second, unit);
    assert!(&rt; table.enter(second, unit) == taken);
    table.leave(first, unit);
    assert!(&rt; table.enter(second, unit) == Ok(()));
    assert!(&rt; table.enter(first, unit) == taken);
    table.leave_all(second);
    assert!(&rt; table.enter(first, unit) == Ok(()));
    assert!(&rt; table.enter(first, Uuid::nil()) == Ok(()));
    assert!(&rt; table.enter(second, unit) == taken);
}

#[test]
fn units_are_shared(rt: HostRuntime) {
    let units = Units::new(rt.alloc());
    let (first, second) = (place(&rt, 1), place(&rt, 2));
    let unit = Uuid::from_u128(9);
    assert!(&rt; units.enter(&rt, first, unit) == Ok(()));
    assert!(&rt; units.enter(&rt, second, unit) == Err(UnitRefusal::Taken));
    units.leave(&rt, first, unit);
    assert!(&rt; units.enter(&rt, second, unit) == Ok(()));
    units.leave_all(&rt, second);
    assert!(&rt; units.enter(&rt, first, unit) == Ok(()));
}

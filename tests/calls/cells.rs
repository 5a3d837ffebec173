//! A table of calls on images, each with what it is to answer by the format's description.
use hive_cells::{Image, Looks};
use refusals::{Cause, Refusal};
use std::alloc::{AllocError, Global};
use std::test::Fail;

// what an offset is refused with at which no cell is allocated
const BAD_OFFSET: Refusal = Refusal::HiveDamaged {
    hive: 0,
    cause: Cause::BadOffset,
};

// what bins data are refused with that are no whole pages
const TRUNCATED: Refusal = Refusal::HiveDamaged {
    hive: 0,
    cause: Cause::Truncated,
};

// a call on an image, and what it is to answer
#[derive(Clone, Copy)]
enum Step {
    // a cell for data of a length is allocated at an offset
    Takes(usize, u32),
    // a cell for data of a length is allocated
    TakesAny(usize),
    // one of a length is too large
    TooLarge(usize),
    // a cell for 20 bytes is allocated at an offset, and a word written after its first two
    Writes(u32),
    // the cell at an offset is freed, and lies in the free cell that begins at another
    Frees(u32, u32),
    // 300 cells of 64 bytes are allocated and freed, each before an allocated one
    LeavesShort,
    // no cell is allocated at an offset: none is lent, written or freed
    IsNone(u32),
    // the cell at an offset lends this many bytes
    Lends(u32, usize),
    // bytes are at an offset of the data
    Has(usize, &'static [u8]),
    // the data have this many pages
    Pages(usize),
    // memory is reserved for this many bytes of bins
    Reserves(usize),
    // the data are opened as bytes that were read
    Opens,
    // without their last byte they are refused, and given back
    IsCut,
}

const BIN: usize = 4096;

// the word that is written
const WORD: [u8; 8] = *b"registry";

// a new bin's header of 32 bytes, and the size of its first cell
const NEW_BIN: [u8; 36] = [
    b'h', b'b', b'i', b'n', 0, 0, 0, 0, 0, 0x10, 0, 0, 0, 0, 0, 0, 0, 0, 0, 0, 0, 0, 0, 0, 0, 0, 0,
    0, 0, 0, 0, 0, 0xf0, 0xff, 0xff, 0xff,
];

// calls on an image that was empty, and what they show
const SEQUENCES: [(&str, &[Step]); 8] = [
    (
        "a cell for five bytes has sixteen, after the header of a new bin, and the rest is free",
        &[
            Step::Takes(5, 32),
            Step::Takes(5, 48),
            Step::Lends(32, 12),
            Step::Pages(1),
            Step::Has(0, &NEW_BIN),
            Step::Has(64, &[0xc0, 0x0f, 0, 0]),
            Step::IsCut,
        ],
    ),
    (
        "the free cell of read bytes has 4,044 bytes of data, and is found",
        &[
            Step::Takes(12, 32),
            Step::Opens,
            Step::Lends(32, 12),
            Step::IsNone(0),
            Step::IsNone(36),
            Step::IsNone(40),
            Step::IsNone(48),
            Step::IsNone(4096),
            Step::IsNone(0xffff_ffff),
            Step::Reserves(2 * BIN),
            Step::Pages(1),
            Step::Takes(4045, 4128),
            Step::Pages(2),
            Step::Takes(4044, 48),
            Step::Pages(2),
        ],
    ),
    (
        "memory is reserved for bins, and a bin may have several pages",
        &[
            Step::Takes(12, 32),
            Step::Reserves(2 * BIN),
            Step::Pages(1),
            Step::Takes(4100, 4128),
            Step::Pages(3),
        ],
    ),
    (
        "written bytes stay over other changes, and when they are opened again",
        &[
            Step::Takes(20, 32),
            Step::Writes(56),
            Step::Takes(20, 80),
            Step::Frees(32, 32),
            Step::IsNone(32),
            Step::Frees(80, 80),
            Step::TakesAny(8),
            Step::Has(62, &WORD),
            Step::Opens,
            Step::Lends(56, 20),
            Step::Has(62, &WORD),
        ],
    ),
    (
        "a free cell is found among many that are too short",
        &[
            Step::Takes(200, 32),
            Step::LeavesShort,
            Step::Frees(32, 32),
            Step::Takes(200, 32),
        ],
    ),
    (
        "three cells of 104 bytes are freed, and become one free cell of the whole bin",
        &[
            Step::Takes(100, 32),
            Step::Takes(100, 136),
            Step::Takes(100, 240),
            Step::Frees(136, 136),
            Step::Frees(240, 136),
            Step::Frees(32, 32),
            Step::Takes(4056, 32),
            Step::Pages(1),
            Step::Takes(1, 4128),
            Step::TooLarge(67_108_864),
            Step::Pages(2),
        ],
    ),
    (
        "in a bin of five pages the third cell is freed between a free cell of four pages and one after it",
        &[
            Step::Takes(20_000, 32),
            Step::Frees(32, 32),
            Step::Takes(16_000, 32),
            Step::Takes(100, 16_040),
            Step::Takes(100, 16_144),
            Step::Frees(32, 32),
            Step::Frees(16_040, 32),
            Step::Frees(16_144, 32),
            Step::Takes(20_444, 32),
            Step::Pages(5),
        ],
    ),
    (
        "64 MiB are the limit: 16,384 pages",
        &[
            Step::TooLarge(67_108_829),
            Step::Takes(67_108_828, 32),
            Step::Pages(16_384),
            Step::TooLarge(0),
            Step::Frees(32, 32),
            Step::TooLarge(67_108_829),
            Step::Takes(0, 32),
        ],
    ),
];

fn take_and_write(image: &mut Image) -> Result<u32, Refusal> {
    let at = image.alloc(20)?;
    image.write(at, 2, &WORD)?;
    Ok(at)
}

// each cell that is freed has an allocated one after it
fn leave_short(image: &mut Image) -> Result<(), Refusal> {
    for _ in 0..300 {
        let short = image.alloc(60)?;
        image.alloc(4)?;
        image.free(short)?;
    }
    Ok(())
}

// how many bytes a cell lends
fn lent(image: &Image, at: u32) -> Result<usize, Refusal> {
    Ok(image.cell(at, &mut Looks::new())?.len())
}

fn is_none(image: &mut Image, at: u32) -> bool {
    match image.free(at) {
        Ok(_) => false,
        Err(refusal) => {
            refusal == BAD_OFFSET
                && image.write(at, 0, b"") == Err(BAD_OFFSET)
                && lent(image, at) == Err(BAD_OFFSET)
        }
    }
}

fn has(image: &mut Image, at: usize, what: &[u8]) -> bool {
    match image.bytes().get(at..) {
        Some(rest) => rest.starts_with(what),
        None => false,
    }
}

// the image of the same data, opened
fn opened(alloc: Global, image: &mut Image) -> Result<Image, Refusal> {
    let bytes = image.bytes().to_vec(alloc)?;
    Ok(Image::open(alloc, bytes)?)
}

// whether data that lack the last byte are refused, and are given back
fn is_cut(alloc: Global, image: &mut Image) -> Result<bool, AllocError> {
    let mut bytes = image.bytes().to_vec(alloc)?;
    let len = bytes.len().saturating_sub(1);
    bytes.truncate(len);
    match Image::open(alloc, bytes) {
        Ok(_) => Ok(false),
        Err(unopened) => Ok(unopened.refusal == TRUNCATED && unopened.bytes.len() == len),
    }
}

// whether a step that changes an image goes as it is to go
fn changes(image: &mut Image, step: Step) -> bool {
    match step {
        Step::Takes(len, at) => image.alloc(len) == Ok(at),
        Step::TakesAny(len) => image.alloc(len).is_ok(),
        Step::TooLarge(len) => image.alloc(len) == Err(Refusal::TooLarge),
        Step::Writes(at) => take_and_write(image) == Ok(at),
        Step::Frees(at, from) => image.free(at) == Ok(from),
        Step::LeavesShort => leave_short(image).is_ok(),
        Step::Reserves(len) => len <= 2 * BIN && image.reserve(len).is_ok(),
        _ => false,
    }
}

// whether a step goes as it is to go
fn goes(alloc: Global, image: &mut Image, step: Step) -> bool {
    match step {
        Step::IsNone(at) => is_none(image, at),
        Step::Lends(at, len) => lent(image, at) == Ok(len),
        Step::Has(at, what) => has(image, at, what),
        Step::Pages(count) => image.len() == count.saturating_mul(BIN),
        Step::IsCut => is_cut(alloc, image) == Ok(true),
        step => changes(image, step),
    }
}

// the first step that goes otherwise
fn first_wrong(alloc: Global, steps: &[Step]) -> Result<Option<usize>, Refusal> {
    let mut image = Image::open(alloc, Vec::new(alloc))?;
    for (place, step) in steps.iter().enumerate() {
        if let Step::Opens = step {
            image = opened(alloc, &mut image)?;
        } else if !goes(alloc, &mut image, *step) {
            return Ok(Some(place));
        }
    }
    Ok(None)
}

#[test]
fn images_answer_by_the_format(rt: HostRuntime) -> Result<(), Fail> {
    for (shown, steps) in &SEQUENCES {
        assert_eq!(rt; first_wrong(rt.alloc(), steps)?, None, "{shown}");
    }
    Ok(())
}

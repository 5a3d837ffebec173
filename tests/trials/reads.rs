//! How long the longest read is in openings, repairs and runs of stores, on a disk that tells it.
use crate::engine_calls::{
    Answer, MOMENT, SESSION, ask, beginning, engine_on, writing, writing_in,
};
use crate::fault::Fault;
use crate::read_watch::ReadWatch;
use crate::small_stores::{
    Step, TEARS, creation, empty_disk, fresh, left, make_step, make_steps, setting, settle, write,
};
use disk_model::Tear;
use engine::Engine;
use refusals::Refusal;
use refusals::limits::MOST_JOURNAL_BYTES;
use std::alloc::Global;
use store_model::{Event, Progress};

// a read asks for so many bytes at most
const PIECE: usize = 65_536;

// the steps of a batch, and of a flush of one page
const BATCH: u32 = 4;

const FLUSH: u32 = 8;

/// Opens stores and makes changes of them. Prints how many bytes the longest read asked for, and all reads gave.
pub(crate) fn run<R: Print>(rt: &R, alloc: Global) -> Result<(), Fault> {
    tell(rt, "cut commits", cut_commits(alloc)?)?;
    tell(rt, "commits and trims", commits(alloc)?)?;
    tell(rt, "single pages", pages(alloc, 2_000)?)?;
    tell(rt, "long runs of pages", pages(alloc, 200_000)?)?;
    tell(rt, "a full journal", full_journal(alloc)?)
}

fn tell<R: Print>(rt: &R, what: &str, seen: Reads) -> Result<(), Fault> {
    let Reads { longest, total } = seen;
    println!(rt; "{what}: longest read {longest} bytes, {total} bytes read")?;
    if longest > PIECE || total == 0 {
        return Err(Fault::Otherwise("a longer read"));
    }
    Ok(())
}

// what was read of some disks
#[derive(Clone, Copy)]
struct Reads {
    longest: usize,
    total: u64,
}

impl Reads {
    fn none() -> Reads {
        Reads {
            longest: 0,
            total: 0,
        }
    }

    // also what was read of a disk
    fn see(&mut self, disk: &ReadWatch) {
        self.longest = self.longest.max(disk.longest());
        self.total = self.total.saturating_add(disk.total());
    }

    // also what an opening, with its repair, reads of what a crash now leaves
    fn see_left(
        &mut self,
        alloc: Global,
        engine: &Engine<ReadWatch>,
        tear: Tear,
    ) -> Result<(), Fault> {
        let disk = left(alloc, engine.disk().disk(), tear)?;
        self.see(engine_on(alloc, ReadWatch::new(disk))?.disk());
        Ok(())
    }

    // the same with each tear
    fn see_each(&mut self, alloc: Global, engine: &Engine<ReadWatch>) -> Result<(), Fault> {
        for tear in TEARS {
            self.see_left(alloc, engine, tear)?;
        }
        Ok(())
    }
}

fn watched(alloc: Global, hives: usize) -> Result<Engine<ReadWatch>, Fault> {
    if hives == 0 || hives > 2 {
        return Err(Fault::NotUnderstood);
    }
    fresh(alloc, ReadWatch::new(empty_disk(alloc)?), hives)
}

// a transaction that creates a key in each of some hives, and is committed
fn commit(alloc: Global, engine: &mut Engine<ReadWatch>, keys: &[(u8, u8)]) -> Result<(), Fault> {
    let Answer::Begun(tx) = ask(engine, beginning()) else {
        return Err(Fault::Otherwise("no transaction"));
    };
    for (hive, letter) in keys {
        ask(engine, writing_in(tx, creation(alloc, *hive, *letter)?));
    }
    let asked = Event::CommitAccept {
        session: SESSION,
        tx,
        moment: MOMENT,
    };
    match ask(engine, asked) {
        Answer::Awaits(_) => Ok(()),
        _ => Err(Fault::Otherwise("no commit")),
    }
}

// a commit over two hives, cut after each step of its batch
fn cut_commits(alloc: Global) -> Result<Reads, Fault> {
    let mut seen = Reads::none();
    let mut engine = watched(alloc, 2)?;
    commit(alloc, &mut engine, &[(0, b'A'), (1, b'B')])?;
    seen.see_each(alloc, &engine)?;
    for _step in 0..BATCH {
        make_step(&mut engine, Step::Journal)?;
        seen.see_each(alloc, &engine)?;
    }
    seen.see(engine.disk());
    Ok(seen)
}

// two hives that are changed and flushed, and that of outcomes, with commits, and a trim, cut after each of its steps
fn commits(alloc: Global) -> Result<Reads, Fault> {
    let mut seen = Reads::none();
    let mut engine = watched(alloc, 2)?;
    write(&mut engine, creation(alloc, 0, b'A')?)?;
    write(&mut engine, creation(alloc, 0, b'B')?)?;
    make_steps(&mut engine, Step::Journal, BATCH)?;
    make_steps(&mut engine, Step::Flush(0), FLUSH)?;
    write(&mut engine, creation(alloc, 1, b'C')?)?;
    commit(alloc, &mut engine, &[(1, b'D')])?;
    make_steps(&mut engine, Step::Journal, BATCH)?;
    make_steps(&mut engine, Step::Flush(1), FLUSH)?;
    write(&mut engine, creation(alloc, 0, b'E')?)?;
    seen.see_each(alloc, &engine)?;
    make_steps(&mut engine, Step::Journal, BATCH)?;
    seen.see_each(alloc, &engine)?;
    settle(&mut engine, Step::Flush(0))?;
    settle(&mut engine, Step::Flush(2))?;
    seen.see_each(alloc, &engine)?;
    for wanted in [Progress::More, Progress::Done] {
        if make_step(&mut engine, Step::Trim)? != wanted {
            return Err(Fault::Otherwise("no trim"));
        }
        seen.see_each(alloc, &engine)?;
    }
    seen.see(engine.disk());
    Ok(seen)
}

// the values of three keys, whose middle byte is set
fn set_three(
    alloc: Global,
    engine: &mut Engine<ReadWatch>,
    len: usize,
    byte: u8,
) -> Result<(), Fault> {
    let mut bytes = vec![in alloc; 0x5au8; len]?;
    if let Some(middle) = bytes.get_mut(len / 2) {
        *middle = byte;
    }
    for letter in [b'A', b'B', b'C'] {
        write(engine, setting(alloc, 0, letter, &bytes)?)?;
    }
    settle(engine, Step::Journal)
}

// a hive in which a byte of each of three values of this length changes, cut after each step of its flush
fn pages(alloc: Global, len: usize) -> Result<Reads, Fault> {
    let mut seen = Reads::none();
    let mut engine = watched(alloc, 1)?;
    for letter in [b'A', b'B', b'C'] {
        write(&mut engine, creation(alloc, 0, letter)?)?;
    }
    set_three(alloc, &mut engine, len, 1)?;
    see_flush(alloc, &mut engine, &mut seen)?;
    set_three(alloc, &mut engine, len, 2)?;
    see_flush(alloc, &mut engine, &mut seen)?;
    seen.see(engine.disk());
    Ok(seen)
}

// more steps than such a flush takes
const MANY: u32 = 100;

// makes the steps of a flush, and opens what a crash leaves after each
fn see_flush(alloc: Global, engine: &mut Engine<ReadWatch>, seen: &mut Reads) -> Result<(), Fault> {
    for _step in 0..MANY {
        if make_step(engine, Step::Flush(0))? == Progress::Idle {
            return Ok(());
        }
        seen.see_each(alloc, engine)?;
    }
    Err(Fault::Otherwise("more steps"))
}

// the values that fill the journal's room beside a key's creation: each takes 50 bytes beside its data
const WHOLE: u32 = 63;

const WHOLE_BYTES: usize = 1_048_576;

const LAST_BYTES: usize = 1_045_272;

// a journal that is full to the byte, and what is left of it, once its changes are flushed and it is trimmed
fn full_journal(alloc: Global) -> Result<Reads, Fault> {
    let mut seen = Reads::none();
    let mut engine = watched(alloc, 1)?;
    fill(alloc, &mut engine)?;
    settle(&mut engine, Step::Journal)?;
    seen.see_left(alloc, &engine, Tear::Old)?;
    settle(&mut engine, Step::Flush(0))?;
    settle(&mut engine, Step::Trim)?;
    write(&mut engine, creation(alloc, 0, b'L')?)?;
    seen.see_left(alloc, &engine, Tear::Old)?;
    seen.see(engine.disk());
    if seen.total < MOST_JOURNAL_BYTES {
        return Err(Fault::Otherwise("a journal that isn't read"));
    }
    Ok(seen)
}

fn fill(alloc: Global, engine: &mut Engine<ReadWatch>) -> Result<(), Fault> {
    write(engine, creation(alloc, 0, b'K')?)?;
    let bytes = vec![in alloc; 0x5au8; WHOLE_BYTES]?;
    for _value in 0..WHOLE {
        write(engine, setting(alloc, 0, b'K', &bytes)?)?;
    }
    let last = bytes.get(..LAST_BYTES).unwrap_or(&bytes);
    write(engine, setting(alloc, 0, b'K', last)?)?;
    match ask(engine, writing(creation(alloc, 0, b'L')?)) {
        Answer::Refused(Refusal::JournalFull) if engine.room() == MOST_JOURNAL_BYTES => Ok(()),
        _ => Err(Fault::Otherwise("a journal that isn't full")),
    }
}

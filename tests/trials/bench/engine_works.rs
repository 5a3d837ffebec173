//! What is asked of an engine again and again.
use crate::bench::now;
use crate::bench::stores::{
    data_of, filled, journal_all, name_of, path_of, set, setting, settle_all,
};
use crate::engine_calls::{Answer, MOMENT, SESSION, ask, beginning, writing_in};
use crate::fault::Fault;
use crate::words::EngineWork;
use disk_model::MemDisk;
use engine::Engine;
use reg_tree::{Data, Op};
use std::alloc::Global;
use std::time::CpuClock;
use store_model::{Event, Question, Tx};

// the hives of the store
const HIVES: u8 = 2;

// the bytes of each value
const VALUE_BYTES: u32 = 16;

// the number of changes between two flushes
const A_FLUSH: u32 = 10_000;

/// Times `count` repetitions of a work, over a store whose files have all, and prints the time.
pub(crate) fn time<R: Print + CpuClock>(
    rt: &R,
    alloc: Global,
    kind: EngineWork,
    count: u32,
) -> Result<(), Fault> {
    let mut engine = filled(alloc, HIVES)?;
    let data = data_of(alloc, VALUE_BYTES)?;
    time_on(rt, alloc, &mut engine, &data, kind, count)
}

fn time_on<R: Print + CpuClock>(
    rt: &R,
    alloc: Global,
    engine: &mut Engine<MemDisk>,
    data: &Data,
    kind: EngineWork,
    count: u32,
) -> Result<(), Fault> {
    let start = now(rt)?;
    match kind {
        EngineWork::Writes => writes(alloc, engine, data, count)?,
        EngineWork::Commits => commits(alloc, engine, data, count)?,
        EngineWork::Reads => reads(alloc, engine, data, count)?,
        EngineWork::Held => held(alloc, engine, data, count)?,
    }
    let took = now(rt)?.saturating_sub(start);
    println!(rt; "{took}")?;
    Ok(())
}

fn writes(
    alloc: Global,
    engine: &mut Engine<MemDisk>,
    data: &Data,
    count: u32,
) -> Result<(), Fault> {
    for number in 0..count {
        set(engine, alloc, 0, number, data)?;
    }
    Ok(())
}

fn commits(
    alloc: Global,
    engine: &mut Engine<MemDisk>,
    data: &Data,
    count: u32,
) -> Result<(), Fault> {
    for number in 0..count {
        commit_one(alloc, engine, data, number)?;
    }
    Ok(())
}

// a transaction of a write in each hive, up to its receipt, and closed
fn commit_one(
    alloc: Global,
    engine: &mut Engine<MemDisk>,
    data: &Data,
    number: u32,
) -> Result<(), Fault> {
    let Answer::Begun(tx) = ask(engine, beginning()) else {
        return Err(Fault::Otherwise("no transaction"));
    };
    for hive in 0..HIVES {
        write_in(engine, tx, setting(alloc, hive, number, data)?)?;
    }
    commit(engine, tx)?;
    let session = SESSION;
    ask(engine, Event::Close { session, tx });
    Ok(())
}

fn write_in(engine: &mut Engine<MemDisk>, tx: Tx, op: Op) -> Result<(), Fault> {
    match ask(engine, writing_in(tx, op)) {
        Answer::Added => Ok(()),
        _ => Err(Fault::Otherwise("no write in a transaction")),
    }
}

// commits a transaction, and journals it until its receipt
fn commit(engine: &mut Engine<MemDisk>, tx: Tx) -> Result<(), Fault> {
    let accept = Event::CommitAccept {
        session: SESSION,
        tx,
        moment: MOMENT,
    };
    let Answer::Awaits(number) = ask(engine, accept) else {
        return Err(Fault::Otherwise("no commit"));
    };
    journal_all(engine)?;
    match ask(engine, Event::Acked { number }) {
        Answer::Receipt(_) => Ok(()),
        _ => Err(Fault::Otherwise("no receipt")),
    }
}

// reads a value of hive 0 that is set first
fn reads(
    alloc: Global,
    engine: &mut Engine<MemDisk>,
    data: &Data,
    count: u32,
) -> Result<(), Fault> {
    set(engine, alloc, 0, 0, data)?;
    for _number in 0..count {
        read(alloc, engine)?;
    }
    Ok(())
}

fn read(alloc: Global, engine: &mut Engine<MemDisk>) -> Result<(), Fault> {
    let event = Event::Read {
        session: SESSION,
        hive: 0,
        path: path_of(alloc, 0)?,
        question: Question::ValueOf {
            name: name_of(alloc)?,
        },
    };
    match ask(engine, event) {
        Answer::Found(_) => Ok(()),
        _ => Err(Fault::Otherwise("a refused read")),
    }
}

fn held(alloc: Global, engine: &mut Engine<MemDisk>, data: &Data, count: u32) -> Result<(), Fault> {
    for number in 0..count {
        let hive = (number % 2) as u8;
        set(engine, alloc, hive, number, data)?;
        if number % A_FLUSH == A_FLUSH - 1 {
            settle_all(engine, HIVES)?;
        }
    }
    settle_all(engine, HIVES)
}

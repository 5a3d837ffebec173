//! Reads of many threads, by themselves or while another thread writes.
//!
//! No flusher runs: the images are written before, and stay as they are while the threads read.
use crate::calls::{Calls, key};
use crate::commits::print_latencies;
use crate::latencies::{Percentiles, nanos_of};
use crate::store::HIVES;
use crate::tally::Tally;
use crate::trouble::Trouble;
use crate::words::Plan;
use histories::Start;
use ktm_calls::{Key, Registry, Session};
use refusals::Refusal;
use reg_tree::Data;
use shared_store::{Worker, run_workers};
use std::alloc::Global;
use std::io;
use std::sync::atomic::{AtomicU64, Ordering};
use std::sync::{Mutex, Wait};
use std::thread::Threads;
use std::time::{Clock, Duration, Instant};
use store_engine::StoreEngine;

// the keys that are read, and the values of each
const KEYS: u32 = 10_000;

const VALUES: u32 = 10;

// the keys of one transaction that fills the store, and the writes between two flushes of the one that writes
const BATCH: u32 = 500;

const VALUE_BYTES: usize = 50;

/// Whether a thread writes while others read.
#[derive(Clone, Copy, PartialEq, Eq)]
pub enum Writing {
    /// None does.
    None,
    /// One does.
    Beside,
}

// what each thread does: the last one writes if one is to, the others read
struct Reader {
    alloc: Global,
    plan: Plan,
    keys: Vec<Key>,
    // how many threads still read
    reading: AtomicU64,
    // how many values were written
    writes: AtomicU64,
    tally: Mutex<Tally>,
}

// what was measured
struct Measured {
    took: Duration,
    writes: u64,
    nanos: Vec<u64>,
}

/// Reads of so many threads, and prints how long they took.
pub fn measure_reads<
    E: StoreEngine + Send,
    O: Start + Send + Sync,
    R: Print + Clock + Wait + Threads + Sync,
>(calls: &Calls<'_, E, O, R>, plan: Plan, writing: Writing) -> Result<(), Trouble> {
    let keys = filled(calls)?;
    let reader = Reader {
        alloc: calls.alloc,
        plan,
        keys,
        reading: AtomicU64::new(plan.threads as u64),
        writes: AtomicU64::new(0),
        tally: Mutex::new(Tally::new(calls.alloc)),
    };
    let measured = read_timed(calls.rt, calls.registry, reader, writing)?;
    print_reads(calls.rt, plan, measured)?;
    Ok(())
}

fn print_reads<R: Print>(rt: &R, plan: Plan, measured: Measured) -> io::Result<()> {
    let Measured {
        took,
        writes,
        nanos,
    } = measured;
    let mut nanos = nanos;
    let percentiles = Percentiles::of(&mut nanos);
    let seconds = took.as_secs_f64();
    println!(rt;
        "threads {}\nreads {}\nwrites meanwhile {writes}\nseconds {seconds:.3}\nreads a second {:.0}",
        plan.threads,
        plan.count,
        f64::from(plan.count) / seconds
    )?;
    print_latencies(rt, percentiles)
}

// lets the threads read
fn read_timed<E: StoreEngine + Send, O: Start + Send + Sync, R: Clock + Wait + Threads + Sync>(
    rt: &R,
    registry: &Registry<E, O>,
    reader: Reader,
    writing: Writing,
) -> Result<Measured, Trouble> {
    let threads = match writing {
        Writing::None => reader.plan.threads,
        Writing::Beside => reader.plan.threads.saturating_add(1),
    };
    let start = Instant::now(rt);
    run_workers(rt, registry, &reader, threads);
    let Reader {
        alloc: _,
        plan: _,
        keys: _,
        reading: _,
        writes,
        tally,
    } = reader;
    let nanos = tally.into_inner().into_nanos()?;
    let took = start?.elapsed(rt)?;
    Ok(Measured {
        took,
        writes: writes.load(Ordering::SeqCst),
        nanos,
    })
}

impl<E: StoreEngine, O: Start, R: Clock + Wait> Worker<E, O, R> for Reader {
    fn work(&self, rt: &R, registry: &Registry<E, O>, index: usize) {
        let calls = Calls {
            rt,
            alloc: self.alloc,
            registry,
        };
        let mut nanos = Vec::new(self.alloc);
        let ended = if index < self.plan.threads {
            let read = self.read_all(&calls, index, &mut nanos);
            self.reading.fetch_sub(1, Ordering::SeqCst);
            read
        } else {
            self.write_meanwhile(&calls)
        };
        self.tally.lock(rt).take(&nanos, ended);
    }
}

impl Reader {
    // the reads of one thread, in a session of its own
    fn read_all<E: StoreEngine, O: Start, R: Clock + Wait>(
        &self,
        calls: &Calls<'_, E, O, R>,
        thread: usize,
        nanos: &mut Vec<u64>,
    ) -> Result<(), Trouble> {
        let mut session = calls.start()?;
        let mut chance = thread as u64;
        for _number in 0..self.plan.share(thread) {
            chance = next_of(chance);
            let name = value_name(chance);
            let Some(key) = key_of(&self.keys, chance) else {
                break;
            };
            let start = Instant::now(calls.rt)?;
            calls.get(&mut session, key, &name)?;
            nanos.push(nanos_of(start.elapsed(calls.rt)?))?;
        }
        calls.end(session)
    }

    // writes while others read
    fn write_meanwhile<E: StoreEngine, O: Start, R: Wait>(
        &self,
        calls: &Calls<'_, E, O, R>,
    ) -> Result<(), Trouble> {
        let mut session = calls.start()?;
        let mut chance = self.plan.threads as u64;
        for number in 0..u64::MAX {
            if self.reading.load(Ordering::SeqCst) == 0 {
                break;
            }
            chance = next_of(chance);
            let Some(key) = key_of(&self.keys, chance) else {
                break;
            };
            let data = Data::new(calls.alloc, &[chance.to_le_bytes()[0]; VALUE_BYTES])?;
            calls.set(&mut session, key, &value_name(chance), data, number)?;
            self.writes.fetch_add(1, Ordering::SeqCst);
            if number % u64::from(BATCH) == 0 {
                calls.flush(&mut session, key)?;
            }
        }
        calls.end(session)
    }
}

// the next number of a row by chance
fn next_of(chance: u64) -> u64 {
    chance
        .wrapping_mul(6_364_136_223_846_793_005)
        .wrapping_add(1_442_695_040_888_963_407)
}

// a key by chance
fn key_of(keys: &[Key], chance: u64) -> Option<&Key> {
    keys.get((chance >> 32) as usize % KEYS as usize)
}

// the name of a value by chance
fn value_name(chance: u64) -> [u8; 2] {
    let number = (chance >> 24) % u64::from(VALUES);
    [b'v', b'0'.saturating_add(number as u8)]
}

// the keys with their values, which are made first
fn filled<E: StoreEngine, O: Start, R: Wait>(
    calls: &Calls<'_, E, O, R>,
) -> Result<Vec<Key>, Trouble> {
    let mut keys = Vec::new(calls.alloc);
    let mut session = calls.start()?;
    for number in 0..KEYS {
        keys.push(numbered_key(calls.alloc, number)?)?;
    }
    for part in keys.chunks(BATCH as usize) {
        fill(calls, &mut session, part)?;
    }
    calls.checkpoint()?;
    calls.end(session)?;
    Ok(keys)
}

// creates some keys with their values, in one transaction
fn fill<E: StoreEngine, O: Start, R: Wait>(
    calls: &Calls<'_, E, O, R>,
    session: &mut Session<O>,
    keys: &[Key],
) -> Result<(), Trouble> {
    let tx = calls.begin(session)?;
    for key in keys {
        let key = Key {
            hive: key.hive,
            path: key.path.clone()?,
            tx: Some(tx),
        };
        calls.create(session, &key, 0)?;
        for number in 0..VALUES {
            let data = Data::new(calls.alloc, &[0; VALUE_BYTES])?;
            calls.set(session, &key, &value_name(u64::from(number) << 24), data, 0)?;
        }
    }
    calls.commit(session, tx, 0)?;
    Ok(())
}

// the key of a number of five digits; they are in both hives by turns
fn numbered_key(alloc: Global, number: u32) -> Result<Key, Refusal> {
    let mut rest = number;
    let mut text = [b'k'; 6];
    for byte in text.iter_mut().skip(1) {
        *byte = b'0'.saturating_add((rest % 10) as u8);
        rest /= 10;
    }
    key(alloc, (number % u32::from(HIVES)) as u8, &text)
}

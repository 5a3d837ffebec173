//! Commits of many threads, with a flusher beside.
use crate::calls::{Calls, set_op};
use crate::latencies::{Percentiles, nanos_of};
use crate::rounds::{LETTERS, TURNS, create_keys, data_of, round_at, thread_key, value_name};
use crate::store::HIVES;
use crate::tally::Tally;
use crate::trouble::Trouble;
use crate::words::Plan;
use flusher::{Gate, OpenGate, run_beside};
use histories::Start;
use ktm_calls::{Key, Registry, Session};
use refusals::Refusal;
use shared_store::{BusyGate, Worker, run_workers};
use std::alloc::Global;
use std::io;
use std::num::nearest_u64_to_f64;
use std::sync::atomic::{AtomicU64, Ordering};
use std::sync::{Mutex, Wait};
use std::thread::Threads;
use std::time::{Clock, Duration, Instant};
use store_engine::StoreEngine;

/// Whether changes are moved into the hives while threads commit.
#[derive(Clone, Copy)]
pub enum Flushing {
    /// A flusher does so beside, at once.
    Beside,
    /// A flusher does so beside, once much of the journal's room is used.
    Busy,
    /// They stay in the journal.
    None,
}

/// By which calls a commit is made.
#[derive(Clone, Copy)]
pub enum Form {
    /// One for each event of its transaction.
    Calls,
    /// One for the whole transaction.
    Whole,
}

// what is printed while threads commit
#[derive(Clone, Copy)]
enum Telling {
    Nothing,
    // each acknowledged commit
    Commits,
}

// what each thread does: transactions of four values in keys of its own
#[derive(Drop)]
struct Committer {
    alloc: Global,
    plan: Plan,
    form: Form,
    telling: Telling,
    tally: Mutex<Tally>,
}

// how long the threads took, and how often the disk was synced meanwhile
#[derive(Clone, Copy)]
struct Spent {
    took: Duration,
    syncs: u64,
}

/// Commits of so many threads, and prints how long they took.
pub fn measure_commits<
    E: StoreEngine + Send,
    O: Start + Send + Sync,
    R: Print + Clock + Wait + Threads + Sync,
>(
    calls: &Calls<'_, E, O, R>,
    plan: Plan,
    form: Form,
    flushing: Flushing,
    syncs: &AtomicU64,
) -> Result<(), Trouble> {
    create_keys(calls, plan.threads)?;
    let committer = Committer::new(calls.alloc, plan, form, Telling::Nothing);
    let spent = match flushing {
        Flushing::Beside => commit_beside(calls.rt, calls.registry, &committer, syncs, &OpenGate)?,
        Flushing::Busy => commit_beside(calls.rt, calls.registry, &committer, syncs, &BusyGate)?,
        Flushing::None => commit_timed(calls.rt, calls.registry, &committer, syncs)?,
    };
    let mut nanos = committer.into_nanos()?;
    let percentiles = Percentiles::of(&mut nanos);
    print_commits(calls.rt, plan, spent, percentiles)?;
    Ok(())
}

/// Commits of so many threads, with a flusher beside. Each is told once it is acknowledged.
pub fn tell_commits<
    E: StoreEngine + Send,
    O: Start + Send + Sync,
    R: Print + Clock + Wait + Threads + Sync,
>(calls: &Calls<'_, E, O, R>, plan: Plan) -> Result<(), Trouble> {
    create_keys(calls, plan.threads)?;
    let committer = Committer::new(calls.alloc, plan, Form::Calls, Telling::Commits);
    let syncs = AtomicU64::new(0);
    commit_beside(calls.rt, calls.registry, &committer, &syncs, &OpenGate)?;
    committer.into_nanos()?;
    Ok(())
}

fn print_commits<R: Print>(
    rt: &R,
    plan: Plan,
    spent: Spent,
    percentiles: Percentiles,
) -> io::Result<()> {
    let seconds = spent.took.as_secs_f64();
    let count = f64::from(plan.count);
    println!(rt;
        "threads {}\ncommits {}\nseconds {seconds:.3}\ncommits a second {:.0}\nsyncs a commit {:.3}",
        plan.threads,
        plan.count,
        count / seconds,
        nearest_u64_to_f64(spent.syncs) / count
    )?;
    print_latencies(rt, percentiles)
}

/// Prints the percentiles of latencies.
pub fn print_latencies<R: Print>(rt: &R, percentiles: Percentiles) -> io::Result<()> {
    let half = micros(percentiles.half);
    let most = micros(percentiles.most);
    let all = micros(percentiles.all);
    println!(rt;
        "latency of 50 percent {half:.1} us\nlatency of 99 percent {most:.1} us\nlatency of 100 percent {all:.1} us"
    )
}

fn micros(nanos: u64) -> f64 {
    nearest_u64_to_f64(nanos) / 1_000.0
}

// how long the threads take with a flusher beside, which then flushes all
fn commit_beside<
    E: StoreEngine + Send,
    O: Start + Send + Sync,
    G: Gate + Sync,
    R: Print + Clock + Wait + Threads + Sync,
>(
    rt: &R,
    registry: &Registry<E, O>,
    committer: &Committer,
    syncs: &AtomicU64,
    gate: &G,
) -> Result<Spent, Trouble> {
    let (spent, flushed) = run_beside(rt, registry, gate, || {
        commit_timed(rt, registry, committer, syncs)
    });
    let spent = spent?;
    match flushed {
        Ok(_stopped) => Ok(spent),
        // it ends early only if a step was refused
        Err(told) => Err(Trouble::Refused(told.refusal().unwrap_or(Refusal::DiskFault))),
    }
}

// how long the threads take
fn commit_timed<
    E: StoreEngine + Send,
    O: Start + Send + Sync,
    R: Print + Clock + Wait + Threads + Sync,
>(
    rt: &R,
    registry: &Registry<E, O>,
    committer: &Committer,
    syncs: &AtomicU64,
) -> io::Result<Spent> {
    let before = syncs.load(Ordering::SeqCst);
    let start = Instant::now(rt)?;
    run_workers(rt, registry, committer, committer.plan.threads);
    let took = start.elapsed(rt)?;
    let after = syncs.load(Ordering::SeqCst);
    Ok(Spent {
        took,
        syncs: after.saturating_sub(before),
    })
}

impl<E: StoreEngine, O: Start, R: Print + Clock + Wait> Worker<E, O, R> for Committer {
    fn work(&self, rt: &R, registry: &Registry<E, O>, index: usize) {
        let calls = Calls {
            rt,
            alloc: self.alloc,
            registry,
        };
        let mut nanos = Vec::new(self.alloc);
        let ended = self.commit_all(&calls, index, &mut nanos);
        self.tally.lock(rt).take(&nanos, ended);
    }
}

impl Committer {
    fn new(alloc: Global, plan: Plan, form: Form, telling: Telling) -> Committer {
        Committer {
            alloc,
            plan,
            form,
            telling,
            tally: Mutex::new(Tally::new(alloc)),
        }
    }

    // how long each commit took, if none was refused
    fn into_nanos(self) -> Result<Vec<u64>, Trouble> {
        let Committer {
            alloc: _,
            plan: _,
            form: _,
            telling: _,
            tally,
        } = self;
        tally.into_inner().into_nanos()
    }

    // the commits of one thread, in a session of its own
    fn commit_all<E: StoreEngine, O: Start, R: Print + Clock + Wait>(
        &self,
        calls: &Calls<'_, E, O, R>,
        thread: usize,
        nanos: &mut Vec<u64>,
    ) -> Result<(), Trouble> {
        let mut session = calls.start()?;
        let mut keys = Vec::new(self.alloc);
        for hive in 0..HIVES {
            keys.push(thread_key(self.alloc, hive, thread)?)?;
        }
        let last = last_round(calls, &mut session, &keys)?;
        for number in 1..=u64::from(self.plan.share(thread)) {
            let round = last.saturating_add(number);
            let start = Instant::now(calls.rt)?;
            let change = match self.form {
                Form::Calls => commit_round(calls, &mut session, &mut keys, round)?,
                Form::Whole => commit_whole(calls, &mut session, &keys, round)?,
            };
            nanos.push(nanos_of(start.elapsed(calls.rt)?))?;
            if let Telling::Commits = self.telling {
                println!(calls.rt; "{thread} {change} {round}")?;
            }
        }
        calls.end(session)
    }
}

// the last round of a thread that has these keys; 0 if it has made none
fn last_round<E: StoreEngine, O: Start, R: Wait>(
    calls: &Calls<'_, E, O, R>,
    session: &mut Session<O>,
    keys: &[Key],
) -> Result<u64, Trouble> {
    let mut last = 0;
    for turn in 0..TURNS {
        for letter in LETTERS {
            for key in keys {
                let round = round_at(calls, session, key, &value_name(letter, turn))?;
                last = last.max(round.unwrap_or(0));
            }
        }
    }
    Ok(last)
}

// a transaction that sets the values of a round: the number of its change, once it is durable
fn commit_round<E: StoreEngine, O: Start, R: Wait>(
    calls: &Calls<'_, E, O, R>,
    session: &mut Session<O>,
    keys: &mut [Key],
    round: u64,
) -> Result<u64, Trouble> {
    let tx = calls.begin(session)?;
    let turn = (round % u64::from(TURNS)) as u8;
    for key in keys {
        key.tx = Some(tx);
        for letter in LETTERS {
            let data = data_of(calls.alloc, round)?;
            calls.set(session, key, &value_name(letter, turn), data, round)?;
        }
    }
    calls.commit(session, tx, round)
}

// the same in one call
fn commit_whole<E: StoreEngine, O: Start, R: Wait>(
    calls: &Calls<'_, E, O, R>,
    session: &mut Session<O>,
    keys: &[Key],
    round: u64,
) -> Result<u64, Trouble> {
    let turn = (round % u64::from(TURNS)) as u8;
    let mut ops = Vec::new(calls.alloc);
    for key in keys {
        for letter in LETTERS {
            let data = data_of(calls.alloc, round)?;
            ops.push(set_op(calls.alloc, key, &value_name(letter, turn), data)?)?;
        }
    }
    calls.transact(session, ops, round)
}

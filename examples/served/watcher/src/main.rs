//! Watches the parts of a product and their settings in a store that is served:
//!
//!     watcher SOCKET COUNT
//!
//! It prints what it sees whenever that has changed, and ends once so many parts have a port. If the
//! server goes it waits for the next one, and goes on.

use regtx_client::{Error, Key, Options, Refusal, Requests, Store};
use std::process::ExitCode;
use std::thread::sleep;
use std::time::{Duration, Instant};
use std::{collections::BTreeMap, env};

const PRODUCT: Key = Key::new(0, "Vendor");
const SETTINGS: Key = Key::new(1, "Settings");
const REVISION: &str = "Revision";
const PAUSE: Duration = Duration::from_millis(5);
const LONGEST_WAIT: Duration = Duration::from_secs(60);

/// The settings at one moment: how often they had changed, and each part's port.
type Settings = (u32, BTreeMap<String, u32>);

/// An answer; or the default, if what was asked for isn't there yet.
fn found<T: Default>(answer: Result<T, Error>) -> Result<T, Error> {
    match answer {
        Err(Error::Refused(Refusal::NotFound, _)) => Ok(T::default()),
        answer => answer,
    }
}

fn revision(store: &Store) -> Result<u32, Error> {
    let value = store.get_value(SETTINGS, REVISION);
    found(value.map(|value| value.to_u32().unwrap_or(0)))
}

/// Reads all settings. Each read sees the store as it is then, so they belong together only if no
/// change came between.
fn settings(store: &Store) -> Result<Settings, Error> {
    loop {
        let before = revision(store)?;
        let items = found(store.items(SETTINGS))?.into_iter();
        let numbers = items.filter_map(|(name, value)| Some((name, value.to_u32()?)));
        let ports = numbers.filter(|(name, _)| name != REVISION).collect();
        if revision(store)? == before {
            return Ok((before, ports));
        }
    }
}

/// Watches by one connection, until so many parts have a port.
fn watch(socket: &str, count: usize, last: &mut Option<Settings>) -> Result<(), Error> {
    let store = Store::connect(socket, &Options::new().timeout(LONGEST_WAIT))?;
    loop {
        let seen = settings(&store)?;
        let (revision, ports) = &seen;
        if last.as_ref() != Some(&seen) {
            let parts = found(store.subkeys(PRODUCT))?.len();
            let numbers: Vec<_> = ports.values().map(u32::to_string).collect();
            let numbers = numbers.join(" ");
            println!("revision {revision}: {parts} parts, ports {numbers}");
        }
        if ports.len() >= count {
            return store.close();
        }
        *last = Some(seen);
        sleep(PAUSE);
    }
}

fn main() -> ExitCode {
    let words: Vec<String> = env::args().skip(1).collect();
    let [socket, count] = words.as_slice() else {
        eprintln!("usage: watcher SOCKET COUNT");
        return ExitCode::from(2);
    };
    let (count, mut last) = (count.parse().unwrap_or(0), None);
    let end = Instant::now() + LONGEST_WAIT;
    while let Err(why) = watch(socket, count, &mut last) {
        if Instant::now() > end {
            eprintln!("watcher: {why}");
            return ExitCode::FAILURE;
        }
        sleep(Duration::from_secs(1));
    }
    ExitCode::SUCCESS
}

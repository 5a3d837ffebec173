//! Installs the parts of a product, each exactly once, though this or the program is killed: begun
//! again, it goes on.
//!
//!     install REGTX FOLDER [COUNT]
//!
//! REGTX is the program. The store is in FOLDER, and is made if that isn't there. COUNT is how many
//! parts there are, else 3. A part is one transaction over two hives, whose unit of work is the
//! part's own: so `kept` tells which parts are there, though no answer to a commit came.

use regtx_client::{Error, Key, Options, Refusal, Requests, Store, Uuid, Value};
use std::env;
use std::path::Path;
use std::process::ExitCode;

const STORE: Uuid = Uuid(0x00112233_4455_6677_8899_aabbccddeeff_u128.to_be_bytes());
const PRODUCT: u128 = 0x6ba7b810_9dad_11d1_80b4_00c04fd40000;
const TRIES: u32 = 10;
const SETUP: Key = Key::new(1, "Setup");

/// A part's unit of work: the same in each life of this program.
fn unit_of(part: u16) -> Uuid {
    Uuid((PRODUCT + u128::from(part)).to_be_bytes())
}

/// How many parts the second hive counts.
fn installed(store: &impl Requests) -> Result<u32, Error> {
    match store.get_value(SETUP, "Parts") {
        Ok(value) => Ok(value.to_u32().unwrap_or(0)),
        Err(Error::Refused(Refusal::NotFound, _)) => Ok(0),
        Err(why) => Err(why),
    }
}

fn install(store: &Store, part: u16) -> Result<Option<u64>, Error> {
    let path = format!(r"Software\Vendor\Part {part}");
    let tx = store.transaction(&unit_of(part))?;
    tx.create_key(Key::new(0, &path))?;
    tx.set_value(Key::new(0, &path), "Version", &Value::sz("1.0"))?;
    tx.create_key(SETUP)?;
    tx.set_value(SETUP, "Parts", &Value::dword(installed(&tx)? + 1))?;
    tx.commit()
}

/// Installs the parts of which no commit is kept.
fn install_all(folder: &str, options: &Options, count: u16) -> Result<(), Error> {
    let store = Store::open(folder, options)?;
    let mut left = Vec::new();
    for part in 1..=count {
        if store.kept(&unit_of(part))?.is_none() {
            left.push(part);
        }
    }
    println!(
        "{} of {count} parts were there before",
        usize::from(count) - left.len()
    );
    for part in left {
        let number = install(&store, part)?;
        println!("part {part}: committed {}", number.unwrap_or(0));
    }
    println!("{} parts are installed", installed(&store)?);
    store.close()
}

fn run(program: &str, folder: &str, count: u16) -> Result<(), Error> {
    // the run of a program that was killed may not have ended yet
    let options = Options::new().program(program).wait(30);
    if !Path::new(folder).exists() {
        Store::create(folder, &STORE, 2, &options)?;
    }
    for _ in 1..TRIES {
        match install_all(folder, &options, count) {
            Err(Error::Ended(_) | Error::CommitUnknown(..)) => {
                println!("the run ended: begin another one");
            }
            done => return done,
        }
    }
    install_all(folder, &options, count)
}

fn main() -> ExitCode {
    let words: Vec<String> = env::args().skip(1).collect();
    let count = words.get(2).map_or(Ok(3), |word| word.parse());
    let ([program, folder] | [program, folder, _], Ok(count)) = (words.as_slice(), count) else {
        eprintln!("usage: install REGTX FOLDER [COUNT]");
        return ExitCode::from(2);
    };
    match run(program, folder, count) {
        Ok(()) => ExitCode::SUCCESS,
        Err(why) => {
            eprintln!("install: {why}");
            ExitCode::FAILURE
        }
    }
}

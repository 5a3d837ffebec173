//! Prints the keys of a hive's file, each with the time of its last write, and below it its values.

use regtx_hive::{FileError, Hive};
use std::error::Error;
use std::io::{self, BufWriter, Write};
use std::{env, fmt, process};

/// Bytes as hexadecimal digits.
struct Hex<'a>(&'a [u8]);

impl fmt::Display for Hex<'_> {
    fn fmt(&self, f: &mut fmt::Formatter<'_>) -> fmt::Result {
        self.0.iter().try_for_each(|byte| write!(f, "{byte:02x}"))
    }
}

fn print(hive: &Hive) -> Result<(), Box<dyn Error>> {
    let mut to = BufWriter::new(io::stdout().lock());
    for entry in hive.walk("")? {
        let entry = entry?;
        writeln!(to, "{:?} {}", entry.path, entry.time)?;
        for (name, value) in &entry.values {
            writeln!(to, "  {name:?} {} {}", value.kind, Hex(&value.data))?;
        }
    }
    Ok(to.flush()?)
}

fn main() -> Result<(), Box<dyn Error>> {
    let path = env::args_os().nth(1).ok_or("usage: print FILE")?;
    match Hive::open_file(path) {
        Err(why @ FileError::Hive(..)) => {
            println!("{why}");
            process::exit(3);
        }
        hive => print(&hive?),
    }
}

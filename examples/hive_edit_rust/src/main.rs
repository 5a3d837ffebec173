//! Prints the keys and values of an offline hive, sets one number in it, and writes the new hive.
//! The head of `../hive_edit.c` says what is printed, and what becomes of OUT.

use regtx_hive::{Error, FileError, Hive, Name, Value};
use std::ffi::{OsStr, OsString};
use std::io::{self, BufWriter, Write};
use std::path::PathBuf;
use std::process::ExitCode;
use std::{env, fmt};

const MOST_DIGITS: usize = 10;

/// What the words ask for.
struct Edit {
    file: PathBuf,
    out: PathBuf,
    key: String,
    name: String,
    number: u32,
}

impl Edit {
    /// `None` if the words are wrong.
    fn of(words: Vec<OsString>) -> Option<Edit> {
        let [file, out, key, name, number]: [OsString; 5] = words.try_into().ok()?;
        Some(Edit {
            file: file.into(),
            out: out.into(),
            key: key.into_string().ok()?,
            name: name.into_string().ok()?,
            number: number_of(number.to_str()?)?,
        })
    }
}

fn number_of(text: &str) -> Option<u32> {
    let is_number = text.len() <= MOST_DIGITS && text.bytes().all(|byte| byte.is_ascii_digit());
    text.parse().ok().filter(|_| is_number)
}

/// What went wrong, and with what.
struct Failure(String);

impl Failure {
    fn with(what: impl AsRef<OsStr>, why: impl fmt::Display) -> Failure {
        Failure(format!("{}: {why}", what.as_ref().to_string_lossy()))
    }
}

impl From<FileError> for Failure {
    fn from(why: FileError) -> Self {
        Failure(why.to_string())
    }
}

/// A name as it is printed.
fn spelled(name: &Name) -> String {
    let escaped = |unit: u16| format!("%{unit:04x}");
    char::decode_utf16(name.units().iter().copied())
        .map(|read| match read {
            Ok(letter) if letter == '%' || letter.is_control() => escaped(letter as u16),
            Ok(letter) => letter.to_string(),
            Err(half) => escaped(half.unpaired_surrogate()),
        })
        .collect()
}

/// A value's name as it is printed: the default value has none.
fn spelled_value(name: &Name) -> String {
    match spelled(name).as_str() {
        "" => "@".into(),
        "@" => "%0040".into(),
        other => other.into(),
    }
}

fn hex(data: &[u8]) -> String {
    if data.is_empty() {
        return "-".into();
    }
    let digit = |nibble: u8| char::from(b"0123456789abcdef"[usize::from(nibble)]);
    data.iter()
        .flat_map(|byte| [digit(byte >> 4), digit(byte & 15)])
        .collect()
}

/// Why a tree isn't printed.
enum Unprinted {
    Refused(Error),
    Unwritten(io::Error),
}

impl From<Error> for Unprinted {
    fn from(why: Error) -> Self {
        Unprinted::Refused(why)
    }
}

impl From<io::Error> for Unprinted {
    fn from(why: io::Error) -> Self {
        Unprinted::Unwritten(why)
    }
}

fn print_tree(hive: &Hive) -> Result<(), Unprinted> {
    let mut to = BufWriter::new(io::stdout().lock());
    for entry in hive.walk("")? {
        let entry = entry?;
        writeln!(to, "[{}]", spelled(&entry.path))?;
        for (name, value) in &entry.values {
            let (name, kind) = (spelled_value(name), value.kind.0);
            writeln!(to, "  {name} {kind} {}", hex(&value.data))?;
        }
    }
    to.flush()?;
    Ok(())
}

fn carry_out(edit: &Edit) -> Result<(), Failure> {
    let mut hive = Hive::open_file(&edit.file)?;
    print_tree(&hive).map_err(|why| match why {
        Unprinted::Refused(why) => Failure::with(&edit.file, why),
        Unprinted::Unwritten(why) => Failure::with("standard output", why),
    })?;
    hive.set_value(&edit.key, &edit.name, &Value::dword(edit.number))
        .map_err(|why| Failure::with(&edit.key, why))?;
    Ok(hive.write_file(&edit.out)?)
}

fn main() -> ExitCode {
    let Some(edit) = Edit::of(env::args_os().skip(1).collect()) else {
        eprintln!("usage: hive_edit IN OUT KEY NAME NUMBER");
        return ExitCode::from(2);
    };
    match carry_out(&edit) {
        Ok(()) => ExitCode::SUCCESS,
        Err(Failure(text)) => {
            eprintln!("hive_edit: {text}");
            ExitCode::FAILURE
        }
    }
}

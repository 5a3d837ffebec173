//! What each form prints.
use crate::exports::table::{JSON, REG, ROWS, TSV};
use key_walk::{walk_below, walk_tree};
use refusals::Refusal;
use reg_export::{Encoding, HiveKeys, JsonSink, RegSink, TsvSink, write_reg, write_reg_header};
use reg_names::{Name, Path};
use reg_tree::{Data, Op, Trees};
use std::alloc::Global;
use std::test::Fail;

/// 2024-02-29T00:00:00.1234567Z
const MOMENT: u64 = 133_536_384_001_234_567;

/// The path of the key with all values, `K "`.
const KEY: [u16; 3] = [0x4b, 0x20, 0x22];

/// The prefix of the hive.
const PREFIX: &[u8] = b"H\\a";

/// A hive whose one key has a value for each row.
fn trees(alloc: Global) -> Result<Trees, Refusal> {
    let create = Op::CreateKey {
        hive: 0,
        path: Path::parse(alloc, &KEY)?,
    };
    let mut ops = vec![in alloc; create]?;
    for (name, kind, data) in ROWS {
        let name = Name::value_in_bytes(alloc, name)?;
        ops.push(Op::SetValue {
            hive: 0,
            path: Path::parse(alloc, &KEY)?,
            name,
            kind,
            data: Data::new(alloc, data)?,
        })?;
    }
    Ok(Trees::new(alloc, 1)?.apply_ops(alloc, &ops, MOMENT)?)
}

fn joined(alloc: Global, lines: &[&[u8]]) -> Result<Vec<u8>, Fail> {
    let mut text = Vec::new(alloc);
    for line in lines {
        text.extend_from_slice(line)?;
    }
    Ok(text)
}

#[test]
fn a_registration_file_is_printed(rt: HostRuntime) -> Result<(), Fail> {
    let alloc = rt.alloc();
    let trees = trees(alloc)?;
    let tree = trees.tree(0).ok_or(Refusal::NotFound)?;
    let hives = vec![in alloc;
        HiveKeys {
            prefix: PREFIX,
            tree
        },
    ]?;
    let mut printed = Vec::new(alloc);
    assert!(&rt; write_reg(&mut printed, Encoding::Utf8, &hives).is_ok());
    assert_eq!(&rt; printed.as_slice(), joined(alloc, &REG)?.as_slice());
    Ok(())
}

#[test]
fn a_registration_file_in_utf16_has_the_same_units(rt: HostRuntime) -> Result<(), Fail> {
    let alloc = rt.alloc();
    let trees = trees(alloc)?;
    let tree = trees.tree(0).ok_or(Refusal::NotFound)?;
    let mut printed = Vec::new(alloc);
    write_reg_header(&mut printed, Encoding::Utf16)?;
    let mut sink = RegSink {
        writer: &mut printed,
        encoding: Encoding::Utf16,
        prefix: PREFIX,
    };
    walk_tree(&mut sink, tree)?;
    let mut wanted = vec![in alloc; 0xff, 0xfe]?;
    for byte in joined(alloc, &REG)? {
        wanted.push(byte)?;
        wanted.push(0)?;
    }
    assert_eq!(&rt; printed.as_slice(), wanted.as_slice());
    Ok(())
}

#[test]
fn json_is_printed(rt: HostRuntime) -> Result<(), Fail> {
    let alloc = rt.alloc();
    let trees = trees(alloc)?;
    let tree = trees.tree(0).ok_or(Refusal::NotFound)?;
    let mut printed = Vec::new(alloc);
    let mut sink = JsonSink {
        writer: &mut printed,
        hive: 0,
    };
    walk_tree(&mut sink, tree)?;
    assert_eq!(&rt; printed.as_slice(), joined(alloc, &JSON)?.as_slice());
    Ok(())
}

#[test]
fn tsv_is_printed_of_a_key_and_all_below_it(rt: HostRuntime) -> Result<(), Fail> {
    let alloc = rt.alloc();
    let trees = trees(alloc)?;
    let tree = trees.tree(0).ok_or(Refusal::NotFound)?;
    let mut printed = Vec::new(alloc);
    let mut sink = TsvSink {
        writer: &mut printed,
        hive: 0,
    };
    let path = Path::parse(alloc, &[0x6b, 0x20, 0x22])?;
    let there = walk_below(&mut sink, tree, path.names())?;
    assert!(&rt; there);
    let missing = Path::parse(alloc, &[0x6b])?;
    let there = walk_below(&mut sink, tree, missing.names())?;
    assert!(&rt; !there);
    assert_eq!(&rt; printed.as_slice(), joined(alloc, &TSV[1..])?.as_slice());
    Ok(())
}

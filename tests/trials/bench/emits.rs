//! How long the image of a tree takes to be made.
use crate::bench::{letters, now, trees_after};
use crate::fault::Fault;
use hive_emit::emit;
use refusals::Refusal;
use reg_names::{Name, Path};
use reg_tree::{Data, Op, Tree, Trees};
use std::alloc::Global;
use std::time::CpuClock;

// the data of each value
const DATA: [u8; 16] = [0x5a; 16];

/// Times the image of a tree of this many keys below the root, each with a value. Prints the time and the image's bytes.
pub(crate) fn time<R: Print + CpuClock>(rt: &R, alloc: Global, keys: u32) -> Result<(), Fault> {
    let trees = keys_with_values(alloc, keys)?;
    match trees.tree(0) {
        Some(tree) => time_on(rt, alloc, tree),
        None => Err(Fault::Otherwise("no tree")),
    }
}

fn time_on<R: Print + CpuClock>(rt: &R, alloc: Global, tree: &Tree) -> Result<(), Fault> {
    let start = now(rt)?;
    let emitted = emit(alloc, tree, 0)?;
    let took = now(rt)?.saturating_sub(start);
    println!(rt; "{took} {}", emitted.image.len())?;
    Ok(())
}

fn keys_with_values(alloc: Global, keys: u32) -> Result<Trees, Refusal> {
    let mut ops = Vec::new(alloc);
    for number in 0..keys {
        ops.push(creation(alloc, number)?)?;
    }
    for number in 0..keys {
        ops.push(setting(alloc, number)?)?;
    }
    trees_after(alloc, &ops)
}

fn creation(alloc: Global, number: u32) -> Result<Op, Refusal> {
    let path = Path::parse(alloc, &letters(number))?;
    Ok(Op::CreateKey { hive: 0, path })
}

fn setting(alloc: Global, number: u32) -> Result<Op, Refusal> {
    Ok(Op::SetValue {
        hive: 0,
        path: Path::parse(alloc, &letters(number))?,
        name: Name::value(alloc, &[u16::from(b'v')])?,
        kind: 3,
        data: Data::new(alloc, &DATA)?,
    })
}

//! A small tree, and operations on it of each kind.
use crate::fault::Fault;
use reg_names::{Name, Path, ValueName};
use reg_tree::{Data, Op, Tree};
use std::alloc::Global;

// the moment of the tree
const BEFORE: u64 = 1;

/// The moment of the operations.
pub(crate) const AFTER: u64 = 2;

// how many bytes of data a record holds, one cell holds, and segments hold
const IN_RECORD: usize = 4;

const IN_CELL: usize = 600;

const IN_SEGMENTS: usize = 20_000;

/// The type of each value.
pub(crate) const TYPE: u32 = 3;

/// A key with two values, one of them in segments, and below it a key with a value.
pub(crate) fn small_tree(alloc: Global) -> Result<Tree, Fault> {
    let tree = Tree::fresh(alloc)?;
    let tree = tree.apply(alloc, &create(alloc, "A\\B")?, BEFORE)?;
    let tree = tree.apply(alloc, &set(alloc, "A", "one", IN_CELL)?, BEFORE)?;
    let tree = tree.apply(alloc, &set(alloc, "A", "two", IN_SEGMENTS)?, BEFORE)?;
    Ok(tree.apply(alloc, &set(alloc, "A\\B", "one", IN_CELL)?, BEFORE)?)
}

/// Operations of each kind. Each is legal in this tree, and after those before it.
pub(crate) fn operations(alloc: Global) -> Result<Vec<Op>, Fault> {
    let mut ops = Vec::new(alloc);
    for value in ["one", "two", "new"] {
        for len in [0, IN_RECORD, IN_CELL, IN_SEGMENTS] {
            ops.push(set(alloc, "A", value, len)?)?;
        }
    }
    ops.push(unset(alloc, "A", "one")?)?;
    ops.push(unset(alloc, "A", "two")?)?;
    ops.push(delete(alloc, "A\\B")?)?;
    for path in ["C", "A\\C\\D\\E", "A\\B\\C"] {
        ops.push(create(alloc, path)?)?;
    }
    Ok(ops)
}

// the units of an ASCII text
fn units(alloc: Global, text: &str) -> Result<Vec<u16>, Fault> {
    Ok(
        text.as_bytes()
            .iter()
            .map(|byte| u16::from(*byte))
            .collect(alloc)?,
    )
}

/// The path of a text.
pub(crate) fn path(alloc: Global, text: &str) -> Result<Path, Fault> {
    Ok(Path::parse(alloc, &units(alloc, text)?)?)
}

/// The name of a value.
pub(crate) fn value_name(alloc: Global, text: &str) -> Result<ValueName, Fault> {
    Ok(Name::value(alloc, &units(alloc, text)?)?)
}

/// A key of hive 0 is created.
pub(crate) fn create(alloc: Global, at: &str) -> Result<Op, Fault> {
    let path = path(alloc, at)?;
    Ok(Op::CreateKey { hive: 0, path })
}

/// A key of hive 0 is deleted.
pub(crate) fn delete(alloc: Global, at: &str) -> Result<Op, Fault> {
    let path = path(alloc, at)?;
    Ok(Op::DeleteKey { hive: 0, path })
}

/// So many bytes of data.
pub(crate) fn data_of(alloc: Global, len: usize) -> Result<Data, Fault> {
    let bytes = vec![in alloc; 0x5au8; len]?;
    Ok(Data::new(alloc, &bytes)?)
}

/// A value of a key of hive 0 gets so many bytes.
pub(crate) fn set(alloc: Global, at: &str, name: &str, len: usize) -> Result<Op, Fault> {
    let path = path(alloc, at)?;
    let name = value_name(alloc, name)?;
    let data = data_of(alloc, len)?;
    Ok(Op::SetValue {
        hive: 0,
        path,
        name,
        kind: TYPE,
        data,
    })
}

/// A value of a key of hive 0 is deleted.
pub(crate) fn unset(alloc: Global, at: &str, name: &str) -> Result<Op, Fault> {
    let path = path(alloc, at)?;
    let name = value_name(alloc, name)?;
    Ok(Op::DeleteValue {
        hive: 0,
        path,
        name,
    })
}

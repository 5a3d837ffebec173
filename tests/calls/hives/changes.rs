//! Changes of hive 0.
use refusals::Refusal;
use reg_names::{Name, Path};
use reg_tree::{Element, Op, Ops};
use reg_tree_parts::Data;
use std::alloc::Global;

/// The moment of every change.
pub const MOMENT: u64 = 7;

/// The byte that a value's data have but at one index.
const FILLER: u8 = 0x5a;

/// A change of these operations.
pub fn change(ops: Vec<Op>) -> Result<Element, Refusal> {
    match Ops::from_vec(ops) {
        Some(ops) => Ok(Element {
            moment: MOMENT,
            ops,
        }),
        None => Err(Refusal::NotFound),
    }
}

/// A change that creates a key below the root, of one letter.
pub fn creation(alloc: Global, letter: u8) -> Result<Element, Refusal> {
    let path = Path::parse(alloc, &[u16::from(letter)])?;
    let mut ops = Vec::new(alloc);
    ops.push(Op::CreateKey { hive: 0, path })?;
    change(ops)
}

/// Writes a value of the root, of one letter: a number of bytes, of which the one at an index
/// differs.
pub fn setting(
    alloc: Global,
    letter: u8,
    len: usize,
    place: usize,
    tells: u8,
) -> Result<Op, Refusal> {
    let path = Path::root(alloc)?;
    let name = Name::value(alloc, &[u16::from(letter)])?;
    let mut bytes = vec![in alloc; FILLER; len]?;
    if let Some(byte) = bytes.get_mut(place) {
        *byte = tells;
    }
    let data = Data::from_vec(bytes)?;
    Ok(Op::SetValue {
        hive: 0,
        path,
        name,
        kind: 3,
        data,
    })
}

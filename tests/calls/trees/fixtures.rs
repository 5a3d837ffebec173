//! Names, paths, operations and readings of trees, made from strings.
use refusals::Refusal;
use reg_names::{Name, Path, ValueName};
use reg_tree::{Data, Element, Legality, Op, Ops, Trees};
use std::alloc::{AllocError, Global};
use std::process::Abort;

/// An operation, given as strings: its hive and path, and of a value its name, type and data.
#[derive(Clone, Copy)]
pub enum Step {
    Create(u8, &'static str),
    Delete(u8, &'static str),
    Set(u8, &'static str, &'static str, u32, &'static [u8]),
    Unset(u8, &'static str, &'static str),
}

impl Step {
    pub fn op(&self, alloc: Global) -> Result<Op, Refusal> {
        match self {
            Step::Create(hive, at) => create(alloc, *hive, at),
            Step::Delete(hive, at) => delete(alloc, *hive, at),
            Step::Set(hive, at, name, kind, bytes) => set(alloc, *hive, at, name, *kind, bytes),
            Step::Unset(hive, at, name) => unset(alloc, *hive, at, name),
        }
    }
}

/// The answer to a step.
pub type Answer = Result<Legality, Refusal>;

/// The answer to an operation that changes the tree.
pub const LEGAL: Answer = Ok(Legality::Legal);

/// A key's subkeys and values, and the moment of its last write.
pub type Counts = (usize, usize, u64);

/// The units of an ASCII string.
pub fn units(alloc: Global, text: &str) -> Result<Vec<u16>, AllocError> {
    let mut made = Vec::new(alloc);
    for byte in text.as_bytes() {
        made.push(u16::from(*byte))?;
    }
    Ok(made)
}

pub fn path(alloc: Global, text: &str) -> Result<Path, Refusal> {
    let text = units(alloc, text)?;
    Path::parse(alloc, &text)
}

pub fn value_name(alloc: Global, text: &str) -> Result<ValueName, Refusal> {
    let text = units(alloc, text)?;
    Name::value(alloc, &text)
}

pub fn create(alloc: Global, hive: u8, at: &str) -> Result<Op, Refusal> {
    let path = path(alloc, at)?;
    Ok(Op::CreateKey { hive, path })
}

pub fn delete(alloc: Global, hive: u8, at: &str) -> Result<Op, Refusal> {
    let path = path(alloc, at)?;
    Ok(Op::DeleteKey { hive, path })
}

pub fn set(
    alloc: Global,
    hive: u8,
    at: &str,
    name: &str,
    kind: u32,
    bytes: &[u8],
) -> Result<Op, Refusal> {
    let data = Data::new(alloc, bytes)?;
    set_data(alloc, hive, at, name, kind, data)
}

pub fn set_data(
    alloc: Global,
    hive: u8,
    at: &str,
    name: &str,
    kind: u32,
    data: Data,
) -> Result<Op, Refusal> {
    let path = path(alloc, at)?;
    let name = value_name(alloc, name)?;
    Ok(Op::SetValue {
        hive,
        path,
        name,
        kind,
        data,
    })
}

pub fn unset(alloc: Global, hive: u8, at: &str, name: &str) -> Result<Op, Refusal> {
    let path = path(alloc, at)?;
    let name = value_name(alloc, name)?;
    Ok(Op::DeleteValue { hive, path, name })
}

/// This many zeros.
pub fn zeros(alloc: Global, count: usize) -> Result<Vec<u8>, AllocError> {
    vec![in alloc; 0; count]
}

pub fn element(alloc: Global, moment: u64, op: Op) -> Result<Element, AllocError> {
    let ops = Ops::one(alloc, op)?;
    Ok(Element { moment, ops })
}

fn judged(alloc: Global, trees: &Trees, op: &Op) -> Answer {
    trees.legal(alloc, op)
}

fn apply(alloc: Global, trees: &mut Trees, element: &Element) -> Result<(), AllocError> {
    *trees = trees.apply(alloc, element)?;
    Ok(())
}

/// Judges the operation and, if it is legal, applies it at the moment.
pub fn act(alloc: Global, trees: &mut Trees, moment: u64, op: Op) -> Answer {
    let legality = judged(alloc, trees, &op)?;
    if legality == Legality::Legal {
        apply(alloc, trees, &element(alloc, moment, op)?)?;
    }
    Ok(legality)
}

fn take_one(alloc: Global, trees: &mut Trees, moment: u64, step: &Step) -> Answer {
    let op = step.op(alloc)?;
    act(alloc, trees, moment, op)
}

/// Compares the answer to a yes-or-no question; `place` names the case.
pub fn says(rt: &impl Abort, answer: Result<bool, Refusal>, wanted: bool, place: &str) {
    assert_eq!(rt; answer, Ok(wanted), "at {place}");
}

/// Compares a number that was answered; `place` names the case.
pub fn counts(
    rt: &impl Abort,
    answer: Result<usize, Refusal>,
    wanted: Result<usize, Refusal>,
    place: &str,
) {
    assert_eq!(rt; answer, wanted, "at {place}");
}

/// Compares the answer to an operation at a moment.
pub fn answers(rt: &impl Abort, answer: Answer, wanted: Answer, moment: u64) {
    assert_eq!(rt; answer, wanted, "at {moment}");
}

/// Compares the counts of a key; `place` names the case.
pub fn tells(
    rt: &impl Abort,
    answer: Result<Counts, Refusal>,
    wanted: Result<Counts, Refusal>,
    place: &str,
) {
    assert_eq!(rt; answer, wanted, "at {place}");
}

/// Takes the steps in turn, each at its moment, and compares the answer to each.
pub fn take(rt: &impl Abort, alloc: Global, trees: &mut Trees, steps: &[(u64, Step, Answer)]) {
    for (moment, each, wanted) in steps {
        let answer = take_one(alloc, trees, *moment, each);
        answers(rt, answer, *wanted, *moment);
    }
}

/// Compares the counts of keys.
pub fn infos_are(
    rt: &impl Abort,
    alloc: Global,
    trees: &Trees,
    wanted: &[(u8, &str, Result<Counts, Refusal>)],
) {
    for (hive, at, told) in wanted {
        tells(rt, info(alloc, trees, *hive, at), *told, at);
    }
}

/// Compares the names of keys' values in their order, each with a blank after it.
pub fn values_are(rt: &impl Abort, alloc: Global, trees: &Trees, wanted: &[(u8, &str, &str)]) {
    for (hive, at, names) in wanted {
        says(rt, has_values(alloc, trees, *hive, at, names), true, at);
    }
}

fn has_values(
    alloc: Global,
    trees: &Trees,
    hive: u8,
    at: &str,
    names: &str,
) -> Result<bool, Refusal> {
    Ok(values(alloc, trees, hive, at)?.as_str() == names)
}

/// A value: its hive, its key's path, its name, type and data.
pub type Datum<'a> = (u8, &'a str, &'a str, u32, &'a [u8]);

/// Compares the type and data of values.
pub fn data_are(rt: &impl Abort, alloc: Global, trees: &Trees, wanted: &[Datum<'_>]) {
    for datum in wanted {
        says(rt, has_datum(alloc, trees, datum), true, datum.1);
    }
}

fn has_datum(alloc: Global, trees: &Trees, datum: &Datum<'_>) -> Result<bool, Refusal> {
    let (hive, at, name, kind, bytes) = datum;
    let path = path(alloc, at)?;
    let name = value_name(alloc, name)?;
    let value = trees.get_value(*hive, &path, name.name())?;
    Ok(value.kind == *kind && value.data.bytes() == *bytes)
}

/// How many subkeys and values a key has, and when it was last written.
pub fn info(alloc: Global, trees: &Trees, hive: u8, at: &str) -> Result<Counts, Refusal> {
    let path = path(alloc, at)?;
    let info = trees.query_info(hive, &path)?;
    Ok((info.subkeys, info.values, info.time))
}

fn values(alloc: Global, trees: &Trees, hive: u8, at: &str) -> Result<String, Refusal> {
    let path = path(alloc, at)?;
    let mut text = String::new(alloc);
    for index in 0..1000 {
        match trees.enum_value(hive, &path, index) {
            Ok(value) => push_name(&mut text, value.name.units())?,
            Err(_) => break,
        }
    }
    Ok(text)
}

fn push_name(text: &mut String, units: &[u16]) -> Result<(), AllocError> {
    for unit in units {
        match u8::try_from(*unit) {
            Ok(byte) => text.push(char::from(byte))?,
            Err(_) => text.push('?')?,
        }
    }
    text.push(' ')
}

//! Trees that are made from others share what they have, and leave the others as they were; numbers past the end of a
//! list.
use crate::trees::fixtures::{Answer, LEGAL, Step, counts, data_are, path, take, values_are};
use refusals::Refusal;
use reg_tree::Trees;
use std::alloc::Global;
use std::test::Fail;

// a moment, what is done then, and the answer to it
type Taken = (u64, Step, Answer);

const COMMITTED: [Taken; 1] = [(0, Step::Create(0, "K"), LEGAL)];

const PRIVATE: [Taken; 1] = [(0, Step::Set(0, "K", "v", 4, &[1, 0, 0, 0]), LEGAL)];

const PLAIN: [Taken; 1] = [(0, Step::Set(0, "K", "w", 1, &[]), LEGAL)];

#[test]
fn trees_made_from_others_leave_them_as_they_were(rt: HostRuntime) -> Result<(), Fail> {
    let alloc = rt.alloc();
    let mut committed = Trees::new(alloc, 1)?;
    take(&rt, alloc, &mut committed, &COMMITTED);
    let mut view = committed.try_clone(alloc)?;
    take(&rt, alloc, &mut view, &PRIVATE);
    values_are(&rt, alloc, &committed, &[(0, "K", "")]);
    data_are(&rt, alloc, &view, &[(0, "K", "v", 4, &[1, 0, 0, 0])]);
    take(&rt, alloc, &mut committed, &PLAIN);
    values_are(&rt, alloc, &committed, &[(0, "K", "w ")]);
    values_are(&rt, alloc, &view, &[(0, "K", "v ")]);
    data_are(&rt, alloc, &committed, &[(0, "k", "W", 1, &[])]);
    Ok(())
}

// the length of the name of the subkey that has a number
fn key_listed(alloc: Global, trees: &Trees, at: &str, index: usize) -> Result<usize, Refusal> {
    let path = path(alloc, at)?;
    Ok(trees.enum_key(0, &path, index)?.units().len())
}

// the length of the name of the value that has a number
fn value_listed(alloc: Global, trees: &Trees, at: &str, index: usize) -> Result<usize, Refusal> {
    let path = path(alloc, at)?;
    Ok(trees.enum_value(0, &path, index)?.name.units().len())
}

const NOT_LISTED: Result<usize, Refusal> = Err(Refusal::NotFound);

const TWO_KEYS: [Taken; 2] = [
    (1, Step::Create(0, "b"), LEGAL),
    (1, Step::Create(0, "A"), LEGAL),
];

// paths, numbers, and what is listed there of subkeys
const SUBKEYS: [(&str, usize, Result<usize, Refusal>); 3] = [
    ("", 1, Ok(1)),
    ("", 2, NOT_LISTED),
    ("B\\b", 0, NOT_LISTED),
];

#[test]
fn lists_end(rt: HostRuntime) -> Result<(), Fail> {
    let alloc = rt.alloc();
    let mut trees = Trees::new(alloc, 1)?;
    take(&rt, alloc, &mut trees, &TWO_KEYS);
    for (at, index, wanted) in SUBKEYS {
        counts(&rt, key_listed(alloc, &trees, at, index), wanted, at);
    }
    for at in ["", "B\\b"] {
        counts(&rt, value_listed(alloc, &trees, at, 0), NOT_LISTED, at);
    }
    Ok(())
}

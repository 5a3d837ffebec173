//! Accepted changes: the length of their encoding, and their operations in order.
use crate::trees::fixtures::{Counts, Step, data_are, element, infos_are, set, zeros};
use refusals::Refusal;
use reg_tree::{Element, Ops, Trees};
use std::alloc::Global;
use std::test::Fail;

// a change of these operations; without any there is none
fn change(alloc: Global, moment: u64, steps: &[Step]) -> Result<Option<Element>, Refusal> {
    let mut list = Vec::new(alloc);
    for step in steps {
        list.push(step.op(alloc)?)?;
    }
    match Ops::from_vec(list) {
        Some(ops) => Ok(Some(Element { moment, ops })),
        None => Ok(None),
    }
}

// the length of a change of one operation
fn length_of_one(alloc: Global, step: &Step) -> Result<u64, Refusal> {
    Ok(element(alloc, 1, step.op(alloc)?)?.text_len())
}

// the length of a change that writes a value of the greatest length
fn greatest_length(alloc: Global) -> Result<u64, Refusal> {
    let bytes = zeros(alloc, 1_048_576)?;
    Ok(element(alloc, 1, set(alloc, 0, "K", "v", 1, &bytes)?)?.text_len())
}

// the length of a change of several operations; without any there is none
fn length(alloc: Global, steps: &[Step]) -> Result<Option<u64>, Refusal> {
    match change(alloc, 1, steps)? {
        Some(change) => Ok(Some(change.text_len())),
        None => Ok(None),
    }
}

const LENGTHS: [(Step, u64); 3] = [
    (Step::Create(0, "Software\\A"), 31),
    (Step::Create(0, ""), 20),
    (Step::Unset(0, "K", "v"), 25),
];

const BOTH: [Step; 2] = [Step::Create(0, "Software\\A"), Step::Unset(0, "K", "v")];

// whether changes of one operation have these lengths
fn are_long(alloc: Global, lengths: &[(Step, u64)]) -> bool {
    for (step, wanted) in lengths {
        if length_of_one(alloc, step) != Ok(*wanted) {
            return false;
        }
    }
    true
}

#[test]
fn a_change_has_the_length_of_its_text(rt: HostRuntime) {
    let alloc = rt.alloc();
    assert!(rt; are_long(alloc, &LENGTHS));
    assert!(rt; greatest_length(alloc) == Ok(1_048_609));
    assert!(rt; length(alloc, &BOTH) == Ok(Some(40)));
    assert!(rt; length(alloc, &[]) == Ok(None));
}

const IN_ORDER: [Step; 4] = [
    Step::Create(1, "A"),
    Step::Set(1, "A", "v", 1, &[1]),
    Step::Set(1, "A", "v", 2, &[2]),
    Step::Create(0, "B"),
];

// the trees after a change of these operations
fn after(alloc: Global, trees: &Trees, moment: u64, steps: &[Step]) -> Result<Trees, Refusal> {
    match change(alloc, moment, steps)? {
        Some(change) => Ok(trees.apply(alloc, &change)?),
        None => Err(Refusal::NotFound),
    }
}

#[test]
fn operations_of_a_change_are_applied_in_order_at_its_moment(rt: HostRuntime) -> Result<(), Fail> {
    let alloc = rt.alloc();
    let trees = Trees::new(alloc, 2)?;
    let after = after(alloc, &trees, 5, &IN_ORDER)?;
    data_are(&rt, alloc, &after, &[(1, "A", "v", 2, &[2])]);
    infos_are(&rt, alloc, &after, &TOLD_AFTER);
    infos_are(&rt, alloc, &trees, &TOLD_BEFORE);
    Ok(())
}

const TOLD_AFTER: [(u8, &str, Result<Counts, Refusal>); 3] = [
    (1, "A", Ok((0, 1, 5))),
    (0, "", Ok((1, 0, 5))),
    (0, "B", Ok((0, 0, 5))),
];

const TOLD_BEFORE: [(u8, &str, Result<Counts, Refusal>); 2] = [
    (1, "A", Err(Refusal::NotFound)),
    (0, "", Ok((0, 0, 0))),
];

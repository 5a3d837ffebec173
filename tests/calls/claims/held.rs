//! Which transactions hold claims.
use crate::claims::operations::Step;
use conflicts::{ClaimOwner, ClaimTable, claims};
use refusals::Refusal;
use std::alloc::Global;
use std::process::Abort;
use std::test::Fail;

// claims of the transactions 9, 2 and 5, of which 9 has one twice
fn filled(alloc: Global) -> Result<ClaimTable, Refusal> {
    let mut table = ClaimTable::new(alloc);
    let added = [
        (9, Step::Set(0, "A\\B")),
        (2, Step::Create(0, "a\\c\\d")),
        (9, Step::Create(0, "A\\E")),
        (5, Step::Set(0, "AB")),
        (9, Step::Set(0, "A\\B")),
    ];
    for (owner, step) in &added {
        if !table.claim(ClaimOwner(*owner), &claims(&step.op(alloc)?))? {
            return Err(Refusal::Conflict);
        }
    }
    Ok(table)
}

// compares the owners of claims that conflict with the step's
fn holders_are(
    rt: &impl Abort,
    alloc: Global,
    table: &ClaimTable,
    asker: Option<ClaimOwner>,
    step: &Step,
    wanted: &[u64],
) -> Result<(), Refusal> {
    let op = step.op(alloc)?;
    let found = table.holders(asker, &claims(&op))?;
    assert!(rt; found.len() == wanted.len());
    for (owner, number) in found.iter().zip(wanted) {
        assert!(rt; owner.0 == *number);
    }
    Ok(())
}

#[test]
fn holders_are_listed_once_in_the_order_of_their_claims(rt: HostRuntime) -> Result<(), Fail> {
    let alloc = rt.alloc();
    let table = filled(alloc)?;
    let whole = Step::Delete(0, "A");
    holders_are(&rt, alloc, &table, None, &whole, &[9, 2])?;
    holders_are(&rt, alloc, &table, Some(ClaimOwner(9)), &whole, &[2])?;
    let deep = Step::Set(0, "A\\C\\D\\E\\F");
    holders_are(&rt, alloc, &table, None, &deep, &[2])?;
    holders_are(&rt, alloc, &table, None, &Step::Set(0, "A"), &[])?;
    Ok(())
}

#[test]
fn a_claim_is_held_where_no_other_s_conflicts_with_it(rt: HostRuntime) -> Result<(), Fail> {
    let alloc = rt.alloc();
    let mut table = filled(alloc)?;
    let asked = [
        (2, Step::Set(0, "a\\b"), false),
        (9, Step::Unset(0, "a\\b"), true),
        (9, Step::Delete(0, "A"), false),
        (5, Step::Set(0, "A\\C\\D\\E"), false),
        (2, Step::Set(0, "A\\C\\D\\E"), true),
        (5, Step::Set(1, "A\\B"), true),
    ];
    for (owner, step, wanted) in &asked {
        let op = step.op(alloc)?;
        assert!(&rt; table.claim(ClaimOwner(*owner), &claims(&op))? == *wanted);
    }
    holders_are(&rt, alloc, &table, None, &Step::Delete(0, "A"), &[9, 2])?;
    holders_are(&rt, alloc, &table, None, &Step::Delete(0, "A\\B"), &[9])?;
    Ok(())
}

#[test]
fn dropped_claims_are_held_no_more(rt: HostRuntime) -> Result<(), Fail> {
    let alloc = rt.alloc();
    let mut table = filled(alloc)?;
    let root = Step::Create(0, "");
    table.drop_of(ClaimOwner(9));
    holders_are(&rt, alloc, &table, None, &root, &[2, 5])?;
    table.drop_of(ClaimOwner(2));
    table.drop_of(ClaimOwner(5));
    holders_are(&rt, alloc, &table, None, &root, &[])?;
    Ok(())
}

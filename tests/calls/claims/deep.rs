//! Claims of keys below one another, and of keys that the index takes for one.
use crate::claims::operations::path;
use conflicts::{ClaimOwner, ClaimTable, claims};
use refusals::Refusal;
use reg_names::{Name, Path};
use reg_tree::{Data, Op};
use std::alloc::Global;
use std::test::Fail;

// as many levels as a path may have
const DEEPEST: u64 = 512;

// a path of this many levels, all of one name
fn nested(alloc: Global, levels: u64) -> Result<Path, Refusal> {
    let mut units = Vec::new(alloc);
    for level in 0..levels {
        if level > 0 {
            units.push(0x5c)?;
        }
        units.push(0x64)?;
    }
    Path::parse(alloc, &units)
}

fn create(path: Path) -> Op {
    Op::CreateKey { hive: 0, path }
}

fn set(alloc: Global, path: Path) -> Result<Op, Refusal> {
    Ok(Op::SetValue {
        hive: 0,
        path,
        name: Name::value(alloc, &[0x76])?,
        kind: 4,
        data: Data::new(alloc, &[1])?,
    })
}

// whether the transaction gets the operation's claim
fn gets(table: &mut ClaimTable, owner: u64, op: &Op) -> Result<bool, Refusal> {
    let held = table.claim(ClaimOwner(owner), &claims(op))?;
    Ok(held)
}

#[test]
fn claims_of_values_above_a_key_are_not_in_its_way(rt: HostRuntime) -> Result<(), Fail> {
    let alloc = rt.alloc();
    let mut table = ClaimTable::new(alloc);
    for level in 1..=DEEPEST {
        let op = set(alloc, nested(alloc, level)?)?;
        assert!(&rt; gets(&mut table, level, &op)?);
    }
    let third_last = create(nested(alloc, DEEPEST - 2)?);
    assert!(&rt; !gets(&mut table, 1, &third_last)?);
    let found = table.holders(None, &claims(&third_last))?;
    assert!(&rt; found.len() == 3 && found[0].0 == 510 && found[1].0 == 511 && found[2].0 == 512);
    for owner in [512, 510, 511] {
        table.drop_of(ClaimOwner(owner));
    }
    assert!(&rt; gets(&mut table, 1, &third_last)?);
    let last = set(alloc, nested(alloc, DEEPEST)?)?;
    assert!(&rt; !gets(&mut table, 512, &last)?);
    Ok(())
}

#[test]
fn the_claim_of_a_made_key_is_in_the_way_of_all_below_it(rt: HostRuntime) -> Result<(), Fail> {
    let alloc = rt.alloc();
    let mut table = ClaimTable::new(alloc);
    for level in 1..=DEEPEST {
        assert!(&rt; gets(&mut table, 9, &create(nested(alloc, level)?))?);
    }
    for level in [1, 2, 256, DEEPEST] {
        let op = set(alloc, nested(alloc, level)?)?;
        assert!(&rt; !gets(&mut table, 2, &op)?);
        let found = table.holders(Some(ClaimOwner(2)), &claims(&op))?;
        assert!(&rt; found.len() == 1 && found[0].0 == 9);
    }
    table.drop_of(ClaimOwner(9));
    let op = create(nested(alloc, 1)?);
    assert!(&rt; gets(&mut table, 2, &op)?);
    Ok(())
}

// These two names, as keys of the root of hive 0, have one SipHash-1-3. A search found them, and Python's `hash` agrees
// if PYTHONHASHSEED is 0.
#[test]
fn keys_of_one_hash_are_told_apart(rt: HostRuntime) -> Result<(), Fail> {
    let alloc = rt.alloc();
    let mut table = ClaimTable::new(alloc);
    let one = create(path(alloc, "OOLGANEHPNMOFKOB")?);
    let below_one = set(alloc, path(alloc, "OOLGANEHPNMOFKOB\\x")?)?;
    let other = create(path(alloc, "PEEDPNEJJMJKCAIC")?);
    let below_other = set(alloc, path(alloc, "PEEDPNEJJMJKCAIC\\x")?)?;
    assert!(&rt; gets(&mut table, 9, &one)?);
    assert!(&rt; gets(&mut table, 2, &below_other)?);
    assert!(&rt; gets(&mut table, 2, &other)?);
    assert!(&rt; !gets(&mut table, 2, &below_one)?);
    table.drop_of(ClaimOwner(9));
    assert!(&rt; gets(&mut table, 2, &below_one)?);
    assert!(&rt; !gets(&mut table, 9, &below_other)?);
    Ok(())
}

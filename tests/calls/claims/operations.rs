//! Operations given as strings, and whether the claims of two conflict.
use conflicts::{claims, conflict};
use refusals::Refusal;
use reg_names::{Name, Path};
use reg_tree::{Data, Op};
use std::alloc::Global;
use std::test::Fail;

/// An operation: its hive and the text of its path.
#[derive(Drop)]
pub enum Step {
    Create(u8, &'static str),
    Delete(u8, &'static str),
    Set(u8, &'static str),
    Unset(u8, &'static str),
}

/// The path of a text.
pub fn path(alloc: Global, text: &str) -> Result<Path, Refusal> {
    let mut units = Vec::new(alloc);
    for byte in text.as_bytes() {
        units.push(u16::from(*byte))?;
    }
    Path::parse(alloc, &units)
}

impl Step {
    pub fn op(&self, alloc: Global) -> Result<Op, Refusal> {
        match self {
            Step::Create(hive, at) => Ok(Op::CreateKey {
                hive: *hive,
                path: path(alloc, at)?,
            }),
            Step::Delete(hive, at) => Ok(Op::DeleteKey {
                hive: *hive,
                path: path(alloc, at)?,
            }),
            Step::Set(hive, at) => Ok(Op::SetValue {
                hive: *hive,
                path: path(alloc, at)?,
                name: Name::value(alloc, &[0x76])?,
                kind: 4,
                data: Data::new(alloc, &[1])?,
            }),
            Step::Unset(hive, at) => Ok(Op::DeleteValue {
                hive: *hive,
                path: path(alloc, at)?,
                name: Name::value(alloc, &[0x77])?,
            }),
        }
    }
}

#[test]
fn claims_conflict_by_folded_names_and_below_a_shape(rt: HostRuntime) -> Result<(), Fail> {
    let alloc = rt.alloc();
    let cases = [
        (Step::Create(0, "K"), Step::Create(0, "k"), true),
        (Step::Create(0, "Foo"), Step::Create(0, "Foobar\\X"), false),
        (Step::Create(0, "Foo"), Step::Create(0, "foo\\X"), true),
        (Step::Delete(0, "A"), Step::Set(0, "A\\B"), true),
        (Step::Set(0, "a"), Step::Set(0, "A\\B"), false),
        (Step::Delete(0, "A"), Step::Set(0, "a"), true),
        (Step::Set(0, "A\\B"), Step::Create(0, "A\\B\\C"), false),
        (Step::Set(0, "a"), Step::Unset(0, "A"), true),
        (Step::Delete(1, "A"), Step::Set(0, "A\\B"), false),
        (Step::Create(0, ""), Step::Set(0, "A"), true),
    ];
    for (one, other, wanted) in &cases {
        let one = one.op(alloc)?;
        let other = other.op(alloc)?;
        assert!(&rt; conflict(&claims(&one), &claims(&other)) == *wanted);
        assert!(&rt; conflict(&claims(&other), &claims(&one)) == *wanted);
    }
    Ok(())
}

//! Names and paths: which may be made, how they compare, and names that only a hive file can bring.
use crate::trees::fixtures::{counts, path, says, units};
use refusals::Refusal;
use reg_names::{Name, Path, folded_unit};
use reg_tree::{Data, Descriptor, Key, Trees};
use reg_tree_parts::{Node, Values};
use std::alloc::{AllocError, Global};
use std::cmp::Ordering;
use std::test::Fail;

// two paths, and whether the first begins the second
const BEGINNINGS: [(&str, &str, bool); 10] = [
    ("Foo", "Foobar\\X", false),
    ("Foo", "Foobar", false),
    ("Foo", "fOO\\X", true),
    ("Foo", "FOO", true),
    ("Foo\\X", "Foo", false),
    ("Foo\\X", "foo\\x\\y", true),
    ("Foo\\X", "foo\\y\\x", false),
    ("", "", true),
    ("", "Foo", true),
    ("Foo", "", false),
];

fn begins(alloc: Global, first: &str, second: &str) -> Result<bool, Refusal> {
    let first = path(alloc, first)?;
    let second = path(alloc, second)?;
    Ok(first.begins(&second))
}

#[test]
fn a_path_begins_another_by_names_and_not_by_text(rt: HostRuntime) {
    let alloc = rt.alloc();
    for (first, second, wanted) in BEGINNINGS {
        says(&rt, begins(alloc, first, second), wanted, second);
    }
}

// paths, each before the next one
const RISING: [(&str, &str); 6] = [
    ("", "A"),
    ("A", "a\\B"),
    ("a\\B", "A\\BB"),
    ("A\\BB", "AB"),
    ("AB", "b"),
    ("b", "_"),
];

// whether the first path is before the second, either way asked
fn is_before(alloc: Global, first: &str, second: &str) -> Result<bool, Refusal> {
    let first = path(alloc, first)?;
    let second = path(alloc, second)?;
    Ok(first.cmp(&second) == Ordering::Less && second.cmp(&first) == Ordering::Greater)
}

fn is_same(alloc: Global, first: &str, second: &str) -> Result<bool, Refusal> {
    let first = path(alloc, first)?;
    let second = path(alloc, second)?;
    Ok(first == second)
}

#[test]
fn paths_are_ordered_name_by_name(rt: HostRuntime) {
    let alloc = rt.alloc();
    for (first, second) in RISING {
        says(&rt, is_before(alloc, first, second), true, second);
    }
    says(&rt, is_same(alloc, "software\\a", "SOFTWARE\\A"), true, "A");
    says(&rt, is_same(alloc, "A\\B", "AB"), false, "AB");
}

fn has_units(alloc: Global, name: &Name, text: &str) -> Result<bool, AllocError> {
    Ok(name.units() == units(alloc, text)?.as_slice())
}

// whether a path's text has these names
fn has_names(alloc: Global, text: &str, wanted: &[&str]) -> Result<bool, Refusal> {
    let path = path(alloc, text)?;
    for (name, text) in path.names().iter().zip(wanted) {
        if !has_units(alloc, name, text)? {
            return Ok(false);
        }
    }
    Ok(path.names().len() == wanted.len())
}

// texts of no path
const NO_PATHS: [&str; 6] = ["\\", "\\A", "A\\", "A\\\\B", "\n", "A\\\x7f"];

fn path_len(alloc: Global, text: &str) -> Result<usize, Refusal> {
    Ok(path(alloc, text)?.names().len())
}

#[test]
fn a_path_is_read_from_its_text(rt: HostRuntime) {
    let alloc = rt.alloc();
    for text in NO_PATHS {
        counts(&rt, path_len(alloc, text), Err(Refusal::BadName), text);
    }
    says(
        &rt,
        has_names(alloc, "So ft\\a~", &["So ft", "a~"]),
        true,
        "a~",
    );
    counts(&rt, path_len(alloc, ""), Ok(0), "");
}

// why a unit is no key's name
fn key_refusal(alloc: Global, unit: u16) -> Option<Refusal> {
    Name::key(alloc, &[unit]).err()
}

// why a unit is no value's name
fn value_refusal(alloc: Global, unit: u16) -> Option<Refusal> {
    Name::value(alloc, &[unit]).err()
}

// why a unit is no path
fn path_refusal(alloc: Global, unit: u16) -> Option<Refusal> {
    Path::parse(alloc, &[unit]).err()
}

const BAD_NAME: Option<Refusal> = Some(Refusal::BadName);

// units, and why each is no name of a key, and none of a value
const UNITS: [(u16, Option<Refusal>, Option<Refusal>); 10] = [
    (0, BAD_NAME, BAD_NAME),
    (0x1f, BAD_NAME, BAD_NAME),
    (0x7f, BAD_NAME, BAD_NAME),
    (0xe9, BAD_NAME, BAD_NAME),
    (0x0141, BAD_NAME, BAD_NAME),
    (0xff41, BAD_NAME, BAD_NAME),
    (0x20, None, None),
    (0x41, None, None),
    (0x7e, None, None),
    (0x5c, BAD_NAME, None),
];

// whether a unit has these refusals, and as a path that of a key's name
fn is_refused(alloc: Global, unit: u16, key: Option<Refusal>, value: Option<Refusal>) -> bool {
    key_refusal(alloc, unit) == key
        && path_refusal(alloc, unit) == key
        && value_refusal(alloc, unit) == value
}

#[test]
fn calls_make_no_names_past_ascii(rt: HostRuntime) {
    for (unit, key, value) in UNITS {
        assert!(rt; is_refused(rt.alloc(), unit, key, value), "at {unit}");
    }
}

// units, and what each folds to
const FOLDED: [(u16, u16); 8] = [
    (0x60, 0x60),
    (0x61, 0x41),
    (0x7a, 0x5a),
    (0x7b, 0x7b),
    (0x41, 0x41),
    (0xe9, 0xe9),
    (0x0161, 0x0161),
    (0xff41, 0xff41),
];

fn folded(unit: u16) -> u16 {
    folded_unit(unit)
}

#[test]
fn only_ascii_letters_fold(rt: HostRuntime) {
    for (unit, wanted) in FOLDED {
        assert_eq!(rt; folded(unit), wanted, "at {unit}");
    }
}

// the key with one subkey more, whose name has these units
fn grown(alloc: Global, node: &Node, units: &[u16]) -> Result<Node, AllocError> {
    let name = Name::stored(alloc, units)?;
    let key = node.key();
    let child = Node::branch(alloc, &name, &[], key.descriptor(), 1)?;
    let made = node.with_new_child(alloc, key.with_time(1)?, child)?;
    Ok(made)
}

// a key with the subkeys `é`, `z`, `É` and a small Greek alpha
fn foreign(alloc: Global) -> Result<Node, AllocError> {
    let name = Name::stored(alloc, &[])?;
    let descriptor = Descriptor::new(alloc, &[])?;
    let key = Key::fresh(&name, &descriptor, 0)?;
    let mut node = Node::leaf(key);
    for unit in [0xe9, 0x7a, 0xc9, 0x03b1] {
        node = grown(alloc, &node, &[unit])?;
    }
    Ok(node)
}

// whether the subkey of a number has a name of this unit alone
fn is_subkey(node: &Node, index: usize, unit: u16) -> bool {
    match node.subkey(index) {
        Some(name) => name.units() == [unit].as_slice(),
        None => false,
    }
}

// whether the key with a name of this unit alone is found
fn is_found(alloc: Global, node: &Node, unit: u16) -> Result<bool, Refusal> {
    let names = [Name::stored(alloc, &[unit])?];
    match node.find(&names) {
        Some(found) => Ok(found.key().name().units() == [unit].as_slice()),
        None => Ok(false),
    }
}

fn has_child(alloc: Global, node: &Node, unit: u16) -> Result<bool, Refusal> {
    let name = Name::stored(alloc, &[unit])?;
    Ok(node.child(&name).is_some())
}

// the subkeys in their order
const SUBKEYS: [(usize, u16); 4] = [(0, 0x7a), (1, 0xc9), (2, 0xe9), (3, 0x03b1)];

// whether those are the subkeys that are listed, and each is found
fn has_subkeys(alloc: Global, node: &Node) -> Result<bool, Refusal> {
    for (index, unit) in SUBKEYS {
        if !(is_subkey(node, index, unit) && is_found(alloc, node, unit)?) {
            return Ok(false);
        }
    }
    Ok(ends_at(node, 4))
}

// whether a key has this many subkeys, and no more are listed
fn ends_at(node: &Node, count: usize) -> bool {
    node.subkey_count() == count && node.subkey(count).is_none()
}

fn weight_of(node: &Node) -> u64 {
    node.weight()
}

#[test]
fn keys_past_ascii_are_found_and_listed_by_their_units(rt: HostRuntime) -> Result<(), Fail> {
    let alloc = rt.alloc();
    let node = foreign(alloc)?;
    says(&rt, has_subkeys(alloc, &node), true, "the subkeys");
    says(&rt, has_child(alloc, &node, 0x5a), true, "Z");
    says(
        &rt,
        has_child(alloc, &node, 0x0391),
        false,
        "a great Greek alpha",
    );
    // 192 for each key, and two for each unit
    assert!(rt; weight_of(&node) == 5 * 192 + 4 * 2);
    Ok(())
}

// the values with one more, whose name is this unit alone
fn with_value(alloc: Global, values: &Values, kind: u32, unit: u16) -> Result<Values, AllocError> {
    let name = Name::stored(alloc, &[unit])?;
    let bytes = Data::new(alloc, &[1, 2])?;
    Ok(values.with(alloc, &name, kind, &bytes)?)
}

// the values `é`, `z` and `É`, with the types 0 to 2
fn foreign_values(alloc: Global) -> Result<Values, AllocError> {
    let mut values = Values::new();
    for (kind, unit) in [(0, 0xe9), (1, 0x7a), (2, 0xc9)] {
        values = with_value(alloc, &values, kind, unit)?;
    }
    Ok(values)
}

// whether the value of a number has a name of this unit alone
fn is_value(values: &Values, index: usize, unit: u16) -> bool {
    match values.at(index) {
        Some(value) => value.name.units() == [unit].as_slice(),
        None => false,
    }
}

// the type of the value with a name of this unit alone
fn kind_of(alloc: Global, values: &Values, unit: u16) -> Result<Option<u32>, AllocError> {
    let name = Name::stored(alloc, &[unit])?;
    match values.get(&name) {
        Some(value) => Ok(Some(value.kind)),
        None => Ok(None),
    }
}

// the values in their order
const VALUES: [(usize, u16); 3] = [(0, 0x7a), (1, 0xc9), (2, 0xe9)];

// whether those are the values that are listed, and no more
fn are_values(values: &Values) -> bool {
    for (index, unit) in VALUES {
        if !is_value(values, index, unit) {
            return false;
        }
    }
    values.len() == 3 && values.at(3).is_none()
}

fn weight_of_values(values: &Values) -> u64 {
    values.weight()
}

#[test]
fn values_past_ascii_are_found_and_listed_by_their_units(rt: HostRuntime) -> Result<(), Fail> {
    let alloc = rt.alloc();
    let values = foreign_values(alloc)?;
    assert!(rt; are_values(&values));
    assert!(rt; kind_of(alloc, &values, 0xc9) == Ok(Some(2)));
    assert!(rt; kind_of(alloc, &values, 0xea) == Ok(None));
    assert!(rt; weight_of_values(&values) == 3 * 132);
    Ok(())
}

#[test]
fn a_look_up_past_ascii_finds_nothing_in_a_new_tree(rt: HostRuntime) -> Result<(), Fail> {
    let alloc = rt.alloc();
    let trees = Trees::new(alloc, 1)?;
    let root = Path::root(alloc)?;
    let name = Name::stored(alloc, &[0xe9])?;
    let answer = trees.get_value(0, &root, &name);
    assert!(rt; matches!(answer, Err(Refusal::NotFound)));
    Ok(())
}

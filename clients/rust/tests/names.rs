//! Names: how they are carried, and those that no line carries.

mod common;

use common::{Scratch, SOFTWARE};
use regtx_client::{Error, Key, Requests, Store, Value};

/// Names of values, and how the program prints them.
const NAMES: [(&str, &str); 9] = [
    ("", "@"),
    ("@", "%0040"),
    (" ", "%0020"),
    ("%", "%0025"),
    ("%0020", "%00250020"),
    ("a b%c", "a%0020b%0025c"),
    ("a/b", "a/b"),
    (r"a\b", r"a\b"),
    ("-", "-"),
];

/// Names that no line may carry: those that hold lines, or parts of them, among them.
const WRONG: [&str; 7] = [
    "a\nset 0: x 4 01000000",
    "a\r",
    "\t",
    "\0",
    "\u{7f}",
    "\u{e9}",
    "a 1 -\nflush\n",
];

fn is_name<T>(answer: &Result<T, Error>) -> bool {
    matches!(answer, Err(Error::WrongName(..)))
}

#[test]
fn value_names_are_quoted() {
    let scratch = Scratch::new();
    let store = scratch.store();
    for (at, (name, _)) in (0..).zip(NAMES) {
        store.set_value(SOFTWARE, name, &Value::dword(at)).unwrap();
    }
    for (at, (name, _)) in (0..).zip(NAMES) {
        assert_eq!(
            store.get_value(SOFTWARE, name).unwrap().to_u32(),
            Some(at),
            "{name:?}"
        );
    }
    let mut wanted: Vec<&str> = NAMES.iter().map(|(name, _)| *name).collect();
    wanted.sort_unstable_by_key(|name| name.to_uppercase());
    assert_eq!(store.value_names(SOFTWARE).unwrap(), wanted);
    store.close().unwrap();
    let replies = scratch.replies("values 0:Software\n");
    let mut printed: Vec<&str> = replies[0].split(' ').skip(2).collect();
    let mut words: Vec<&str> = NAMES.iter().map(|(_, word)| *word).collect();
    printed.sort_unstable();
    words.sort_unstable();
    assert_eq!(printed, words);
}

#[test]
fn key_names_are_quoted() {
    let scratch = Scratch::new();
    let store = scratch.store();
    for (name, _) in NAMES
        .iter()
        .filter(|(name, _)| !name.is_empty() && !name.contains('\\'))
    {
        let path = format!(r"Some Vendor\{name}");
        store.create_key(Key::new(0, &path)).unwrap();
        assert_eq!(store.key_info(Key::new(0, &path)).unwrap().subkeys, 0);
        assert!(store
            .subkeys(Key::new(0, "Some Vendor"))
            .unwrap()
            .contains(&name.to_string()));
    }
    store.close().unwrap();
    let replies = scratch.replies("keys 0:Some%0020Vendor\n");
    assert_eq!(
        replies,
        ["keys 7 %0020 %0025 %00250020 - %0040 a%0020b%0025c a/b"]
    );
}

#[test]
fn wrong_names_send_nothing() {
    let scratch = Scratch::new();
    let store = scratch.store();
    for name in WRONG {
        let key = Key::new(0, name);
        assert!(is_name(&store.create_key(key)), "{name:?}");
        assert!(is_name(&store.delete_key(key)));
        assert!(is_name(&store.set_value(key, "v", &Value::none([]))));
        assert!(is_name(&store.set_value(SOFTWARE, name, &Value::none([]))));
        assert!(is_name(&store.delete_value(SOFTWARE, name)));
        assert!(is_name(&store.get_value(SOFTWARE, name)));
        assert!(is_name(&store.subkeys(key)) && is_name(&store.value_names(key)));
        assert!(is_name(&store.key_info(key)));
    }
    for path in [r"\Software", r"Software\", r"Software\\X", r"\"] {
        assert!(is_name(&store.create_key(Key::new(0, path))), "{path:?}");
    }
    store.close().unwrap();
    let replies = scratch.replies("keys 0:\nvalues 0:\nvalues 0:Software\n");
    assert_eq!(replies, ["keys 1 Software", "values 0", "values 0"]);
    assert_eq!(scratch.open().opened_at(), 1);
}

#[test]
fn names_have_their_longest() {
    let scratch = Scratch::new();
    let store = scratch.store();
    let (key, value) = ("k".repeat(256), "v".repeat(16_384));
    store.create_key(Key::new(0, &key[1..])).unwrap();
    store
        .set_value(SOFTWARE, &value[1..], &Value::none([]))
        .unwrap();
    assert!(is_name(&store.create_key(Key::new(0, &key))));
    assert!(is_name(&store.set_value(
        SOFTWARE,
        &value,
        &Value::none([])
    )));
    assert_eq!(store.value_names(SOFTWARE).unwrap(), [&value[1..]]);
    store.close().unwrap();
}

#[test]
fn listed_names_are_unicode() {
    let store = Scratch::new().fake(&["keys 3 %00e9%0020 %d83d%de00 a%d800"], "exit 0");
    assert_eq!(
        store.subkeys(SOFTWARE).unwrap(),
        ["\u{e9} ", "\u{1f600}", "a\u{fffd}"]
    );
    store.close().unwrap();
}

#[test]
fn names_are_matched_by_folded_letters() {
    let scratch = Scratch::new();
    let store: Store = scratch.store();
    store
        .set_value(SOFTWARE, "Version", &Value::dword(7))
        .unwrap();
    let found = store.get_value(Key::new(0, "sOFTWARE"), "VERSION").unwrap();
    assert_eq!(found.to_u32(), Some(7));
    store.close().unwrap();
}

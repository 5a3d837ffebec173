//! Hives that are made, read and edited: expected are the rules of `regtx.h`.

use regtx_hive::{moment_of, version, Error, Hive, Key, Kind, Name, Value};
use std::thread;
use std::time::{Duration, SystemTime, UNIX_EPOCH};

/// A hive with a few keys, whose time is 7.
fn vendor() -> Hive {
    let mut hive = Hive::new().unwrap();
    hive.at(Some(7));
    assert_eq!(hive.create_key(r"Software\Vendor"), Ok(2));
    assert_eq!(hive.create_key(r"software\VENDOR"), Ok(0));
    assert_eq!(hive.create_key("b"), Ok(1));
    assert_eq!(hive.create_key("_"), Ok(1));
    hive.set_value(r"Software\Vendor", "Version", &Value::sz("1.0"))
        .unwrap();
    hive.set_value(r"Software\Vendor", "", &Value::dword(3))
        .unwrap();
    hive
}

fn refusal<T: std::fmt::Debug>(told: Result<T, Error>) -> (u32, String, String) {
    let why = told.unwrap_err();
    (why.code(), why.name(), why.to_string())
}

#[test]
fn keys_and_values_are_found_in_any_spelling() {
    let hive = vendor();
    let key = hive.key("SOFTWARE\\vendor").unwrap();
    let wanted = Key {
        name: "Vendor".into(),
        subkeys: 0,
        values: 2,
        time: 7,
    };
    assert_eq!(key, wanted);
    assert_eq!(hive.key("").unwrap().name, "ROOT");
    assert_eq!(
        hive.value("software\\vendor", "VERSION"),
        Ok(Value::sz("1.0"))
    );
    assert_eq!(
        hive.value(String::from("Software\\Vendor"), ""),
        Ok(Value::dword(3))
    );
    let units: Vec<u16> = "software".encode_utf16().collect();
    assert_eq!(hive.has_key(&units), Ok(true));
    assert_eq!(hive.has_key("none"), Ok(false));
    assert_eq!(hive.has_key(r"a\\b"), Ok(false));
    assert_eq!(hive.has_key(Name::from(vec![0xd834])), Ok(false));
}

#[test]
fn flags_classes_and_descriptors_are_those_of_a_new_hive() {
    let mut hive = vendor();
    let mut shortest = vec![0; 20];
    (shortest[0], shortest[3]) = (1, 0x80);
    assert_eq!(hive.flags(""), Ok(0x0c));
    assert_eq!(hive.flags("software"), Ok(0));
    assert_eq!(hive.class("b"), Ok(vec![]));
    assert_eq!(hive.descriptor(r"SOFTWARE\vendor"), Ok(shortest));
    hive.delete_key("b").unwrap();
    assert_eq!(hive.flags("b"), Err(Error::NOT_FOUND));
    assert_eq!(hive.class("b"), Err(Error::NOT_FOUND));
    assert_eq!(hive.descriptor(r"\\"), Err(Error::BAD_NAME));
}

#[test]
fn subkeys_and_values_are_in_the_order_of_names() {
    let mut hive = vendor();
    for name in ["z", "Y", "x", "_", "1"] {
        hive.set_value("b", name, &Value::binary([])).unwrap();
    }
    // `a` to `z` count as `A` to `Z`, and `_` comes after these
    let names: Vec<_> = hive
        .subkeys("")
        .unwrap()
        .into_iter()
        .map(|key| key.name)
        .collect();
    assert_eq!(names, ["b", "Software", "_"].map(Name::from));
    let names: Vec<_> = hive
        .values("B")
        .unwrap()
        .into_iter()
        .map(|(name, _)| name)
        .collect();
    assert_eq!(names, ["1", "x", "Y", "z", "_"].map(Name::from));
}

#[test]
fn a_walk_tells_the_hive_as_it_was() {
    let mut hive = vendor();
    let walk = hive.walk("").unwrap();
    let mut below = hive.walk("SOFTWARE").unwrap();
    hive.delete_tree("Software").unwrap();
    drop(hive);
    let told: Vec<_> = walk
        .map(Result::unwrap)
        .map(|entry| (entry.path.to_string(), entry.depth, entry.values.len()))
        .collect();
    let wanted = [
        ("", 0, 0),
        ("b", 1, 0),
        ("Software", 1, 0),
        (r"Software\Vendor", 2, 2),
        ("_", 1, 0),
    ];
    assert_eq!(
        told,
        wanted.map(|(path, depth, values)| (path.to_owned(), depth, values))
    );
    assert_eq!(below.next().unwrap().unwrap().path, "Software");
    let entry = below.next().unwrap().unwrap();
    assert_eq!(
        (entry.depth, entry.path.to_string()),
        (1, r"Software\Vendor".to_owned())
    );
    assert_eq!(entry.value("vERSION"), Some(&Value::sz("1.0")));
    assert_eq!(entry.value("none"), None);
    assert!(below.next().is_none() && below.next().is_none());
}

#[test]
fn a_cursor_stays_below_the_key_where_it_was_opened() {
    let hive = vendor();
    let mut cursor = hive.cursor("Software").unwrap();
    assert_eq!((cursor.up(), cursor.next_sibling()), (Ok(false), Ok(false)));
    assert_eq!(cursor.down(), Ok(true));
    assert_eq!(
        (cursor.down(), cursor.next_sibling()),
        (Ok(false), Ok(false))
    );
    assert_eq!(cursor.key().unwrap().name, "Vendor");
    assert_eq!(
        cursor.value(1).unwrap(),
        ("Version".into(), Value::sz("1.0"))
    );
    assert_eq!(cursor.value(2), Err(Error::NOT_FOUND));
    assert_eq!(cursor.value(usize::MAX), Err(Error::NOT_FOUND));
    assert_eq!(cursor.up(), Ok(true));
    assert_eq!(cursor.key().unwrap().name, "Software");
}

#[test]
fn long_names_and_data_have_room() {
    let mut hive = vendor();
    let (name, data) = ("n".repeat(16_383), vec![7; 1_048_576]);
    let value = Value::new(Kind(0xffff_ffff), data);
    hive.set_value("b", &name, &value).unwrap();
    assert_eq!(hive.value("b", &name).as_ref(), Ok(&value));
    assert_eq!(
        hive.values("b").unwrap(),
        [(Name::from(name.as_str()), value)]
    );
    let file = hive.to_bytes().unwrap();
    assert_eq!(Hive::open(&file).unwrap().to_bytes().unwrap(), file);
    let longer = Value::binary(vec![7; 1_048_577]);
    assert_eq!(hive.set_value("b", "v", &longer), Err(Error::TOO_LARGE));
}

#[test]
fn refusals_have_a_number_a_name_and_a_text() {
    let mut hive = vendor();
    let before = hive.to_bytes().unwrap();
    let told = |code: u32, name: &str, text: &str| (code, name.to_owned(), text.to_owned());
    let missing = told(2, "REGTX_NOT_FOUND", "E2 NotFound");
    assert_eq!(refusal(hive.key("none")), missing);
    assert_eq!(refusal(hive.value("b", "none")), missing);
    assert_eq!(refusal(hive.walk("none")), missing);
    assert_eq!(
        refusal(hive.set_value("none", "v", &Value::dword(1))),
        missing
    );
    assert_eq!(refusal(hive.delete_value("b", "none")), missing);
    let bad = told(4, "REGTX_BAD_NAME", "E4 BadName");
    assert_eq!(refusal(hive.key(r"a\\b")), bad);
    assert_eq!(refusal(hive.create_key("\u{e4}")), bad);
    assert_eq!(refusal(hive.create_key("n".repeat(256))), bad);
    let deep = ["d"; 33].join("\\");
    assert_eq!(
        refusal(hive.create_key(&deep)),
        told(5, "REGTX_TOO_DEEP", "E5 TooDeep")
    );
    assert_eq!(
        refusal(hive.delete_key("Software")),
        told(3, "REGTX_HAS_SUBKEYS", "E3 HasSubkeys")
    );
    assert_eq!(hive.delete_tree(""), Err(Error::FIXED));
    let cut = Hive::open(&before[..before.len() - 1]).unwrap_err();
    assert_eq!((cut.code(), cut.is_damage()), (1501, true));
    assert_eq!(
        format!("{cut:?}"),
        "Error(1501, E15 HiveDamaged 0 Truncated)"
    );
    assert!(!Error::NOT_FOUND.is_damage());
    assert!(Hive::open(&[]).unwrap_err().is_damage());
    assert_eq!(hive.to_bytes().unwrap(), before);
}

#[test]
fn a_hive_is_recovered_by_its_logs() {
    let mut bytes = vendor().to_bytes().unwrap();
    // of a hive that was closed no log is asked
    let opened = Hive::recover(&bytes, &[b"no log", b""]).unwrap();
    assert_eq!(opened.key("Software\\Vendor").unwrap().values, 2);
    // another first number, and the sum of it
    bytes[4] ^= 3;
    bytes[508] ^= 3;
    let wanted = (
        1510,
        "REGTX_BAD_LOG".into(),
        "E15 HiveDamaged 0 BadLog".into(),
    );
    assert_eq!(refusal(Hive::recover(&bytes, &[])), wanted);
    assert_eq!(refusal(Hive::recover(&bytes, &[b"", b"no log"])), wanted);
}

#[test]
fn what_is_deleted_is_gone() {
    let mut hive = vendor();
    hive.at(Some(9));
    hive.delete_value(r"Software\Vendor", "version").unwrap();
    assert_eq!(hive.key(r"Software\Vendor").unwrap().time, 9);
    assert_eq!(hive.values(r"Software\Vendor").unwrap().len(), 1);
    hive.delete_key("B").unwrap();
    assert_eq!(hive.has_key("b"), Ok(false));
    hive.delete_tree("Software").unwrap();
    assert_eq!(hive.subkeys("").unwrap().len(), 1);
    assert_eq!(hive.key("").unwrap().time, 9);
}

#[test]
fn the_time_is_that_of_now_if_none_is_chosen() {
    let mut hive = vendor();
    let (begun, _) = (moment_of(SystemTime::now()), hive.at(None));
    hive.create_key("New").unwrap();
    let (time, ended) = (hive.key("new").unwrap().time, moment_of(SystemTime::now()));
    assert!((begun..=ended).contains(&time), "{begun} {time} {ended}");
    assert_eq!(moment_of(UNIX_EPOCH), 116_444_736_000_000_000);
    let later = UNIX_EPOCH + Duration::from_nanos(1_234_567_890);
    assert_eq!(moment_of(later), 116_444_736_012_345_678);
}

#[test]
fn threads_have_cursors_of_their_own() {
    let mut hive = vendor();
    for number in 0..1_000 {
        hive.create_key(format!("Keys\\k{number}")).unwrap();
    }
    let cursors: Vec<_> = (0..4).map(|_| hive.cursor("Keys").unwrap()).collect();
    let readers: Vec<_> = cursors
        .into_iter()
        .map(|mut cursor| {
            thread::spawn(move || {
                let (mut count, mut is_there) = (0, cursor.down().unwrap());
                while is_there {
                    count += usize::from(cursor.key().unwrap().name.to_string().starts_with('k'));
                    is_there = cursor.next_sibling().unwrap();
                }
                count
            })
        })
        .collect();
    // while they read, the hive is edited on this thread
    hive.delete_tree("Keys").unwrap();
    for reader in readers {
        assert_eq!(reader.join().unwrap(), 1_000);
    }
    let hive = thread::spawn(move || hive).join().unwrap();
    assert_eq!(hive.has_key("Keys"), Ok(false));
}

#[test]
fn the_library_tells_its_version() {
    assert_eq!(version().0, 900);
}

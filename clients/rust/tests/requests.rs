//! Requests alone: what each does, what it answers, and how it is refused.

mod common;

use common::{spoil, unit, Scratch, ID, SOFTWARE};
use regtx_client::{moment_of, Creation, Error, Key, KeyInfo, Refusal};
use regtx_client::{Requests, Store, Uuid, Value};
use std::fs;
use std::time::{Duration, SystemTime, UNIX_EPOCH};

const ROOT: Key = Key::new(0, "");

fn refusal<T: std::fmt::Debug>(answer: Result<T, Error>) -> Refusal {
    match answer {
        Err(Error::Refused(why, _)) => why,
        other => panic!("no refusal: {other:?}"),
    }
}

#[test]
fn writes_answer_their_numbers() {
    let scratch = Scratch::new();
    let store = scratch.store();
    assert_eq!(store.opened_at(), 0);
    let key = Key::new(0, r"Software\Vendor\Product");
    let created = store.create_key(key).unwrap();
    assert_eq!(
        created,
        Creation::Created {
            levels: 2,
            accepted: 2
        }
    );
    assert_eq!(store.create_key(key).unwrap(), Creation::Opened);
    assert_eq!(store.set_value(key, "v", &Value::dword(1)).unwrap(), 3);
    assert_eq!(store.delete_value(key, "v").unwrap(), 4);
    assert_eq!(store.delete_key(key).unwrap(), 5);
    assert_eq!(store.flush().unwrap(), 5);
    store.close().unwrap();
    let replies = scratch.replies("keys 0:Software\nkeys 0:Software\\Vendor\n");
    assert_eq!(replies, ["keys 1 Vendor", "keys 0"]);
    assert_eq!(scratch.open().opened_at(), 5);
}

#[test]
fn reads_tell_what_is_there() {
    let scratch = Scratch::new();
    let store = scratch.store();
    // 2024-02-29 00:00:00 UTC
    let moment = moment_of(UNIX_EPOCH + Duration::from_secs(1_709_164_800));
    assert_eq!(moment, 133_536_384_000_000_000);
    store.at(Some(moment)).unwrap();
    for name in ["b", "A", "c"] {
        store.set_value(SOFTWARE, name, &Value::none([])).unwrap();
    }
    store.create_key(Key::new(0, r"Software\X")).unwrap();
    assert_eq!(store.value_names(SOFTWARE).unwrap(), ["A", "b", "c"]);
    assert_eq!(store.subkeys(SOFTWARE).unwrap(), ["X"]);
    assert_eq!(store.subkeys(Key::new(1, "")).unwrap(), [""; 0]);
    let info = KeyInfo {
        subkeys: 1,
        values: 3,
        written: moment,
    };
    assert_eq!(store.key_info(SOFTWARE).unwrap(), info);
    store.close().unwrap();
    assert_eq!(
        scratch.replies("info 0:Software\n"),
        ["info 1 3 133536384000000000"]
    );
}

#[test]
fn writes_tell_the_time() {
    let scratch = Scratch::new();
    let store = scratch.store();
    let written = || store.key_info(SOFTWARE).unwrap().written;
    let set = || store.set_value(SOFTWARE, "v", &Value::dword(1)).unwrap();
    for _ in 0..2 {
        let before = moment_of(SystemTime::now() - Duration::from_millis(1));
        set();
        assert!(before <= written() && written() <= moment_of(SystemTime::now()));
        store.at(Some(7)).unwrap();
        set();
        assert_eq!(written(), 7);
        store.at(None).unwrap();
    }
    store.at(Some(7)).unwrap();
    let tx = store.transaction(&unit(1)).unwrap();
    tx.set_value(SOFTWARE, "v", &Value::dword(2)).unwrap();
    store.at(None).unwrap();
    tx.commit().unwrap();
    assert!(written() > 7);
    store.at(Some(0)).unwrap();
    set();
    assert_eq!(written(), 0);
    store.close().unwrap();
}

#[test]
fn refusals_change_nothing() {
    let scratch = Scratch::new();
    let store = scratch.store();
    store.create_key(Key::new(0, r"Software\Vendor")).unwrap();
    assert_eq!(refusal(store.get_value(SOFTWARE, "v")), Refusal::NotFound);
    assert_eq!(
        refusal(store.get_value(Key::new(9, ""), "v")),
        Refusal::NotFound
    );
    assert_eq!(
        refusal(store.delete_value(SOFTWARE, "v")),
        Refusal::NotFound
    );
    assert_eq!(
        refusal(store.subkeys(Key::new(0, "None"))),
        Refusal::NotFound
    );
    assert_eq!(refusal(store.delete_key(SOFTWARE)), Refusal::HasSubkeys);
    assert_eq!(refusal(store.delete_key(ROOT)), Refusal::Fixed);
    let deep = [r"d"; 33].join("\\");
    assert_eq!(
        refusal(store.create_key(Key::new(0, &deep))),
        Refusal::TooDeep
    );
    assert_eq!(store.flush().unwrap(), 2);
    store.close().unwrap();
}

#[test]
fn places_are_limited() {
    let scratch = Scratch::new();
    let store = scratch.store();
    let sessions: Vec<_> = (1..32).map(|_| store.session().unwrap()).collect();
    assert_eq!(refusal(store.session()), Refusal::NoSeat);
    drop(sessions);
    let session = store.session().unwrap();
    session.create_key(SOFTWARE).unwrap();
    let all: Vec<_> = (0..1024)
        .map(|_| session.transaction(&unit(1)).unwrap())
        .collect();
    assert_eq!(refusal(store.transaction(&unit(1))), Refusal::NoSeat);
    drop(all);
    store.transaction(&unit(1)).unwrap().rollback().unwrap();
    session.end().unwrap();
    store.close().unwrap();
}

#[test]
fn each_refusal_has_its_number_and_name() {
    let names = [
        "NoMemory",
        "NotFound",
        "HasSubkeys",
        "BadName",
        "TooDeep",
        "TooLarge",
        "Conflict",
        "NotActive",
        "NoSuchHandle",
        "NoSeat",
        "JournalFull",
        "HistoryFull",
        "DiskFault",
        "Faulted",
        "HiveDamaged",
        "JournalDamaged",
        "Unsupported",
        "Fixed",
    ];
    let text = |at: usize| match names[at] {
        "HiveDamaged" => "E15 HiveDamaged 0 BadRecord".to_owned(),
        name => format!("E{} {name}", at + 1),
    };
    let texts: Vec<String> = (0..18).map(text).collect();
    let replies: Vec<&str> = texts.iter().map(String::as_str).collect();
    let store = Scratch::new().fake(&replies, "exit 1");
    for (at, text) in texts.iter().enumerate() {
        let why = refusal(store.flush());
        assert_eq!((usize::from(why.code()), why.name()), (at + 1, names[at]));
        assert_eq!(&why.to_string(), text);
    }
    store.close().unwrap();
}

#[test]
fn damaged_stores_are_refused() {
    let scratch = Scratch::new();
    assert_eq!(
        refusal(Store::open(scratch.at("store"), &scratch.options())),
        Refusal::JournalDamaged
    );
    scratch.store().close().unwrap();
    // behind the base block: the first bin
    spoil(&scratch.at("store/hive01.dat"), 4096);
    let why = refusal(Store::open(scratch.at("store"), &scratch.options()));
    assert_eq!(
        why,
        Refusal::HiveDamaged {
            hive: 1,
            cause: "BadBin".to_owned()
        }
    );
    spoil(&scratch.at("store/journal"), 0);
    assert_eq!(
        refusal(Store::open(scratch.at("store"), &scratch.options())),
        Refusal::JournalDamaged
    );
}

#[test]
fn stores_are_made_once_and_of_sixteen_hives_at_most() {
    let scratch = Scratch::new();
    scratch.store().close().unwrap();
    let again = Store::create(scratch.at("store"), &ID, 1, &scratch.options());
    assert!(matches!(again, Err(Error::CannotMake(_))), "{again:?}");
    let (other, options) = (scratch.at("other"), scratch.options());
    let over = Store::create(&other, &ID, 17, &options);
    assert!(
        matches!(&over, Err(Error::Reply(text)) if text == "wrong words"),
        "{over:?}"
    );
    let id = Uuid::random().unwrap();
    Store::create(&other, &id, 16, &options).unwrap();
    assert!(scratch
        .printed(&["check", "other"])
        .starts_with(&format!("store {id}\n")));
}

#[test]
fn stores_are_made_of_files() {
    let scratch = Scratch::new();
    scratch.store().close().unwrap();
    let (options, copies) = (scratch.options(), scratch.at("copies"));
    let import = |files: &[&str]| {
        let files: Vec<_> = files.iter().map(|file| scratch.at(file)).collect();
        Store::import_files(&copies, &ID, &files, &options)
    };
    let (first, second) = ("store/hive00.dat", "store/hive01.dat");
    assert!(matches!(
        import(&[first, "none"]),
        Err(Error::CannotRead(_))
    ));
    assert_eq!(refusal(import(&["store/journal"])).name(), "HiveDamaged");
    import(&[second, first]).unwrap();
    assert!(matches!(import(&[first]), Err(Error::CannotMake(_))));
    let store = Store::open(&copies, &options).unwrap();
    assert_eq!(store.subkeys(Key::new(1, "")).unwrap(), ["Software"]);
    store.close().unwrap();
}

#[test]
fn old_stores_are_upgraded() {
    let scratch = Scratch::new();
    scratch.store().close().unwrap();
    let (options, old, new) = (scratch.options(), scratch.at("store"), scratch.at("new"));
    let upgrade = || Store::upgrade(&old, &new, &options);
    assert_eq!(refusal(upgrade()), Refusal::Unsupported);
    // a store of the first layout: its journal says so, and it has no hive of outcomes
    let mut journal = fs::read(old.join("journal")).unwrap();
    journal[..8].copy_from_slice(b"KTMJRNL1");
    fs::write(old.join("journal"), journal).unwrap();
    fs::remove_file(old.join("hive02.dat")).unwrap();
    let store = scratch.open();
    assert_eq!(refusal(store.kept(&unit(1))), Refusal::Unsupported);
    assert!(matches!(upgrade(), Err(Error::CannotOpen(_))));
    store.close().unwrap();
    upgrade().unwrap();
    let store = Store::open(&new, &options).unwrap();
    assert_eq!(store.kept(&unit(1)).unwrap(), None);
    assert_eq!(store.subkeys(ROOT).unwrap(), ["Software"]);
}

#[test]
fn uuids_are_read_and_shown() {
    let text = "6ba7b810-9dad-11d1-80b4-00c04fd430c8";
    let uuid: Uuid = text.parse().unwrap();
    assert_eq!(uuid.0[..5], [0x6b, 0xa7, 0xb8, 0x10, 0x9d]);
    assert_eq!(uuid.to_string(), text);
    assert_eq!(text.replace('-', "").to_uppercase().parse(), Ok(uuid));
    for wrong in [
        "",
        "6ba7b810",
        &text[1..],
        &text.replace('a', "g"),
        &text.replacen('6', "+", 1),
    ] {
        assert!(wrong.parse::<Uuid>().is_err(), "{wrong}");
    }
    assert!("6ba7b8109-dad-11d1-80b4-00c04fd430c8"
        .parse::<Uuid>()
        .is_err());
    assert!("6ba7b810-9dad-11d1-80b4-00c04fd4-0c8"
        .parse::<Uuid>()
        .is_err());
    let random = Uuid::random().unwrap();
    assert_ne!(random, Uuid::random().unwrap());
    assert_eq!((random.0[6] >> 4, random.0[8] >> 6), (4, 2));
}

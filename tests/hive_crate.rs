//! The crate of bindings/rust, for tests/hive_crate.py: `rounds FILE`.
//!
//! A hive is opened on one thread, edited on a second one, and written and closed on a third; again and again, with a
//! line for each round. With `is_copied` or `is_shared` this must not compile.

use regtx_hive::{Cursor, Error, Hive, Kind, Value};
use std::{env, fs, thread};

#[cfg(is_copied)]
const _: fn(&Hive) -> Hive = Clone::clone;

#[cfg(is_shared)]
const _: fn(&Hive, &Cursor) = {
    fn shared<T: Sync, U: Sync>(_: &T, _: &U) {}
    shared
};

/// Edits a hive that came from another thread, and hands it on with a cursor of it.
fn edited(mut hive: Hive) -> Result<(Hive, Cursor), Error> {
    let value = Value::new(Kind::REG_BINARY, vec![7; 100_000]);
    hive.at(Some(9));
    hive.set_value(r"Software\Vendor", "Long", &value)?;
    assert_eq!(hive.values(r"software\VENDOR")?, [("Long".into(), value)]);
    assert_eq!(hive.subkeys("SYSTEM")?[1].name, "Select");
    let cursor = hive.cursor("System")?;
    Ok((hive, cursor))
}

/// What refused calls say, and that they leave the hive.
fn refused(mut hive: Hive, mut cursor: Cursor) -> Result<Vec<u8>, Error> {
    let before = hive.to_bytes()?;
    assert_eq!(hive.key("None").unwrap_err().to_string(), "E2 NotFound");
    assert_eq!(hive.key(&[0xd834][..]), Err(Error::NOT_FOUND));
    assert_eq!(
        hive.set_value("", &[0xd834][..], &Value::dword(1)),
        Err(Error::BAD_NAME)
    );
    assert_eq!(hive.key("")?.subkeys, 2);
    assert_eq!(hive.to_bytes()?, before);
    drop(hive);
    assert!(cursor.down()? && cursor.next_sibling()?);
    assert_eq!(cursor.key()?.name, "Select");
    Ok(before)
}

fn main() {
    let file = fs::read(env::args_os().nth(1).expect("a file")).expect("its bytes");
    let cut = Hive::open(&file[..file.len() - 1]).unwrap_err();
    assert_eq!(cut.to_string(), "E15 HiveDamaged 0 Truncated");
    for _ in 0..20 {
        let hive = Hive::open(&file).expect("a hive");
        let (hive, cursor) = thread::spawn(|| edited(hive)).join().expect("a thread").expect("edits");
        // a walk that nobody ends goes as well
        let begun = hive.walk("").expect("a walk").next();
        assert!(begun.is_some_and(|entry| entry.is_ok()));
        let bytes = thread::spawn(|| refused(hive, cursor))
            .join()
            .expect("a thread")
            .expect("reads");
        let again = Hive::open(&bytes).expect("what was written");
        let key = again.key(r"Software\Vendor").expect("a key");
        assert_eq!((key.values, key.time), (1, 9));
        println!("round");
    }
    println!("done");
}

//! Files that are read and written.

mod common;

use common::Folder;
use regtx_hive::{Error, FileError, Hive, Value};
use std::fs::{self, Permissions};
use std::io;
use std::os::unix::fs::{symlink, PermissionsExt};

#[test]
fn a_new_file_takes_the_place_of_the_old_one() {
    let folder = Folder::new();
    let (file, link) = (folder.at("hive.dat"), folder.at("link.dat"));
    fs::write(&file, "old").unwrap();
    fs::set_permissions(&file, Permissions::from_mode(0o640)).unwrap();
    symlink("hive.dat", &link).unwrap();
    let mut hive = Hive::new().unwrap();
    hive.set_value("", "v", &Value::dword(1)).unwrap();
    hive.write_file(&file).unwrap();
    assert_eq!(fs::read(&file).unwrap(), hive.to_bytes().unwrap());
    hive.set_value("", "v", &Value::dword(2)).unwrap();
    hive.write_file(&link).unwrap();
    assert_eq!(
        Hive::open_file(&file).unwrap().value("", "v"),
        Ok(Value::dword(2))
    );
    assert!(fs::symlink_metadata(&link)
        .unwrap()
        .file_type()
        .is_symlink());
    assert_eq!(
        fs::metadata(&file).unwrap().permissions().mode() & 0o777,
        0o640
    );
    assert_eq!(folder.names(), ["hive.dat", "link.dat"]);
}

#[test]
fn a_refused_write_leaves_the_old_file() {
    let folder = Folder::new();
    let (file, beside, taken) = (
        folder.at("hive.dat"),
        folder.at("hive.dat.new"),
        folder.at("taken"),
    );
    fs::write(&file, "old").unwrap();
    fs::write(&beside, "another").unwrap();
    fs::create_dir(&taken).unwrap();
    let hive = Hive::new().unwrap();
    for (to, named, kind) in [
        (&file, &beside, Some(io::ErrorKind::AlreadyExists)),
        (&taken, &taken, None),
        (
            &folder.at("none/hive.dat"),
            &folder.at("none/hive.dat.new"),
            Some(io::ErrorKind::NotFound),
        ),
    ] {
        match hive.write_file(to).unwrap_err() {
            FileError::Io(path, why) => {
                assert_eq!(&path, named);
                assert!(kind.is_none() || kind == Some(why.kind()), "{why}");
            }
            other => panic!("{other}"),
        }
    }
    assert_eq!(fs::read(&file).unwrap(), b"old");
    assert_eq!(fs::read(&beside).unwrap(), b"another");
    assert_eq!(folder.names(), ["hive.dat", "hive.dat.new", "taken"]);
}

#[test]
fn a_file_that_is_no_hive_is_told() {
    let folder = Folder::new();
    let file = folder.at("text.dat");
    fs::write(&file, "no hive".repeat(1_000)).unwrap();
    let why = Hive::open_file(&file).unwrap_err();
    assert_eq!(
        why.to_string(),
        format!("{}: E15 HiveDamaged 0 BadBase", file.display())
    );
    assert_eq!(why.path(), file);
    assert!(matches!(why, FileError::Hive(_, cause) if cause.is_damage()));
    let missing = Hive::open_file(folder.at("none")).unwrap_err();
    assert!(matches!(missing, FileError::Io(_, why) if why.kind() == io::ErrorKind::NotFound));
    assert!(matches!(Hive::open(b"regf"), Err(why) if why != Error::NOT_FOUND));
}

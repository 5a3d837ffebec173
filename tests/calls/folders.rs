//! Files of a folder, each test in a folder of its own that goes with it.
use disk_model::{Disk, Failed};
use file_disk::{FileDisk, LockError, Unknown};
use std::test::Fail;
use std::{fs, io};

const JOURNAL: u32 = 0;

const PRIMARY: u32 = 1;

const LAST_LOG: u32 = 34;

type Held<'a> = FileDisk<&'a HostRuntime, Unknown>;

// a folder of this name, empty
fn fresh(rt: &HostRuntime, folder: &str) -> io::Result<()> {
    match fs::remove_dir_all(rt, folder) {
        Ok(()) => {}
        Err(error) if error.kind() == io::ErrorKind::NotFound => {}
        Err(error) => return Err(error),
    }
    fs::create_dir(rt, folder)
}

fn held<'a>(rt: &'a HostRuntime, folder: &str) -> Result<Held<'a>, LockError> {
    FileDisk::open_locked(rt, rt.alloc(), folder)
}

// the first bytes of a file, as many as there are up to eight
fn bytes(disk: &mut Held<'_>, file: u32) -> Result<([u8; 8], usize), Failed> {
    let mut buffer = [0; 8];
    let count = disk.read(file, 0, &mut buffer)?;
    Ok((buffer, count))
}

#[test]
fn what_is_written_is_there_by_its_name(rt: HostRuntime) -> Result<(), Fail> {
    let folder = "/tmp/regtx_tests_files_written";
    fresh(&rt, folder)?;
    let mut disk = held(&rt, folder)?;
    disk.write_at(JOURNAL, 2, &[7, 8])?;
    disk.write_at(LAST_LOG, 0, &[9])?;
    disk.sync(JOURNAL)?;
    disk.sync(LAST_LOG)?;
    assert_eq!(&rt; disk.len(JOURNAL), Ok(4));
    assert_eq!(&rt;
        bytes(&mut disk, JOURNAL),
        Ok(([0, 0, 7, 8, 0, 0, 0, 0], 4))
    );
    let journal = fs::read(&rt, "/tmp/regtx_tests_files_written/journal")?;
    let log = fs::read(&rt, "/tmp/regtx_tests_files_written/hive16.log")?;
    assert_eq!(&rt; (&journal[..], &log[..]), (&[0, 0, 7, 8][..], &[9][..]));
    fs::remove_dir_all(&rt, folder)?;
    Ok(())
}

#[test]
fn a_file_that_is_not_there_reads_as_empty(rt: HostRuntime) -> Result<(), Fail> {
    let folder = "/tmp/regtx_tests_files_missing";
    fresh(&rt, folder)?;
    let mut disk = held(&rt, folder)?;
    assert_eq!(&rt;
        (disk.len(PRIMARY), disk.cut(PRIMARY, 0), disk.sync(PRIMARY)),
        (Ok(0), Ok(()), Ok(()))
    );
    assert_eq!(&rt; bytes(&mut disk, PRIMARY), Ok(([0; 8], 0)));
    disk.write_at(PRIMARY, 0, &[])?;
    let names = [
        "/tmp/regtx_tests_files_missing/hive00.dat",
        "/tmp/regtx_tests_files_missing/journal",
    ];
    for name in names {
        assert!(&rt; fs::metadata(&rt, name).is_err());
    }
    fs::remove_dir_all(&rt, folder)?;
    Ok(())
}

#[test]
fn a_file_behind_the_last_one_is_never_made(rt: HostRuntime) -> Result<(), Fail> {
    let folder = "/tmp/regtx_tests_files_behind";
    fresh(&rt, folder)?;
    let mut disk = held(&rt, folder)?;
    assert_eq!(&rt; disk.write_at(LAST_LOG + 1, 0, &[1]), Err(Failed));
    assert_eq!(&rt; disk.cut(LAST_LOG + 1, 1), Err(Failed));
    assert_eq!(&rt; disk.len(LAST_LOG + 1), Ok(0));
    assert!(&rt; fs::metadata(&rt, "/tmp/regtx_tests_files_behind/hive17.dat").is_err());
    fs::remove_dir_all(&rt, folder)?;
    Ok(())
}

#[test]
fn a_cut_makes_a_file_so_long(rt: HostRuntime) -> Result<(), Fail> {
    let folder = "/tmp/regtx_tests_files_cut";
    fresh(&rt, folder)?;
    let mut disk = held(&rt, folder)?;
    disk.cut(PRIMARY, 3)?;
    assert_eq!(&rt; bytes(&mut disk, PRIMARY), Ok(([0; 8], 3)));
    disk.write_at(PRIMARY, 0, &[1, 2, 3])?;
    disk.cut(PRIMARY, 1)?;
    assert_eq!(&rt;
        bytes(&mut disk, PRIMARY),
        Ok(([1, 0, 0, 0, 0, 0, 0, 0], 1))
    );
    fs::remove_dir_all(&rt, folder)?;
    Ok(())
}

#[test]
fn a_folder_is_held_by_one_and_found_again_as_it_was_left(rt: HostRuntime) -> Result<(), Fail> {
    let folder = "/tmp/regtx_tests_files_held";
    fresh(&rt, folder)?;
    let mut disk = held(&rt, folder)?;
    disk.write_at(PRIMARY, 0, &[5])?;
    disk.sync(PRIMARY)?;
    assert!(&rt; matches!(held(&rt, folder), Err(LockError::InUse)));
    drop(disk);
    let mut disk = held(&rt, folder)?;
    assert_eq!(&rt;
        bytes(&mut disk, PRIMARY),
        Ok(([5, 0, 0, 0, 0, 0, 0, 0], 1))
    );
    fs::remove_dir_all(&rt, folder)?;
    Ok(())
}

#[test]
fn a_folder_that_is_not_there_is_empty_and_stays_so(rt: HostRuntime) -> Result<(), Fail> {
    let mut disk = held(&rt, "/tmp/regtx_tests_files_nowhere")?;
    assert_eq!(&rt; disk.len(JOURNAL), Ok(0));
    assert_eq!(&rt; disk.write_at(JOURNAL, 0, &[1]), Err(Failed));
    Ok(())
}

#[test]
fn a_folder_that_is_made_later_is_not_locked_and_stays_empty(rt: HostRuntime) -> Result<(), Fail> {
    let folder = "/tmp/regtx_tests_files_later";
    fresh(&rt, folder)?;
    fs::remove_dir_all(&rt, folder)?;
    let mut late = held(&rt, folder)?;
    fresh(&rt, folder)?;
    // another program has the folder by now, and a file in it
    let mut disk = held(&rt, folder)?;
    disk.write_at(JOURNAL, 0, &[6])?;
    assert_eq!(&rt; late.len(JOURNAL), Ok(0));
    assert_eq!(&rt; bytes(&mut late, JOURNAL), Ok(([0; 8], 0)));
    assert_eq!(&rt; late.write_at(JOURNAL, 0, &[7]), Err(Failed));
    assert_eq!(&rt; late.cut(PRIMARY, 1), Err(Failed));
    assert_eq!(&rt;
        bytes(&mut disk, JOURNAL),
        Ok(([6, 0, 0, 0, 0, 0, 0, 0], 1))
    );
    assert!(&rt; fs::metadata(&rt, "/tmp/regtx_tests_files_later/hive00.dat").is_err());
    fs::remove_dir_all(&rt, folder)?;
    Ok(())
}

#[test]
fn a_folder_that_is_only_read_stays_as_it_was(rt: HostRuntime) -> Result<(), Fail> {
    let folder = "/tmp/regtx_tests_files_read";
    fresh(&rt, folder)?;
    fs::write(&rt, "/tmp/regtx_tests_files_read/journal", [3, 4])?;
    let mut disk: Held<'_> = FileDisk::open_read_only(&rt, rt.alloc(), folder)?;
    assert!(&rt; matches!(held(&rt, folder), Err(LockError::InUse)));
    assert_eq!(&rt;
        bytes(&mut disk, JOURNAL),
        Ok(([3, 4, 0, 0, 0, 0, 0, 0], 2))
    );
    assert_eq!(&rt; disk.sync(JOURNAL), Ok(()));
    assert_eq!(&rt; disk.write_at(JOURNAL, 0, &[1]), Err(Failed));
    assert_eq!(&rt; disk.cut(JOURNAL, 0), Err(Failed));
    assert_eq!(&rt; disk.write_at(PRIMARY, 0, &[1]), Err(Failed));
    let journal = fs::read(&rt, "/tmp/regtx_tests_files_read/journal")?;
    assert_eq!(&rt; &journal[..], &[3, 4][..]);
    assert!(&rt; fs::metadata(&rt, "/tmp/regtx_tests_files_read/hive00.dat").is_err());
    fs::remove_dir_all(&rt, folder)?;
    Ok(())
}

//! What `regtx.h` declares, and the only unsafe code: each call as a safe function of an open handle.
//!
//! What the header asks of a caller, and who sees to it here:
//!
//! - A handle is zeroed before its first use, has one owner and isn't copied: `Handle` is made by
//!   `none` alone, its fields are private, and it is neither `Copy` nor `Clone`.
//! - One call at a time is given a handle: each function borrows it by `&mut`.
//! - It is closed once its owner is gone: by `Drop` of the types here.
//! - No pointer is null, and nothing overlaps: pointers come of slices and of `&mut`. Those of empty
//!   slices dangle and aren't null, and the library reads and writes nothing there.
//! - Lengths are those of the slices.

use crate::Error;
use std::ffi::{c_int, c_void};
use std::fs::File;
use std::os::fd::AsRawFd;
use std::ptr;

#[repr(C)]
#[derive(Debug)]
struct Handle {
    full: bool,
    at: *mut c_void,
}

impl Handle {
    fn none() -> Handle {
        Handle {
            full: false,
            at: ptr::null_mut(),
        }
    }
}

/// What a key has; `regtx_info` of C.
#[repr(C)]
#[derive(Clone, Copy, Debug, Default)]
pub struct Info {
    pub subkeys: u64,
    pub values: u64,
    pub time: u64,
}

/// What a value has beside its name and its data; `regtx_value` of C.
#[repr(C)]
#[derive(Clone, Copy, Debug, Default)]
pub struct About {
    pub kind: u32,
    pub name_len: usize,
    pub len: usize,
}

/// The bytes of a log; `regtx_log` of C.
#[repr(C)]
struct Log {
    bytes: *const u8,
    len: usize,
}

#[rustfmt::skip]
#[link(name = "regtx")]
extern "C" {
    fn regtx_version(is_proved: *mut bool) -> u32;
    fn regtx_hive_open(file: *const u8, len: usize, hive: *mut Handle) -> u32;
    fn regtx_hive_recover(file: *const u8, len: usize, logs: *const Log, count: usize, hive: *mut Handle) -> u32;
    fn regtx_hive_new(hive: *mut Handle) -> u32;
    fn regtx_hive_close(hive: *mut Handle);
    fn regtx_hive_info(hive: *mut Handle, path: *const u16, path_len: usize, info: *mut Info) -> u32;
    fn regtx_hive_flags(hive: *mut Handle, path: *const u16, path_len: usize, flags: *mut u16) -> u32;
    fn regtx_hive_class(hive: *mut Handle, path: *const u16, path_len: usize,
                        class: *mut u8, room: usize, len: *mut usize) -> u32;
    fn regtx_hive_descriptor(hive: *mut Handle, path: *const u16, path_len: usize,
                             descriptor: *mut u8, room: usize, len: *mut usize) -> u32;
    fn regtx_hive_value(hive: *mut Handle, path: *const u16, path_len: usize,
                        name: *const u16, name_len: usize,
                        kind: *mut u32, data: *mut u8, room: usize, len: *mut usize) -> u32;
    fn regtx_hive_create_key(hive: *mut Handle, path: *const u16, path_len: usize, time: u64, made: *mut usize) -> u32;
    fn regtx_hive_delete_key(hive: *mut Handle, path: *const u16, path_len: usize, time: u64) -> u32;
    fn regtx_hive_delete_tree(hive: *mut Handle, path: *const u16, path_len: usize, time: u64) -> u32;
    fn regtx_hive_set_value(hive: *mut Handle, path: *const u16, path_len: usize,
                            name: *const u16, name_len: usize,
                            kind: u32, data: *const u8, len: usize, time: u64) -> u32;
    fn regtx_hive_delete_value(hive: *mut Handle, path: *const u16, path_len: usize,
                               name: *const u16, name_len: usize, time: u64) -> u32;
    fn regtx_hive_write(hive: *mut Handle, file: *mut u8, room: usize, len: *mut usize) -> u32;
    fn regtx_cursor_open(hive: *mut Handle, path: *const u16, path_len: usize, cursor: *mut Handle) -> u32;
    fn regtx_cursor_close(cursor: *mut Handle);
    fn regtx_cursor_down(cursor: *mut Handle) -> u32;
    fn regtx_cursor_next(cursor: *mut Handle) -> u32;
    fn regtx_cursor_up(cursor: *mut Handle) -> u32;
    fn regtx_cursor_key(cursor: *mut Handle, info: *mut Info, name: *mut u16, room: usize, len: *mut usize) -> u32;
    fn regtx_cursor_value(cursor: *mut Handle, index: usize, value: *mut About, name: *mut u16, name_room: usize,
                          data: *mut u8, room: usize) -> u32;
    fn regtx_text(code: u32, text: *mut u8, room: usize, len: *mut usize) -> u32;
    fn regtx_code_name(code: u32, name: *mut u8, room: usize, len: *mut usize) -> u32;
    fn regtx_is_damage(code: u32) -> bool;
}

/// An open hive.
#[derive(Debug)]
pub struct OpenHive(Handle);

/// An open cursor. `regtx_cursor` of C is a struct of one handle, and so has its layout.
#[derive(Debug)]
pub struct OpenCursor(Handle);

// SAFETY: the header lets a hive's handle go to another thread between two calls, and whatever
// hands over a value in Rust orders them. No other value has its pointer.
unsafe impl Send for OpenHive {}

// SAFETY: the same of a cursor; what it shares with its hive the library lets threads use at once.
unsafe impl Send for OpenCursor {}

/// A step of a cursor.
#[derive(Clone, Copy, Debug)]
pub enum Step {
    Down,
    Next,
    Up,
}

impl OpenHive {
    pub fn open(file: &[u8]) -> Result<OpenHive, Error> {
        let mut hive = OpenHive(Handle::none());
        // SAFETY: as at the head of this module. The library copies the bytes.
        Error::of(unsafe { regtx_hive_open(file.as_ptr(), file.len(), &mut hive.0) })?;
        Ok(hive)
    }

    pub fn recover(file: &[u8], logs: &[&[u8]]) -> Result<OpenHive, Error> {
        let mut hive = OpenHive(Handle::none());
        let logs: Vec<Log> = logs
            .iter()
            .map(|log| Log {
                bytes: log.as_ptr(),
                len: log.len(),
            })
            .collect();
        // SAFETY: as at the head of this module. The slices outlive the call, and the library copies the bytes.
        let code = unsafe {
            regtx_hive_recover(
                file.as_ptr(),
                file.len(),
                logs.as_ptr(),
                logs.len(),
                &mut hive.0,
            )
        };
        Error::of(code).map(|()| hive)
    }

    pub fn new() -> Result<OpenHive, Error> {
        let mut hive = OpenHive(Handle::none());
        // SAFETY: as at the head of this module.
        Error::of(unsafe { regtx_hive_new(&mut hive.0) })?;
        Ok(hive)
    }

    pub fn info(&mut self, path: &[u16]) -> Result<Info, Error> {
        let mut info = Info::default();
        // SAFETY: as at the head of this module.
        let code = unsafe { regtx_hive_info(&mut self.0, path.as_ptr(), path.len(), &mut info) };
        Error::of(code).map(|()| info)
    }

    pub fn flags(&mut self, path: &[u16]) -> Result<u16, Error> {
        let mut flags = 0;
        // SAFETY: as at the head of this module.
        let code = unsafe { regtx_hive_flags(&mut self.0, path.as_ptr(), path.len(), &mut flags) };
        Error::of(code).map(|()| flags)
    }

    /// The bytes of a class go to the front of `class`, and their length to `len`, also with `NO_ROOM`.
    pub fn class(&mut self, path: &[u16], class: &mut [u8], len: &mut usize) -> Result<(), Error> {
        let (to, room) = (class.as_mut_ptr(), class.len());
        // SAFETY: as at the head of this module.
        Error::of(unsafe {
            regtx_hive_class(&mut self.0, path.as_ptr(), path.len(), to, room, len)
        })
    }

    /// The same of a security descriptor.
    pub fn descriptor(
        &mut self,
        path: &[u16],
        descriptor: &mut [u8],
        len: &mut usize,
    ) -> Result<(), Error> {
        let (to, room) = (descriptor.as_mut_ptr(), descriptor.len());
        // SAFETY: as at the head of this module.
        Error::of(unsafe {
            regtx_hive_descriptor(&mut self.0, path.as_ptr(), path.len(), to, room, len)
        })
    }

    /// The type of a value; its data go to the front of `data`, and their length to `len`, also with
    /// `NO_ROOM`.
    pub fn value(
        &mut self,
        path: &[u16],
        name: &[u16],
        data: &mut [u8],
        len: &mut usize,
    ) -> Result<u32, Error> {
        let mut kind = 0;
        // SAFETY: as at the head of this module.
        let code = unsafe {
            regtx_hive_value(
                &mut self.0,
                path.as_ptr(),
                path.len(),
                name.as_ptr(),
                name.len(),
                &mut kind,
                data.as_mut_ptr(),
                data.len(),
                len,
            )
        };
        Error::of(code).map(|()| kind)
    }

    pub fn create_key(&mut self, path: &[u16], time: u64) -> Result<usize, Error> {
        let mut made = 0;
        // SAFETY: as at the head of this module.
        let code = unsafe {
            regtx_hive_create_key(&mut self.0, path.as_ptr(), path.len(), time, &mut made)
        };
        Error::of(code).map(|()| made)
    }

    pub fn delete_key(&mut self, path: &[u16], time: u64) -> Result<(), Error> {
        // SAFETY: as at the head of this module.
        Error::of(unsafe { regtx_hive_delete_key(&mut self.0, path.as_ptr(), path.len(), time) })
    }

    pub fn delete_tree(&mut self, path: &[u16], time: u64) -> Result<(), Error> {
        // SAFETY: as at the head of this module.
        Error::of(unsafe { regtx_hive_delete_tree(&mut self.0, path.as_ptr(), path.len(), time) })
    }

    pub fn set_value(
        &mut self,
        path: &[u16],
        name: &[u16],
        kind: u32,
        data: &[u8],
        time: u64,
    ) -> Result<(), Error> {
        // SAFETY: as at the head of this module. The library copies the data.
        Error::of(unsafe {
            regtx_hive_set_value(
                &mut self.0,
                path.as_ptr(),
                path.len(),
                name.as_ptr(),
                name.len(),
                kind,
                data.as_ptr(),
                data.len(),
                time,
            )
        })
    }

    pub fn delete_value(&mut self, path: &[u16], name: &[u16], time: u64) -> Result<(), Error> {
        let (at, len) = (name.as_ptr(), name.len());
        // SAFETY: as at the head of this module.
        Error::of(unsafe {
            regtx_hive_delete_value(&mut self.0, path.as_ptr(), path.len(), at, len, time)
        })
    }

    /// The file's bytes go to the front of `file`, and their length to `len`.
    pub fn write(&mut self, file: &mut [u8], len: &mut usize) -> Result<(), Error> {
        // SAFETY: as at the head of this module.
        Error::of(unsafe { regtx_hive_write(&mut self.0, file.as_mut_ptr(), file.len(), len) })
    }

    pub fn cursor(&mut self, path: &[u16]) -> Result<OpenCursor, Error> {
        let mut cursor = OpenCursor(Handle::none());
        // SAFETY: as at the head of this module. The cursor keeps no pointer to the handle.
        Error::of(unsafe {
            regtx_cursor_open(&mut self.0, path.as_ptr(), path.len(), &mut cursor.0)
        })?;
        Ok(cursor)
    }
}

impl OpenCursor {
    pub fn step(&mut self, step: Step) -> Result<(), Error> {
        let call = match step {
            Step::Down => regtx_cursor_down,
            Step::Next => regtx_cursor_next,
            Step::Up => regtx_cursor_up,
        };
        // SAFETY: as at the head of this module.
        Error::of(unsafe { call(&mut self.0) })
    }

    /// What the key has; its name goes to the front of `name`, and its length to `len`.
    pub fn key(&mut self, name: &mut [u16], len: &mut usize) -> Result<Info, Error> {
        let mut info = Info::default();
        // SAFETY: as at the head of this module.
        let code =
            unsafe { regtx_cursor_key(&mut self.0, &mut info, name.as_mut_ptr(), name.len(), len) };
        Error::of(code).map(|()| info)
    }

    /// Its name and its data go to the fronts of the buffers. `about` is also told with `NO_ROOM`.
    pub fn value(
        &mut self,
        index: usize,
        about: &mut About,
        name: &mut [u16],
        data: &mut [u8],
    ) -> Result<(), Error> {
        // SAFETY: as at the head of this module.
        Error::of(unsafe {
            regtx_cursor_value(
                &mut self.0,
                index,
                about,
                name.as_mut_ptr(),
                name.len(),
                data.as_mut_ptr(),
                data.len(),
            )
        })
    }
}

impl Drop for OpenHive {
    fn drop(&mut self) {
        // SAFETY: as at the head of this module. Nobody uses the handle from here on.
        unsafe { regtx_hive_close(&mut self.0) }
    }
}

impl Drop for OpenCursor {
    fn drop(&mut self) {
        // SAFETY: as at the head of this module. Nobody uses the handle from here on.
        unsafe { regtx_cursor_close(&mut self.0) }
    }
}

/// The version of the library, and whether it was proved.
pub fn version() -> (u32, bool) {
    let mut is_proved = false;
    // SAFETY: the pointer is that of a `bool`, for which the library writes one.
    let number = unsafe { regtx_version(&mut is_proved) };
    (number, is_proved)
}

/// What the library says of a number.
pub fn text(code: u32) -> String {
    let (mut text, mut len) = ([0; 64], 0);
    // SAFETY: as at the head of this module.
    let answer = unsafe { regtx_text(code, text.as_mut_ptr(), text.len(), &mut len) };
    of_ascii(answer, &text, len)
}

/// The name that the header gives a number.
pub fn code_name(code: u32) -> String {
    let (mut name, mut len) = ([0; 64], 0);
    // SAFETY: as at the head of this module.
    let answer = unsafe { regtx_code_name(code, name.as_mut_ptr(), name.len(), &mut len) };
    of_ascii(answer, &name, len)
}

/// Whether a number is one of damage.
pub fn is_damage(code: u32) -> bool {
    // SAFETY: the call takes no pointer.
    unsafe { regtx_is_damage(code) }
}

/// Gives an open file an owner and a group, if the system lets this process do so.
pub fn give(file: &File, owner: u32, group: u32) {
    extern "C" {
        fn fchown(file: c_int, owner: u32, group: u32) -> c_int;
    }
    // SAFETY: the call takes no pointer, and the descriptor is open as long as `file` is.
    let _ = unsafe { fchown(file.as_raw_fd(), owner, group) };
}

fn of_ascii(answer: u32, text: &[u8], len: usize) -> String {
    let told = if answer == 0 { &text[..len] } else { &[] };
    String::from_utf8_lossy(told).into_owned()
}

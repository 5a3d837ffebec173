//! Whose process listens at a socket: what the standard library doesn't tell yet.
#![allow(unsafe_code)]

use std::io;
use std::os::fd::AsRawFd;
use std::os::unix::net::UnixStream;

/// `struct ucred` of Linux: a process, its user and its group.
type Credentials = [u32; 3];

const SIZE: u32 = 12;
// as x86, ARM and RISC-V have them, among others; elsewhere these tell nothing of this size
const SOL_SOCKET: i32 = 1;
const SO_PEERCRED: i32 = 17;

extern "C" {
    fn getsockopt(
        socket: i32,
        level: i32,
        name: i32,
        value: *mut Credentials,
        size: *mut u32,
    ) -> i32;
    fn geteuid() -> u32;
}

/// The user of the process that listened when this connection was made.
pub(crate) fn user_of(stream: &UnixStream) -> io::Result<u32> {
    let (socket, mut found, mut size) = (stream.as_raw_fd(), [0; 3], SIZE);
    // SAFETY: both places are written within their sizes alone, and outlive the call
    let told = unsafe { getsockopt(socket, SOL_SOCKET, SO_PEERCRED, &mut found, &mut size) };
    match (told, size) {
        (0, SIZE) => Ok(found[1]),
        (0, _) => Err(io::ErrorKind::Unsupported.into()),
        _ => Err(io::Error::last_os_error()),
    }
}

/// The user of this process.
pub(crate) fn own_user() -> u32 {
    // SAFETY: it only tells a number
    unsafe { geteuid() }
}

//! Windows registry hives in memory, by the library `libregtx`.
//!
//! ```
//! use regtx_hive::{Hive, Value};
//!
//! # fn main() -> Result<(), Box<dyn std::error::Error>> {
//! let mut hive = Hive::new()?;
//! hive.create_key(r"Software\Vendor")?;
//! hive.set_value(r"Software\Vendor", "Version", &Value::sz("1.0"))?;
//! for entry in hive.walk("")? {
//!     let entry = entry?;
//!     for (name, value) in &entry.values {
//!         println!("{} {name} {:?}", entry.path, value.to_text());
//!     }
//! }
//! let file: Vec<u8> = hive.to_bytes()?;
//! assert_eq!(Hive::open(&file)?.value(r"software\VENDOR", "version")?, Value::sz("1.0"));
//! # Ok(())
//! # }
//! ```
//!
//! It prints `Software\Vendor Version Some("1.0")`.
//!
//! **Linking.** The crate links `-lregtx`. If the linker doesn't find it by itself, name its folder
//! by `RUSTFLAGS="-L native=FOLDER"`. After `make library` it is the whole path of `out/c`.
//!
//! **Paths and names** are UTF-16 units, as hives have them. A call takes a `&str`, a [`Name`] or
//! units. A path is key names with one backslash between each two; the empty one is the root. The
//! empty name of a value is the default value's. `a` to `z` count as `A` to `Z`.
//!
//! **Threads.** A [`Hive`] and a [`Cursor`] go to another thread, and aren't shared by two: they
//! are `Send` and not `Sync`. Threads that read one hive at once have a cursor each.
//!
//! ```compile_fail,E0277
//! fn is_shared<T: Sync>() {}
//! is_shared::<regtx_hive::Hive>();
//! ```
#![deny(missing_docs, unsafe_op_in_unsafe_fn)]
#![deny(unsafe_code)]

#[cfg(doctest)]
#[doc = include_str!("../README.md")]
struct Page;

mod cursor;
mod error;
#[allow(unsafe_code)]
mod ffi;
mod file;
mod hive;
mod name;
mod value;

pub use cursor::{Cursor, Entry, Walk};
pub use error::{Error, FileError};
pub use hive::{Hive, Key};
pub use name::{Name, Units};
pub use value::{Kind, Value};

/// The version of the library, such as 900 for 0.9.0, and whether it was proved.
pub fn version() -> (u32, bool) {
    ffi::version()
}

/// The moment of a time of the system's clock, as keys have it: units of 100 nanoseconds since the
/// year 1601. Earlier times than 1970 give that of 1970.
pub fn moment_of(time: std::time::SystemTime) -> u64 {
    // from 1601 to 1970 there are 134,774 days
    const EPOCH: u64 = 134_774 * 86_400 * 10_000_000;
    let since = time
        .duration_since(std::time::UNIX_EPOCH)
        .unwrap_or_default();
    EPOCH + since.as_secs() * 10_000_000 + u64::from(since.subsec_nanos()) / 100
}

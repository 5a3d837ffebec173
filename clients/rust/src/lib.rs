#![doc = include_str!("../README.md")]
#![deny(unsafe_code)]
#![warn(missing_docs)]

mod connection;
mod error;
mod follow;
mod hints;
mod key;
mod link;
mod peer;
mod pool;
mod program;
mod refusal;
mod reply;
mod requests;
mod run;
mod session;
mod shared;
mod store;
mod transaction;
mod uuid;
mod value;
mod work;
mod writes;

pub use error::Error;
pub use follow::{Change, FollowEnd, Follower, Watcher};
pub use key::Key;
pub use pool::{Pool, Pooled};
pub use refusal::Refusal;
pub use requests::{Creation, KeyInfo, Requests, ServerStats};
pub use session::Session;
pub use store::{moment_of, Options, Store};
pub use transaction::Transaction;
pub use uuid::{ParseUuidError, Uuid};
pub use value::{Kind, Value};
pub use writes::Writes;

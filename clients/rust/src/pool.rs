//! Connections to a server that threads take and give back.

use crate::{Error, Options, Store};
use std::ops::Deref;
use std::path::{Path, PathBuf};
use std::sync::{Condvar, Mutex, MutexGuard, PoisonError};
use std::thread;

/// Connections to a server of a store, of which each thread takes one for as long as it works. Threads
/// share a pool by a reference, or by an `Arc`.
///
/// ```no_run
/// use regtx_client::{Error, Key, Options, Pool, Requests};
/// use std::thread;
///
/// fn print_keys(pool: &Pool) -> Result<(), Error> {
///     println!("{:?}", pool.get()?.subkeys(Key::new(0, ""))?);
///     Ok(())
/// }
///
/// let pool = Pool::new("/run/regtx/app.sock", &Options::new(), 4);
/// thread::scope(|scope| {
///     let threads: Vec<_> = (0..16).map(|_| scope.spawn(|| print_keys(&pool))).collect();
///     threads.into_iter().try_for_each(|thread| thread.join().unwrap())
/// })?;
/// # Ok::<(), Error>(())
/// ```
#[derive(Debug)]
pub struct Pool {
    socket: PathBuf,
    options: Options,
    most: usize,
    places: Mutex<Places>,
    /// A place has become free.
    freed: Condvar,
}

#[derive(Debug, Default)]
struct Places {
    idle: Vec<Store>,
    /// How many are taken.
    taken: usize,
}

impl Pool {
    /// A pool of at most so many connections to the server at a socket, one at least; see
    /// [`Store::connect`]. Nothing is connected yet.
    pub fn new(socket: impl AsRef<Path>, options: &Options, most: usize) -> Pool {
        Pool {
            socket: socket.as_ref().to_owned(),
            options: options.clone(),
            most: most.max(1),
            places: Mutex::default(),
            freed: Condvar::new(),
        }
    }

    /// Takes a connection: one that was given back, or a new one. If so many are taken it waits for
    /// one. Fails as [`Store::connect`].
    pub fn get(&self) -> Result<Pooled<'_>, Error> {
        let mut places = self.lock();
        while places.taken == self.most {
            let waited = self.freed.wait(places);
            places = waited.unwrap_or_else(PoisonError::into_inner);
        }
        places.taken += 1;
        // its place is given back if there is no connection
        let mut pooled = Pooled {
            pool: self,
            store: None,
        };
        // the server may have ended those that nobody had
        let idle = std::iter::from_fn(|| places.idle.pop()).find(Store::is_as_new);
        // others take theirs meanwhile
        drop(places);
        pooled.store = Some(match idle {
            Some(store) => store,
            None => Store::connect(&self.socket, &self.options)?,
        });
        Ok(pooled)
    }

    /// Closes the connections that nobody has. The pool can be used further.
    pub fn close(&self) {
        let idle = std::mem::take(&mut self.lock().idle);
        drop(idle);
    }

    fn lock(&self) -> MutexGuard<'_, Places> {
        // whoever panicked has only counted
        self.places.lock().unwrap_or_else(PoisonError::into_inner)
    }
}

/// A connection that was taken from a [`Pool`]. Its drop gives it back. But it is closed if it was
/// lost, if a transaction of it is left open, if a moment was chosen, or if the thread panics.
#[derive(Debug)]
pub struct Pooled<'a> {
    pool: &'a Pool,
    store: Option<Store>,
}

impl Deref for Pooled<'_> {
    type Target = Store;

    fn deref(&self) -> &Store {
        self.store.as_ref().expect("it is there until the drop")
    }
}

impl Drop for Pooled<'_> {
    fn drop(&mut self) {
        let store = self.store.take();
        let (kept, closed) = match store {
            Some(store) if store.is_as_new() && !thread::panicking() => (Some(store), None),
            other => (None, other),
        };
        // before its place is free, so that the server has one for the next
        drop(closed);
        let mut places = self.pool.lock();
        places.taken -= 1;
        places.idle.extend(kept);
        drop(places);
        self.pool.freed.notify_one();
    }
}

//! Stores.

use crate::hints::{self, ASKED};
use crate::key::value_name_word;
use crate::reply::{answered, number, stats, understood};
use crate::requests::scope::Scope;
use crate::run::{Run, FIRST_SESSION};
use crate::shared::SharedRun;
use crate::work::Worker;
use crate::{
    Error, Follower, Key, Refusal, ServerStats, Session, Transaction, Uuid, Watcher, Writes,
};
use std::path::{Path, PathBuf};
use std::process::{Command, Stdio};
use std::time::{Duration, SystemTime, UNIX_EPOCH};

/// How a store is opened: which program does it, and how long it waits for one that is in use; or
/// which servers are trusted, and how long their replies may take.
#[derive(Clone, Debug)]
pub struct Options {
    pub(crate) program: PathBuf,
    pub(crate) wait: u32,
    pub(crate) server_uid: Option<u32>,
    pub(crate) timeout: Option<Duration>,
}

impl Options {
    /// The program `regtx` of the path, which doesn't wait.
    pub fn new() -> Self {
        Options {
            program: "regtx".into(),
            wait: 0,
            server_uid: None,
            timeout: None,
        }
    }

    /// The program, which is looked for on the path if it is a single name.
    pub fn program(mut self, program: impl Into<PathBuf>) -> Self {
        self.program = program.into();
        self
    }

    /// How many seconds an opening waits for a store that is in use: up to 86,400, a day.
    pub fn wait(mut self, seconds: u32) -> Self {
        self.wait = seconds;
        self
    }

    /// A user whose servers are trusted by a connection, beside those of root and of this process's
    /// own user.
    pub fn server_uid(mut self, user: u32) -> Self {
        self.server_uid = Some(user);
        self
    }

    /// How long a server's reply may take, which isn't zero; without it, as long as it takes. A
    /// connection has ended after that.
    pub fn timeout(mut self, longest: Duration) -> Self {
        self.timeout = Some(longest);
        self
    }
}

impl Default for Options {
    fn default() -> Self {
        Options::new()
    }
}

/// A file as a word: one whose name begins with a hyphen isn't taken for an option so.
pub(crate) fn file_word(file: impl AsRef<Path>) -> PathBuf {
    Path::new(".").join(file)
}

/// Carries out a command that makes a store.
fn make(command: &mut Command) -> Result<(), Error> {
    let made = command
        .stdin(Stdio::null())
        .env(ASKED.0, ASKED.1)
        .output()?;
    let text = String::from_utf8_lossy(&made.stdout);
    let reply = answered(text.trim_end().to_owned()).and_then(|reply| match reply.as_str() {
        "ok" => Ok(()),
        "" => Err(Error::ended()),
        _ => Err(Error::Reply(reply)),
    });
    reply.map_err(|why| why.hinted(hints::text(&made.stderr)))
}

/// A store that is open: by a run of the program, and no other program uses it meanwhile; or by a
/// connection to a server, which other programs use at the same time.
///
/// Threads may share it: each call waits for those of others. Give each thread transactions of its
/// own, and of a server's store a connection of its own, such as one of a [`Pool`](crate::Pool).
#[derive(Debug)]
pub struct Store {
    run: SharedRun,
    opened_at: u64,
}

impl Store {
    /// Makes a store of so many empty hives (1 to 16) in the folder. Each store needs an id of its
    /// own. Hive files that lie in the folder without a journal are written over.
    pub fn create(
        folder: impl AsRef<Path>,
        id: &Uuid,
        hives: u8,
        options: &Options,
    ) -> Result<(), Error> {
        let mut command = Command::new(&options.program);
        let words = [id.to_string(), hives.to_string()];
        make(command.arg("new").arg(file_word(folder)).args(words))
    }

    /// Makes a store of copies of the clean hives in files, 1 to 16: hive 0 is a copy of the first.
    pub fn import_files<F: AsRef<Path>>(
        folder: impl AsRef<Path>,
        id: &Uuid,
        files: &[F],
        options: &Options,
    ) -> Result<(), Error> {
        let mut command = Command::new(&options.program);
        command.arg("import").arg(file_word(folder));
        make(
            command
                .arg(id.to_string())
                .args(files.iter().map(file_word)),
        )
    }

    /// Copies a store of the first layout to one that keeps outcomes of commits. Refused:
    /// Unsupported, if the old one keeps them already.
    pub fn upgrade(
        old: impl AsRef<Path>,
        new: impl AsRef<Path>,
        options: &Options,
    ) -> Result<(), Error> {
        let mut command = Command::new(&options.program);
        make(
            command
                .arg("upgrade")
                .args([file_word(old), file_word(new)]),
        )
    }

    /// Opens the store in the folder, and repairs it if the last run was killed.
    pub fn open(folder: impl AsRef<Path>, options: &Options) -> Result<Store, Error> {
        let (run, opened_at) = Run::start(folder.as_ref(), options)?;
        Ok(Store {
            run: SharedRun::new(run),
            opened_at,
        })
    }

    /// Connects to the server that listens at a Unix socket. Its program and its `wait` mean nothing
    /// to that. Refused: NoSeat, if no place is free; Faulted. [`Error::NotTrusted`], if the server
    /// is another user's than root, this process's user, and the one that the options name.
    ///
    /// A session is a further connection, and [`fold`](Self::fold) is refused. A drop or a
    /// [`close`](Self::close) ends the connection alone: a write alone is durable after a commit or
    /// a [`flush`](Self::flush).
    pub fn connect(socket: impl AsRef<Path>, options: &Options) -> Result<Store, Error> {
        let (run, opened_at) = Run::connect(socket.as_ref(), options)?;
        Ok(Store {
            run: SharedRun::new(run),
            opened_at,
        })
    }

    /// The number of the store's last change when it was opened.
    pub fn opened_at(&self) -> u64 {
        self.opened_at
    }

    /// Begins a transaction for a unit of work. Refused: NoSeat.
    pub fn transaction(&self, unit: &Uuid) -> Result<Transaction<'_>, Error> {
        Transaction::begin(&self.run, FIRST_SESSION, unit)
    }

    /// Carries out work in a transaction, and commits: the number of the change, none if there were
    /// no writes. What work answers but `Ok` rolls the transaction back.
    ///
    /// If another writer is in the way (Conflict, NotActive), or the server ended the transaction
    /// (NoSuchHandle), all of it is rolled back and tried again, so many times in all. It waits up
    /// to 5 ms before the second time, and then twice as long each time, a second at most.
    pub fn transact(
        &self,
        unit: &Uuid,
        tries: u32,
        work: impl FnMut(&Transaction<'_>) -> Result<(), Error>,
    ) -> Result<Option<u64>, Error> {
        Worker::of(self, unit, tries).transact(work)
    }

    /// The same of writes, which are sent together.
    pub fn transact_writes(
        &self,
        unit: &Uuid,
        tries: u32,
        writes: &Writes,
    ) -> Result<Option<u64>, Error> {
        Worker::of(self, unit, tries).transact_writes(writes)
    }

    /// Does a unit of work once: the number of the change that it made, now or before; none if it
    /// writes nothing.
    ///
    /// It begins the transaction, asks what is kept of the unit, and carries out the work only if
    /// that is nothing. If another program, another session or a connection that was lost has the
    /// unit at hand, or another writer is in the way, it waits and tries again, as
    /// [`transact`](Self::transact) does. After [`Error::CommitUnknown`] or [`Error::Ended`] call it
    /// again in a new run.
    ///
    /// ```no_run
    /// use regtx_client::{Key, Options, Requests, Store, Uuid, Value};
    ///
    /// let store = Store::connect("/run/regtx/app.sock", &Options::new())?;
    /// let unit: Uuid = "6ba7b810-9dad-11d1-80b4-00c04fd430c8".parse().unwrap();
    /// let vendor = Key::new(0, r"Software\Vendor");
    /// // twice the same number: the second call finds that it is done
    /// for _ in 0..2 {
    ///     let number = store.once(&unit, 10, |tx| {
    ///         tx.create_key(vendor)?;
    ///         tx.set_value(vendor, "Version", &Value::sz("1.0"))
    ///     })?;
    ///     println!("change {number:?}");
    /// }
    /// # Ok::<(), regtx_client::Error>(())
    /// ```
    pub fn once(
        &self,
        unit: &Uuid,
        tries: u32,
        work: impl FnMut(&Transaction<'_>) -> Result<(), Error>,
    ) -> Result<Option<u64>, Error> {
        Worker::of(self, unit, tries).once(work)
    }

    /// The same of writes, which are sent together.
    pub fn once_writes(
        &self,
        unit: &Uuid,
        tries: u32,
        writes: &Writes,
    ) -> Result<Option<u64>, Error> {
        Worker::of(self, unit, tries).once_writes(writes)
    }

    /// Opens a further session; of a server's store, a further connection. Refused: NoSeat, if 32
    /// are open, or the server has no place.
    pub fn session(&self) -> Result<Session<'_>, Error> {
        Session::open(&self.run)
    }

    /// The number of the last change that this unit of work committed, if one is kept. To learn of
    /// a commit without an answer, ask in another run than its own; of a server's store
    /// [`once`](Self::once) is the call that decides, since a connection that was lost may have its
    /// commit still to come. Refused: Unsupported, if the store keeps no outcomes.
    pub fn kept(&self, unit: &Uuid) -> Result<Option<u64>, Error> {
        kept_number(self.ask(&format!("kept {unit}")))
    }

    /// Returns when all accepted changes are durable: the last one's number, 0 if there is none.
    pub fn flush(&self) -> Result<u64, Error> {
        let reply = self.ask("flush")?;
        understood(number(&reply, "flushed"), reply)
    }

    /// Makes all changes durable, moves them into the hives, and empties the history, of which a
    /// run holds 1,048,576 changes. Answers the last change's number. A server does so by itself:
    /// of its store this is Unsupported, and nothing is sent.
    // by `&mut`, since no session or transaction outlives a fold
    pub fn fold(&mut self) -> Result<u64, Error> {
        if self.run.lock().is_served() {
            self.run.lock().check_process()?;
            return Err(Error::Refused(Refusal::Unsupported, String::new()));
        }
        let reply = self.ask("fold")?;
        understood(number(&reply, "folded"), reply)
    }

    /// Chooses the moment of the writes and commits that follow, in units of 100 ns since 1601,
    /// UTC, such as [`moment_of`] answers. None, as at first, is the millisecond of now. A
    /// transaction's keys have its commit's.
    pub fn at(&self, moment: Option<u64>) -> Result<(), Error> {
        self.run.lock().choose(moment)
    }

    /// Makes a copy of a server's store in a new folder of this name among its backups: the number at
    /// which that opens. The name is 1 to 255 letters and digits of ASCII, `_`, `-` and full stops,
    /// and doesn't begin with one. Refused: BadName; Conflict, if something has that name;
    /// Unsupported, if the server has no folder of backups, or the store is no server's; DiskFault,
    /// if the folder's device failed, by which the store isn't faulted.
    pub fn backup(&self, name: &str) -> Result<u64, Error> {
        let line = format!("backup {}", value_name_word(name)?);
        let reply = self.ask_server(&line)?;
        understood(number(&reply, "saved"), reply)
    }

    /// How full a server's store is, and who waits. Refused: Unsupported, if the store is no server's.
    pub fn stats(&self) -> Result<ServerStats, Error> {
        let reply = self.ask_server("stats")?;
        understood(stats(&reply), reply)
    }

    /// The reply to a line that only a server takes.
    fn ask_server(&self, line: &str) -> Result<String, Error> {
        if !self.run.lock().is_served() {
            self.run.lock().check_process()?;
            return Err(Error::Refused(Refusal::Unsupported, String::new()));
        }
        self.ask(line)
    }

    /// The durable changes of a server's store after this number, in order, each once, and later
    /// ones as they become durable, by a connection of its own.
    ///
    /// Only changes since the server opened the store are kept, and of these only those that some
    /// hive lacks yet: else [`Error::CannotFollow`]. It may come at any time, if the changes come
    /// faster than they are taken. Then read the store anew, and follow from there.
    pub fn follow(&self, after: u64) -> Result<Follower, Error> {
        let run = self.run.lock().beside_to_follow()?;
        Ok(Follower::new(run, after))
    }

    /// The numbers of the durable changes of a server's store that meet the key or one below it,
    /// from now on, by a connection of its own. The key needn't be there. After a pause of the
    /// server the number of the last change is told too, if changes came meanwhile, whether or not
    /// they meet the key. [`Error::CannotFollow`] as of [`follow`](Self::follow).
    pub fn watch(&self, key: Key<'_>) -> Result<Watcher, Error> {
        let line = format!("watch {}", key.word()?);
        let run = self.run.lock().beside_to_follow()?;
        Watcher::begin(run, line)
    }

    /// Makes all changes durable, moves them into the hives' files, and ends the run. An error that
    /// a drop met is told here, too. A store that is dropped does the same, and tells no error. In
    /// another process than the one that opened the store, both drop its copy, and the run goes on.
    /// Of a server's store it ends the connection, and returns once its transactions are rolled
    /// back; it says nothing of the hives.
    pub fn close(self) -> Result<(), Error> {
        self.run.into_inner().end()
    }
}

impl Store {
    /// Whether a pool may hand it to somebody else, who finds it as a new one.
    pub(crate) fn is_as_new(&self) -> bool {
        self.run.lock().is_as_new()
    }
}

impl Scope for Store {
    type Accepted = u64;

    fn place(&self) -> (&SharedRun, u32) {
        (&self.run, FIRST_SESSION)
    }

    fn begin(&self) -> Result<Option<Transaction<'_>>, Error> {
        self.transaction(&Uuid::random()?).map(Some)
    }

    fn line(&self, request: &str) -> String {
        request.to_owned()
    }

    fn accepted(reply: &str) -> Option<u64> {
        number(reply, "accepted")
    }
}

/// What a reply to `kept` tells.
pub(crate) fn kept_number(answer: Result<String, Error>) -> Result<Option<u64>, Error> {
    match answer {
        Ok(reply) => understood(number(&reply, "committed"), reply).map(Some),
        Err(Error::Refused(Refusal::NotFound, _)) => Ok(None),
        Err(why) => Err(why),
    }
}

/// The moment of a time of the system's clock, for [`Store::at`]. Earlier times give that of 1970.
///
/// ```
/// use regtx_client::moment_of;
/// use std::time::{Duration, UNIX_EPOCH};
///
/// // from 1601 to 1970 there are 134,774 days
/// let of_1970 = 134_774 * 86_400 * 10_000_000;
/// assert_eq!(moment_of(UNIX_EPOCH + Duration::from_micros(3)), of_1970 + 30);
/// ```
pub fn moment_of(time: SystemTime) -> u64 {
    // from 1601 to 1970 there are 134,774 days
    const EPOCH: u64 = 134_774 * 86_400 * 10_000_000;
    let since = time.duration_since(UNIX_EPOCH).unwrap_or_default();
    EPOCH + since.as_secs() * 10_000_000 + u64::from(since.subsec_nanos()) / 100
}

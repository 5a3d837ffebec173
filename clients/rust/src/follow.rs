//! Those who follow a server's store: they are told of changes as these become durable.

use crate::reply::{answered, number, understood};
use crate::run::Run;
use crate::{Error, Uuid};
use std::net::Shutdown;
use std::os::unix::net::UnixStream;
use std::sync::atomic::{AtomicBool, Ordering};
use std::sync::Arc;

/// A durable change.
#[derive(Clone, Debug, PartialEq, Eq)]
#[non_exhaustive]
pub struct Change {
    /// Its number.
    pub number: u64,
    /// Its moment, in units of 100 ns since 1601, UTC.
    pub moment: u64,
    /// The unit of work that it commits, if it commits one.
    pub unit: Option<Uuid>,
    /// The lines that make it: each is `create`, `delete`, `set` or `unset`, as `docs/SCRIPTS.md`
    /// has them.
    pub lines: Vec<String>,
}

/// Ends one who follows, from another thread.
#[derive(Debug)]
pub struct FollowEnd {
    stream: UnixStream,
    is_closed: Arc<AtomicBool>,
}

impl FollowEnd {
    /// Ends it: what it waits for doesn't come any more, and it ends.
    pub fn end(&self) {
        self.is_closed.store(true, Ordering::SeqCst);
        // it may have ended already
        let _ = self.stream.shutdown(Shutdown::Both);
    }
}

/// A line that is told, but for those of a change.
enum Told {
    /// `watching N`, `changed N`
    Number(u64),
    /// `followed N`
    Last(u64),
}

/// A connection whose line is answered for as long as it stays.
#[derive(Debug)]
struct Feed {
    run: Run,
    is_closed: Arc<AtomicBool>,
    /// The line is to be answered yet.
    is_asked: bool,
    /// The last line that came told the end of the answer.
    was_last: bool,
    /// Nothing more is told.
    is_over: bool,
}

impl Feed {
    fn new(run: Run) -> Feed {
        Feed {
            run,
            is_closed: Arc::default(),
            is_asked: false,
            was_last: false,
            is_over: false,
        }
    }

    fn ender(&self) -> Result<FollowEnd, Error> {
        Ok(FollowEnd {
            stream: self.run.stream()?,
            is_closed: Arc::clone(&self.is_closed),
        })
    }

    /// Asks at first, and after a pause of the server.
    fn ask(&mut self, line: impl FnOnce() -> String) -> Result<(), Error> {
        if !self.is_asked {
            self.run.send_line(&line())?;
            self.is_asked = true;
        }
        Ok(())
    }

    /// The next line; none if the server has ended the connection after it had told all, or this
    /// side has.
    fn read(&mut self) -> Result<Option<String>, Error> {
        self.run.check_process()?;
        let line = self.run.read_reply();
        let is_closed = self.is_closed.load(Ordering::SeqCst);
        match line {
            Ok(Some(line)) => {
                self.was_last = false;
                line.map(Some)
            }
            _ if is_closed => Ok(None),
            Ok(None) if self.was_last => Ok(None),
            Ok(None) => Err(self.run.lost()),
            Err(why) => Err(why),
        }
    }

    /// What a line tells; or its refusal.
    fn told(&mut self, line: String) -> Result<Told, Error> {
        if let Some(after) = number(&line, "E2 NotFound after") {
            return Err(Error::CannotFollow(after));
        }
        let line = answered(line)?;
        if let Some(last) = number(&line, "followed") {
            self.is_asked = false;
            self.was_last = true;
            return Ok(Told::Last(last));
        }
        let told = number(&line, "changed").or_else(|| number(&line, "watching"));
        understood(told, line).map(Told::Number)
    }

    /// What an iterator answers, which ends with an error.
    fn item<T>(&mut self, told: Result<Option<T>, Error>) -> Option<Result<T, Error>> {
        self.is_over = !matches!(told, Ok(Some(_)));
        told.transpose()
    }
}

/// The durable changes after a number, in order, each once, and later ones as they become durable;
/// see [`Store::follow`](crate::Store::follow). It waits for the next one. It ends once the server
/// has stopped in order, and after an error.
///
/// ```no_run
/// use regtx_client::{Options, Store};
///
/// let store = Store::connect("/run/regtx/app.sock", &Options::new())?;
/// for change in store.follow(store.opened_at())? {
///     let change = change?;
///     println!("{} at {}: {:?}", change.number, change.moment, change.lines);
/// }
/// # Ok::<(), regtx_client::Error>(())
/// ```
#[derive(Debug)]
pub struct Follower {
    feed: Feed,
    number: u64,
}

impl Follower {
    pub(crate) fn new(run: Run, after: u64) -> Follower {
        Follower {
            feed: Feed::new(run),
            number: after,
        }
    }

    /// Up to where all changes were told.
    pub fn number(&self) -> u64 {
        self.number
    }

    /// What ends it from another thread.
    pub fn ender(&self) -> Result<FollowEnd, Error> {
        self.feed.ender()
    }

    fn tell(&mut self) -> Result<Option<Change>, Error> {
        loop {
            let number = self.number;
            self.feed.ask(|| format!("follow {number}"))?;
            let Some(line) = self.feed.read()? else {
                return Ok(None);
            };
            if let Some((mut change, lines)) = head_of(&line) {
                for _ in 0..lines {
                    let Some(line) = self.feed.read()? else {
                        return Ok(None);
                    };
                    change.lines.push(line);
                }
                self.number = change.number;
                return Ok(Some(change));
            }
            let (Told::Number(number) | Told::Last(number)) = self.feed.told(line)?;
            self.number = number;
        }
    }
}

impl Iterator for Follower {
    type Item = Result<Change, Error>;

    fn next(&mut self) -> Option<Self::Item> {
        if self.feed.is_over {
            return None;
        }
        let told = self.tell();
        self.feed.item(told)
    }
}

/// `change NUMBER MOMENT LINES UNIT`, yet without its lines, and how many it has.
fn head_of(line: &str) -> Option<(Change, usize)> {
    let words: Vec<&str> = line.split(' ').collect();
    let ["change", number, moment, lines, unit] = words[..] else {
        return None;
    };
    let change = Change {
        number: number.parse().ok()?,
        moment: moment.parse().ok()?,
        unit: match unit {
            "-" => None,
            _ => Some(unit.parse().ok()?),
        },
        lines: Vec::new(),
    };
    Some((change, lines.parse().ok()?))
}

/// The numbers of the durable changes that meet a key or one below it, in order, as they become
/// durable; see [`Store::watch`](crate::Store::watch). It waits for the next one. It ends once the
/// server has stopped in order, and after an error.
#[derive(Debug)]
pub struct Watcher {
    feed: Feed,
    line: String,
    number: u64,
}

impl Watcher {
    pub(crate) fn begin(run: Run, line: String) -> Result<Watcher, Error> {
        let mut feed = Feed::new(run);
        feed.ask(|| line.clone())?;
        let Some(first) = feed.read()? else {
            return Err(feed.run.lost());
        };
        let (Told::Number(number) | Told::Last(number)) = feed.told(first)?;
        Ok(Watcher { feed, line, number })
    }

    /// Up to where all was told: at first the number of the last change as it began.
    pub fn number(&self) -> u64 {
        self.number
    }

    /// What ends it from another thread.
    pub fn ender(&self) -> Result<FollowEnd, Error> {
        self.feed.ender()
    }

    fn tell(&mut self) -> Result<Option<u64>, Error> {
        loop {
            self.feed.ask(|| self.line.clone())?;
            let Some(line) = self.feed.read()? else {
                return Ok(None);
            };
            let before = self.number;
            match self.feed.told(line)? {
                Told::Number(number) if number > before => {
                    self.number = number;
                    return Ok(Some(number));
                }
                Told::Number(_) => {}
                Told::Last(number) => self.number = before.max(number),
            }
        }
    }
}

impl Iterator for Watcher {
    type Item = Result<u64, Error>;

    fn next(&mut self) -> Option<Self::Item> {
        if self.feed.is_over {
            return None;
        }
        let told = self.tell();
        self.feed.item(told)
    }
}

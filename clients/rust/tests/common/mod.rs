//! Folders, stores and programs for the tests. `REGTX` in the environment is the program.
// each test crate uses a part of this
#![allow(dead_code)]

use regtx_client::{Key, Options, Store, Uuid};
use std::fs;
use std::io::{BufRead, BufReader};
use std::os::unix::fs::{DirBuilderExt, PermissionsExt};
use std::path::{Path, PathBuf};
use std::process::{Child, Command, Output, Stdio};
use std::sync::atomic::{AtomicU32, Ordering};

pub const ID: Uuid = Uuid([0x5e; 16]);
pub const SOFTWARE: Key = Key::new(0, "Software");

/// A UUID of this number.
pub fn unit(number: u128) -> Uuid {
    Uuid(number.to_be_bytes())
}

/// A folder that goes with the test, and the program.
pub struct Scratch {
    home: PathBuf,
    pub program: PathBuf,
}

impl Scratch {
    pub fn new() -> Scratch {
        static COUNT: AtomicU32 = AtomicU32::new(0);
        let number = COUNT.fetch_add(1, Ordering::Relaxed);
        let name = format!("regtx-client-{}-{number}", std::process::id());
        let home = std::env::temp_dir().join(name);
        // a broker wants a folder that nobody else may write
        fs::DirBuilder::new().mode(0o755).create(&home).unwrap();
        let program = std::env::var("REGTX").expect("REGTX is the program");
        Scratch {
            home,
            program: program.into(),
        }
    }

    pub fn at(&self, name: &str) -> PathBuf {
        self.home.join(name)
    }

    pub fn options(&self) -> Options {
        Options::new().program(&self.program)
    }

    /// A new store of two hives, with one key in the first.
    pub fn store(&self) -> Store {
        use regtx_client::Requests;
        Store::create(self.at("store"), &ID, 2, &self.options()).unwrap();
        let store = self.open();
        store.create_key(SOFTWARE).unwrap();
        store
    }

    /// The store by another run.
    pub fn open(&self) -> Store {
        Store::open(self.at("store"), &self.options()).unwrap()
    }

    /// What a command of the program prints; no client is between.
    pub fn printed(&self, words: &[&str]) -> String {
        let Output { stdout, .. } = Command::new(&self.program)
            .args(words)
            .current_dir(&self.home)
            .output()
            .unwrap();
        String::from_utf8(stdout).unwrap()
    }

    /// The replies of a run of the program to a script; no client is between.
    pub fn replies(&self, script: &str) -> Vec<String> {
        fs::write(self.at("script"), script).unwrap();
        let printed = self.printed(&["run", "store", "script"]);
        printed.lines().skip(1).map(str::to_owned).collect()
    }

    /// A shell script in the place of the program.
    pub fn script(&self, name: &str, lines: &str) -> PathBuf {
        let path = self.at(name);
        fs::write(&path, format!("#!/bin/sh\n{lines}\n")).unwrap();
        fs::set_permissions(&path, fs::Permissions::from_mode(0o755)).unwrap();
        path
    }

    /// The store of a program that answers a line by each of these replies, and ends by a command.
    /// A line that tells the time is always `ok`.
    pub fn fake(&self, replies: &[&str], end: &str) -> Store {
        let answers: String = replies
            .iter()
            .map(|reply| format!("next\nprintf '%s\\n' '{reply}'\n"))
            .collect();
        let next = "next() { read -r line; case $line in 'at '*) echo ok; read -r line;; esac; }";
        let lines =
            format!("{next}\necho 'opened 0'\n{answers}while read -r line; do :; done\n{end}");
        let options = Options::new().program(self.script("fake", &lines));
        Store::open("store", &options).unwrap()
    }

    /// The store by a run whose process is known.
    pub fn open_to_kill(&self) -> (Store, Victim) {
        let (pid, program) = (self.at("pid"), self.program.display());
        let lines = format!("echo $$ > '{}'\nexec '{program}' \"$@\"", pid.display());
        let options = Options::new().program(self.script("noting", &lines));
        let store = Store::open(self.at("store"), &options).unwrap();
        (
            store,
            Victim(fs::read_to_string(pid).unwrap().trim().to_owned()),
        )
    }
}

impl Drop for Scratch {
    fn drop(&mut self) {
        fs::remove_dir_all(&self.home).unwrap();
    }
}

/// A process to be killed.
pub struct Victim(pub String);

impl Victim {
    pub fn kill(self) {
        let killed = Command::new("kill")
            .args(["-KILL", &self.0])
            .status()
            .unwrap();
        assert!(killed.success());
    }
}

pub fn spoil(path: &Path, at: usize) {
    let mut bytes = fs::read(path).unwrap();
    bytes[at] ^= 0xff;
    fs::write(path, bytes).unwrap();
}

/// A broker that serves a store of two hives. `REGTXD` in the environment is its program.
pub struct Served<'a> {
    scratch: &'a Scratch,
    broker: Child,
}

impl<'a> Served<'a> {
    pub fn new(scratch: &'a Scratch, options: &[&str]) -> Served<'a> {
        Store::create(scratch.at("store"), &ID, 2, &scratch.options()).unwrap();
        Served::again(scratch, options)
    }

    /// The same, with a folder for backups.
    pub fn with_backups(scratch: &'a Scratch, folder: &Path) -> Served<'a> {
        Store::create(scratch.at("store"), &ID, 2, &scratch.options()).unwrap();
        Served::start(scratch, &[], Some(folder))
    }

    /// A broker for a store that is there.
    pub fn again(scratch: &'a Scratch, options: &[&str]) -> Served<'a> {
        Served::start(scratch, options, None)
    }

    fn start(scratch: &'a Scratch, options: &[&str], backups: Option<&Path>) -> Served<'a> {
        let program = std::env::var("REGTXD").expect("REGTXD is the broker");
        let mut broker = Command::new(program)
            .args(options)
            .arg(scratch.at("socket"))
            .arg(&scratch.program)
            .args(["wait", "60", "serve"])
            .arg(scratch.at("store"))
            .args(backups)
            .stdout(Stdio::piped())
            // it tells there of a program that is killed
            .stderr(Stdio::null())
            .spawn()
            .unwrap();
        let mut said = String::new();
        let printed = broker.stdout.take().unwrap();
        BufReader::new(printed).read_line(&mut said).unwrap();
        assert_eq!(said, "ready\n");
        Served { scratch, broker }
    }

    pub fn socket(&self) -> PathBuf {
        self.scratch.at("socket")
    }

    pub fn connect(&self) -> Store {
        Store::connect(self.socket(), &Options::new()).unwrap()
    }

    /// Stops the broker, or kills it, and waits for its end.
    pub fn end(mut self, signal: &str) -> Option<i32> {
        let broker = self.broker.id().to_string();
        let sent = Command::new("kill").args([signal, &broker]).status();
        assert!(sent.unwrap().success());
        self.broker.wait().unwrap().code()
    }

    /// Kills the program, and waits for the broker's end.
    pub fn kill_program(mut self) -> Option<i32> {
        let broker = self.broker.id();
        let children = fs::read_to_string(format!("/proc/{broker}/task/{broker}/children"));
        Victim(children.unwrap().trim().to_owned()).kill();
        self.broker.wait().unwrap().code()
    }
}

impl Drop for Served<'_> {
    fn drop(&mut self) {
        // it has ended by now, unless the test failed
        let _ = self.broker.kill();
        let _ = self.broker.wait();
    }
}

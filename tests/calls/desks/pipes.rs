//! Pipes in memory, and a runtime that prints into one.
use std::alloc::Global;
use std::fmt::Display;
use std::io::{self, ErrorKind, Read};
use std::sync::{Condvar, Mutex, MutexGuard, Wait};

/// Bytes that one thread writes and another reads.
#[derive(Drop)]
pub struct Pipe {
    lock: Mutex<Flow>,
    changed: Condvar,
}

#[derive(Drop)]
struct Flow {
    bytes: Vec<u8>,
    at: usize,
    is_closed: bool,
}

impl Pipe {
    /// An empty pipe.
    pub fn new(alloc: Global) -> Pipe {
        let flow = Flow {
            bytes: Vec::new(alloc),
            at: 0,
            is_closed: false,
        };
        Pipe {
            lock: Mutex::new(flow),
            changed: Condvar::new(),
        }
    }

    /// Writes into it, unless it is closed.
    pub fn put<R: Wait>(&self, rt: &R, bytes: &[u8]) -> io::Result<()> {
        let mut guard = self.lock.lock(rt);
        let flow = &mut *guard;
        let put = match flow.is_closed {
            true => Err(ErrorKind::BrokenPipe.into()),
            false => flow
                .bytes
                .extend_from_slice(bytes)
                .map_err(|_| ErrorKind::OutOfMemory.into()),
        };
        let _ = MutexGuard::unlock(guard);
        self.changed.notify_all();
        put
    }

    /// Its end.
    pub fn close<R: Wait>(&self, rt: &R) {
        let mut guard = self.lock.lock(rt);
        (&mut *guard).is_closed = true;
        let _ = MutexGuard::unlock(guard);
        self.changed.notify_all();
    }

    fn get<R: Wait>(&self, rt: &R, buf: &mut [u8]) -> usize {
        let mut guard = self.lock.lock(rt);
        for _ in rt.forever() {
            let flow = &mut *guard;
            let count = buf.len().min(flow.bytes.len() - flow.at);
            if count > 0 || flow.is_closed {
                buf[..count].copy_from_slice(&flow.bytes[flow.at..flow.at + count]);
                flow.at += count;
                let _ = MutexGuard::unlock(guard);
                return count;
            }
            guard = self.changed.wait(rt, guard);
        }
        unreachable!()
    }
}

/// A pipe's reading side.
pub struct PipeReader<'a, R> {
    pub rt: &'a R,
    pub pipe: &'a Pipe,
}

impl<'a, R> Drop for PipeReader<'a, R> {
    fn drop(self) {
        let PipeReader { rt: _, pipe: _ } = self;
    }
}

impl<'a, R: Wait> Read for PipeReader<'a, R> {
    fn read(&mut self, buf: &mut [u8]) -> io::Result<usize> {
        Ok(self.pipe.get(self.rt, buf))
    }
}

/// A runtime whose standard output is a pipe.
pub struct Service<'a, R> {
    pub rt: &'a R,
    pub output: &'a Pipe,
}

impl<'a, R> Drop for Service<'a, R> {
    fn drop(self) {
        let Service { rt: _, output: _ } = self;
    }
}

impl<'a, R: Wait> Wait for Service<'a, R> {}

impl<'a, R: Wait> Print for Service<'a, R> {
    fn print<D: Display + Drop>(&self, _value: D) -> io::Result<()> {
        Err(ErrorKind::Unsupported.into())
    }

    fn println<D: Display + Drop>(&self, _value: D) -> io::Result<()> {
        Err(ErrorKind::Unsupported.into())
    }

    fn write_all(&self, bytes: &[u8]) -> io::Result<()> {
        self.output.put(self.rt, bytes)
    }
}

//! Tests of the registry and of the flusher, on one thread and on many, over a disk in memory: what no clause says.

mod alone;
mod calls;
mod committers;
mod device;
mod flushing;
mod folding;
mod handing_over;
mod outcomes;
mod playing;
mod sharing;
mod steps;
mod stopping;
mod tables;
mod transacted;

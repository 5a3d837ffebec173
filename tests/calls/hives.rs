//! Tests of a hive's creation, opening, flush and repair over the disk in memory: each stop, with each tear.

mod changes;
mod creations;
mod flushes;
mod growing;
mod held;
mod hives;
mod logs;
mod pages;
mod stops;

//! Tests of a store over the disk in memory, by calls that no script makes: what no clause says.

mod calls;
mod creations;
mod layouts;
mod openings;
mod prepared;
mod stores;

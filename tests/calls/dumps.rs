//! Tests of dumps for which no file is enough: readers and writers that fail. What a file can show is a case of
//! `runs/hives`.

mod hives;
mod streams;

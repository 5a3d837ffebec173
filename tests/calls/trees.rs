//! Tests of names, paths, trees and accepted changes that no script can say, with expected values worked by hand from
//! the stated rules. What a script can say is a file of `runs/`.

mod elements;
mod fixtures;
mod names;
mod rows;
mod texts;

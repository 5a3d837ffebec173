//! Tests of claims: which conflict, and which transactions hold them. Expected answers are worked by hand from the
//! stated rules.

mod deep;
mod held;
mod operations;

//! Tests of what is printed of a key with a value of each kind. Expected texts come from another program, which knows
//! the forms' rules and nothing of this project's code.

mod forms;
mod table;

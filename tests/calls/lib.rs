//! Tests of what public calls answer where no clause says it and no script asks. Expected answers come from the stated
//! rules. README.md says what each file tries.
#![tactic(auto)]

#[cfg(test)]
mod cells;
#[cfg(test)]
mod claims;
#[cfg(test)]
mod desks;
#[cfg(test)]
mod dumps;
#[cfg(test)]
mod events;
#[cfg(test)]
mod exports;
#[cfg(test)]
mod folders;
#[cfg(test)]
mod frames;
#[cfg(test)]
mod hives;
#[cfg(test)]
mod loops;
#[cfg(test)]
mod registration_files;
#[cfg(test)]
mod registries;
#[cfg(test)]
mod script_streams;
#[cfg(test)]
mod stopped_logs;
#[cfg(test)]
mod trees;

//! The tests of the paper's rules, which each kind of image runs once: `crate::KIND` says which.

mod common;

mod bench_examples;
mod blanks;
mod channels;
mod end_reached;
mod notch;
mod records;
mod status_table;

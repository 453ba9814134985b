//! The proved library and the independent model, side by side.
//!
//! Both sides take the same random list of calls. After every call the status and count, the
//! whole image, the whole table of channels and the whole lent buffer must be the same on both.
//!
//! * `differ` does this for a hundred thousand calls or more, and for the faults of the model,
//!   each of which must be noticed.
//! * `bench` measures the time of some calls on both sides.
//!
//! With the feature `proved` the library is linked. Without it the model takes its place, which
//! tests the comparison itself.

#![forbid(unsafe_code)]

pub mod ending;
pub mod generate;
pub mod pair;
pub mod random;
pub mod run;
pub mod shrink;
pub mod side;
pub mod statistics;
pub mod step;
pub mod world;

// What the differential tests and the benchmark share.
// The library is called through its archive, as any C or Rust program would call it.

//! Differential tests and benchmark of the XC9500 fuse-map library against the reference.

pub mod comparison;
pub mod differing;
pub mod edits;
pub mod fuses_given;
pub mod inputs;
pub mod library;
pub mod locating;
pub mod optimised;
pub mod optimised_differences;
pub mod optimised_text;
pub mod reading;
pub mod tally;
pub mod text_examples;
pub mod texts;
pub mod writing;

//! Two versions of docs/RULES.md to test the library against, which share nothing
//! with it or with each other but the shapes of settings, sketch, walker and
//! refusal:
//!
//! * [`peer`] is complete and fast, for comparison and for the benchmark;
//! * [`naive`] tests each cell, for small kitchens and short stretches.
//!
//! [`version`] has the calls of all three as a trait, and two of them side by
//! side as a third; [`library`] has the library's, with fences around the memory
//! that it is lent. [`draw`] gives the tests and the timings their fixed random
//! numbers, and [`cases`] what they run through.

#![forbid(unsafe_code)]

pub mod cases;
pub mod draw;
pub mod library;
pub mod naive;
pub mod peer;
pub mod shape;
pub mod version;

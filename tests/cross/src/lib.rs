//! Calls the product's functions and the baseline's on the same inputs, and compares everything that the
//! calls answer and leave behind.

pub mod at_fault;
pub mod call;
pub mod chance;
pub mod choosing;
pub mod contract;
pub mod edit;
pub mod failures;
pub mod guarded;
pub mod loose;
pub mod parts;
pub mod plan;
pub mod runner;
pub mod smaller;
pub mod tally;
pub mod target;
pub mod text;
pub mod untidy;

//! What is needed to test the verified library: an independent reference, a generator of inputs, and an optimised
//! version to measure against.
#![forbid(unsafe_code)]

pub mod encode;
pub mod filed;
pub mod generate;
pub mod meaning;
pub mod optimised;
pub mod question;
pub mod random;
pub mod reference;
pub mod tally;
pub mod version;
pub mod workload;

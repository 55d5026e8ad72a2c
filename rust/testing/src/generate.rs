//! Random plans and data sets: accepted ones, near misses, damaged bytes,
//! and plans at each limit and one past it; and requests to explain them
//! and to charge for them.
#![forbid(unsafe_code)]

pub mod builder;
pub mod case;
pub mod conflict;
pub mod data;
pub mod deep;
pub mod derive;
pub mod lemma;
pub mod limits;
pub mod loops;
pub mod miss;
pub mod private_part;
pub mod program;
pub mod request;
pub mod transfer;
pub mod wide;

pub use case::{Case, Generator, Origin};
pub use request::{Explained, Inquiries, Inquiry, Request};

use crate::random::Random;

/// A number past the end: the first, one near it or near a limit, the same in its low bits, or the greatest.
fn beyond(random: &mut Random, number: usize, count: usize) -> usize {
    match random.below(8) {
        0..=2 => count,
        3 => count + random.within(1..=20),
        4 => count.max(random.pick(&[15, 16, 47, 48, 511, 512, 513, 65535])),
        5 | 6 => number | 1 << random.pick(&[8, 16, 32, 56, 63]),
        _ => usize::MAX - random.below(2),
    }
}

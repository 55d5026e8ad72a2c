//! What an explanation and a charge are asked for.
#![forbid(unsafe_code)]

/// An element in a piece of a node, by any numbers: what they name need not exist.
#[derive(Clone, Copy, Debug, PartialEq, Eq)]
pub struct Question {
    pub node: usize,
    pub piece: usize,
    pub element: usize,
}

/// A node for what is accessed, one for what is owned, and a price in cents per thousand elements, by any numbers.
#[derive(Clone, Copy, Debug, PartialEq, Eq)]
pub struct Transfer {
    pub accessed: usize,
    pub owned: usize,
    pub price: u64,
}

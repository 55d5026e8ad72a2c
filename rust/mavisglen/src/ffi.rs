//! The only unsafe code: the four calls into the verified library.
#![allow(unsafe_code)]

use crate::answer::{Answer, Charge, Written};

extern "C" {
    fn mavisglen_check(plan: *const u8, plan_len: usize) -> u64;
    fn mavisglen_evaluate(
        plan: *const u8,
        plan_len: usize,
        data: *const u8,
        data_len: usize,
        words: *mut u64,
        words_len: usize,
    ) -> u64;
    fn mavisglen_explain(
        plan: *const u8,
        plan_len: usize,
        data: *const u8,
        data_len: usize,
        node: usize,
        piece: usize,
        element: usize,
        nodes: *mut u16,
        nodes_len: usize,
        elements: *mut u16,
        elements_len: usize,
    ) -> u64;
    fn mavisglen_charge(
        plan: *const u8,
        plan_len: usize,
        data: *const u8,
        data_len: usize,
        accessed: usize,
        owned: usize,
        price: u64,
    ) -> u64;
}

/// Judges a plan: an acceptance, or one of the refusals 1 to 11.
pub fn check(plan: &[u8]) -> Answer {
    // SAFETY: pointer and length are those of one live slice, only read.
    let packed = unsafe { mavisglen_check(plan.as_ptr(), plan.len()) };
    read(packed, Answer::unpack)
}

/// Judges a plan and a data set and, if both are accepted, fills the words; else gives one of the refusals
/// 1 to 15, and changes no word.
///
/// With N pieces, node j's piece i starts at word (j × N + i) × 8, and element e is bit e mod 64 of word
/// e div 64 from there. nodes × N × 8 words are filled and later ones kept;
/// [`MOST_WORDS`](crate::MOST_WORDS) are always enough.
pub fn evaluate(plan: &[u8], data: &[u8], words: &mut [u64]) -> Answer {
    // SAFETY: each pointer and length are those of one live slice; the only
    // one written is lent exclusively.
    let packed = unsafe {
        mavisglen_evaluate(
            plan.as_ptr(),
            plan.len(),
            data.as_ptr(),
            data.len(),
            words.as_mut_ptr(),
            words.len(),
        )
    };
    read(packed, Answer::unpack)
}

/// Judges a plan and a data set and, if both are accepted, writes why the element is in the piece of the node: a chain
/// of pairs of a node and an element, the node of each into `nodes` and its element into `elements`, and gives its
/// length. Else gives one of the refusals 1 to 14; 16 if node, piece or element does not exist, or the element is not
/// in the piece; 15 if either slice is shorter than the chain; and changes neither slice.
///
/// The first pair is the one asked for. A union is followed by its first operand that holds the element; an
/// intersection by its first operand; a difference by its left; an image by the least element of its operand's piece
/// that leads there; a preimage by the element that the map leads to. A supplied or an equal node ends the chain. The
/// piece is the same throughout. [`LONGEST_CHAIN`](crate::LONGEST_CHAIN) places in each slice are always enough, and
/// those behind the chain are kept.
pub fn explain(
    plan: &[u8],
    data: &[u8],
    node: usize,
    piece: usize,
    element: usize,
    nodes: &mut [u16],
    elements: &mut [u16],
) -> Written {
    // SAFETY: each pointer and length are those of one live slice; the two
    // that are written are lent exclusively.
    let packed = unsafe {
        mavisglen_explain(
            plan.as_ptr(),
            plan.len(),
            data.as_ptr(),
            data.len(),
            node,
            piece,
            element,
            nodes.as_mut_ptr(),
            nodes.len(),
            elements.as_mut_ptr(),
            elements.len(),
        )
    };
    read(packed, Written::unpack)
}

/// Judges a plan and a data set and, if both are accepted, charges for what is accessed and not owned, at a price in
/// cents per thousand elements. Else gives one of the refusals 1 to 14; 17 if a node does not exist, the two are of
/// different regions, or the price is above [`HIGHEST_PRICE`](crate::HIGHEST_PRICE).
///
/// Counted are the elements of each piece of the node `accessed` that the same piece of the node `owned` lacks; an
/// element that several pieces lack is counted for each. Count times price, divided by 1,000, is the charge.
pub fn charge(plan: &[u8], data: &[u8], accessed: usize, owned: usize, price: u64) -> Charge {
    // SAFETY: each pointer and length are those of one live slice, only read.
    let packed = unsafe {
        mavisglen_charge(plan.as_ptr(), plan.len(), data.as_ptr(), data.len(), accessed, owned, price)
    };
    read(packed, Charge::unpack)
}

/// The verified library gives nothing but answers; a wrong file that is linked in its place might.
fn read<T>(packed: u64, unpack: fn(u64) -> Option<T>) -> T {
    unpack(packed).unwrap_or_else(|| panic!("the library gave {packed:#x}, which is no answer"))
}

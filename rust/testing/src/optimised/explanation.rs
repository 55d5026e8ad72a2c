//! Explanations: one piece of each node up to the one asked about, and a walk back through them.
#![forbid(unsafe_code)]

use mavisglen::Refusal;

use super::evaluation::{self, below, fill_preimage, image, supplied_piece, Data, Piece};
use super::plan::Plan;
use crate::encode::{limit, node, PIECE_WORDS};
use crate::question::Question;

/// Judges the data set, what is asked and the slices, writes the chain and gives its length.
pub fn write(
    plan: &Plan,
    bytes: &[u8],
    Question { node, piece, element }: Question,
    nodes: &mut [u16],
    elements: &mut [u16],
) -> Result<usize, Refusal> {
    let data = evaluation::read(plan, bytes)?;
    if node >= plan.nodes.len() {
        return Err(Refusal::NotFound(1));
    }
    if piece >= data.pieces {
        return Err(Refusal::NotFound(2));
    }
    if element >= data.size(plan.node_regions[node]) {
        return Err(Refusal::NotFound(3));
    }
    let mut sets = [[0; PIECE_WORDS]; limit::NODES];
    for number in 0..=node {
        sets[number] = fill_piece(plan, &data, number, piece, &sets);
    }
    if !has(&sets[node], element) {
        return Err(Refusal::NotFound(4));
    }
    let mut chain = Chain { nodes: [0; limit::NODES], elements: [0; limit::NODES], length: 0 };
    chain.walk(plan, &data, &sets, node, element);
    chain.copy_to(nodes, elements).ok_or(Refusal::OutputTooSmall(chain.length as u64))
}

#[inline]
fn has(set: &Piece, element: usize) -> bool {
    set[element / 64 % PIECE_WORDS] >> (element % 64) & 1 == 1
}

#[inline]
fn fill_piece(plan: &Plan, data: &Data, number: usize, piece: usize, done: &[Piece; limit::NODES]) -> Piece {
    let [kind, a, b, _] = plan.nodes[number];
    let of = |node: u8| &done[usize::from(node)];
    let combine =
        |operator: fn(u64, u64) -> u64| std::array::from_fn(|word| operator(of(a)[word], of(b)[word]));
    match kind {
        node::SUPPLIED => supplied_piece(data, usize::from(a), plan.supplied[usize::from(a)][0], piece),
        node::EQUAL => equal_piece(data.size(a), data.pieces, piece),
        node::UNION => combine(|a, b| a | b),
        node::INTERSECTION => combine(|a, b| a & b),
        node::DIFFERENCE => combine(|a, b| a & !b),
        node::IMAGE => image(data.maps[usize::from(b)], of(a)),
        _ => {
            let mut out = [[0; PIECE_WORDS]];
            fill_preimage(data.maps[usize::from(b)], std::slice::from_ref(of(a)), &mut out);
            out[0]
        }
    }
}

/// What lies below the piece's end and not below its start.
#[inline]
fn equal_piece(size: usize, pieces: usize, piece: usize) -> Piece {
    let (quotient, remainder) = (size / pieces, size % pieces);
    let [start, end] = [piece, piece + 1].map(|piece| below(piece * quotient + piece.min(remainder)));
    std::array::from_fn(|word| end[word] & !start[word])
}

struct Chain {
    nodes: [u16; limit::NODES],
    elements: [u16; limit::NODES],
    length: usize,
}

impl Chain {
    /// From a member to a supplied or an equal node.
    #[inline]
    fn walk(&mut self, plan: &Plan, data: &Data, sets: &[Piece], mut number: usize, mut element: usize) {
        loop {
            (self.nodes[self.length], self.elements[self.length]) = (number as u16, element as u16);
            self.length += 1;
            let [kind, a, b, _] = plan.nodes[number];
            number = usize::from(a);
            match kind {
                node::SUPPLIED | node::EQUAL => return,
                node::UNION if !has(&sets[number], element) => number = usize::from(b),
                node::IMAGE => element = least_source(data.maps[usize::from(b)], &sets[number], element),
                node::PREIMAGE => {
                    element = usize::from(u16::from_be_bytes(data.maps[usize::from(b)][element]))
                }
                _ => {}
            }
        }
    }

    /// None if either slice is too short.
    #[inline]
    fn copy_to(&self, nodes: &mut [u16], elements: &mut [u16]) -> Option<usize> {
        let nodes = nodes.get_mut(..self.length)?;
        let elements = elements.get_mut(..self.length)?;
        nodes.copy_from_slice(&self.nodes[..self.length]);
        elements.copy_from_slice(&self.elements[..self.length]);
        Some(self.length)
    }
}

/// The least element of the set with this entry; a member of an image has one.
#[inline]
fn least_source(entries: &[[u8; 2]], of: &Piece, entry: usize) -> usize {
    let wanted = (entry as u16).to_be_bytes();
    for (number, (&word, entries)) in of.iter().zip(entries.chunks(64)).enumerate() {
        let mut bits = word;
        while bits != 0 {
            let element = bits.trailing_zeros() as usize;
            bits &= bits - 1;
            if entries[element] == wanted {
                return number * 64 + element;
            }
        }
    }
    0
}

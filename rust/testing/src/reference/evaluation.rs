//! The pieces of every node, as sets, and their words.
#![forbid(unsafe_code)]

use mavisglen::Refusal;

use super::data::{DataSet, Set};
use super::flaw::Flaw;
use super::plan::{Expression, Node, Plan};
use super::Reference;
use crate::encode::PIECE_WORDS;

/// A plan and a data set that fits it, with the sets of all nodes.
#[derive(Clone, Debug)]
pub struct Evaluated {
    pub plan: Plan,
    pub data: DataSet,
    /// By node and piece.
    partitions: Vec<Vec<Set>>,
}

impl Evaluated {
    /// The members of a node's piece, ascending; none if there is no such piece.
    pub fn members(&self, node: usize, piece: usize) -> Option<impl Iterator<Item = usize> + '_> {
        Some(self.partitions.get(node)?.get(piece)?.iter().copied())
    }

    /// All pieces of a node that exists.
    pub fn pieces(&self, node: usize) -> &[Set] {
        &self.partitions[node]
    }

    /// Whether a node's piece has an element; what does not exist has none.
    pub fn has(&self, node: usize, piece: usize, element: usize) -> bool {
        let pieces = self.partitions.get(node);
        pieces.and_then(|pieces| pieces.get(piece)).is_some_and(|members| members.contains(&element))
    }

    /// The size of a node's region; 0 if there is no such node.
    pub fn size(&self, node: usize) -> usize {
        self.plan.nodes.get(node).map_or(0, |node| self.data.sizes[node.region])
    }

    /// Whether a map leads from one element to another.
    pub fn leads(&self, map: usize, from: usize, to: usize) -> bool {
        self.data.maps[map].get(from) == Some(&Some(to))
    }
}

impl Reference {
    /// The sets of a checked plan over a data set: refusals 12 to 14.
    pub fn evaluated(&self, plan: Plan, data: &[u8]) -> Result<Evaluated, Refusal> {
        let data = self.read_data(&plan, data, usize::MAX)?;
        let partitions = self.partitions(&plan, &data);
        Ok(Evaluated { plan, data, partitions })
    }

    /// Writes every piece of every node; later words keep what they held.
    pub(super) fn store(&self, plan: &Plan, data: &DataSet, words: &mut [u64]) {
        let partitions = self.partitions(plan, data);
        for (node, pieces) in partitions.iter().enumerate() {
            for (piece, members) in pieces.iter().enumerate() {
                let start = self.position(partitions.len(), data.pieces, node, piece) * PIECE_WORDS;
                if let Some(place) = words.get_mut(start..start + PIECE_WORDS) {
                    self.store_piece(members, place);
                }
            }
        }
        if self.has(Flaw::LaterWordsCleared) {
            words[partitions.len() * data.pieces * PIECE_WORDS..].fill(0);
        }
    }

    /// Node j, piece i is number j × N + i.
    fn position(&self, nodes: usize, pieces: usize, node: usize, piece: usize) -> usize {
        if self.has(Flaw::PiecesStoredBackwards) {
            return node * pieces + (pieces - 1 - piece);
        }
        if self.has(Flaw::PiecesBeforeNodes) {
            return piece * nodes + node;
        }
        node * pieces + piece
    }

    /// Element e is bit e mod 64 of word e div 64; other bits are 0.
    fn store_piece(&self, members: &Set, words: &mut [u64]) {
        if !self.has(Flaw::OldBitsKept) {
            words.fill(0);
        }
        for element in members {
            if let Some(word) = words.get_mut(element / 64) {
                *word |= 1 << (element % 64);
            }
        }
    }

    /// Each node's pieces, from those of earlier nodes.
    pub fn partitions(&self, plan: &Plan, data: &DataSet) -> Vec<Vec<Set>> {
        let mut done: Vec<Vec<Set>> = Vec::new();
        for (number, node) in plan.nodes.iter().enumerate() {
            let piece = |piece: usize| {
                if self.has(Flaw::WholeRegionHandedOut) {
                    return (0..data.sizes[node.region]).collect();
                }
                if number > 0 && self.has(Flaw::OnlyFirstNodeFilled) {
                    return Set::new();
                }
                self.piece(node, data, &done, piece)
            };
            done.push((0..data.pieces).map(piece).collect());
        }
        done
    }

    fn piece(&self, node: &Node, data: &DataSet, done: &[Vec<Set>], piece: usize) -> Set {
        match node.expression {
            Expression::Supplied(number) => data.supplied[number][piece].clone(),
            Expression::Equal => self.equal_piece(data.sizes[node.region], data.pieces, piece),
            Expression::Union(a, _) if self.has(Flaw::UnionIsLeft) => done[a][piece].clone(),
            Expression::Union(a, b) => &done[a][piece] | &done[b][piece],
            Expression::Intersection(a, _) if self.has(Flaw::IntersectionIsLeft) => done[a][piece].clone(),
            Expression::Intersection(a, b) => &done[a][piece] & &done[b][piece],
            Expression::Difference(a, _) if self.has(Flaw::DifferenceIgnoresRight) => done[a][piece].clone(),
            Expression::Difference(a, b) => &done[a][piece] - &done[b][piece],
            Expression::Image { of, .. } if piece > 0 && self.has(Flaw::ImageOnlyOfFirstPiece) => {
                done[of][piece].clone()
            }
            Expression::Image { of, map } => image(&data.maps[map], &done[of][piece]),
            Expression::Preimage { of, map } => self.preimage(&data.maps[map], &done[of][piece]),
        }
    }

    /// Contiguous pieces, the first n mod N of one element more.
    fn equal_piece(&self, size: usize, pieces: usize, piece: usize) -> Set {
        let (quotient, remainder) = (size / pieces, size % pieces);
        let longer_before = |piece: usize| {
            if self.has(Flaw::EqualRemainderLast) {
                return (piece + remainder).saturating_sub(pieces);
            }
            piece.min(remainder)
        };
        let start = |piece: usize| piece * quotient + longer_before(piece);
        (start(piece)..start(piece + 1)).collect()
    }

    /// The source elements whose entry is not none and is in the piece.
    fn preimage(&self, entries: &[Option<usize>], of: &Set) -> Set {
        let inside = |element: &usize| match entries[*element] {
            Some(entry) => of.contains(&entry),
            None => self.has(Flaw::PreimageIncludesNone),
        };
        (0..entries.len()).filter(inside).collect()
    }
}

/// The entries, none left out, of the elements of the piece.
fn image(entries: &[Option<usize>], of: &Set) -> Set {
    of.iter().filter_map(|&element| entries[element]).collect()
}

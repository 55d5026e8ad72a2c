//! A charge, audited: by plain equations, on the sets and on the words that evaluating leaves, with no use of the rule
//! that makes it.
#![forbid(unsafe_code)]

use super::evaluation::Evaluated;
use crate::encode::PIECE_WORDS;
use crate::question::Transfer;

/// What is charged: count, cents and remainder.
#[derive(Clone, Copy, Debug, PartialEq, Eq)]
pub struct Bill {
    pub count: u16,
    pub cents: u32,
    pub remainder: u16,
}

/// How a bill can be wrong.
#[derive(Clone, Copy, Debug, PartialEq, Eq, PartialOrd, Ord)]
pub enum Mistake {
    /// It counts more than all elements in all pieces.
    TooMany { most: usize },
    /// It counts nothing where something is lacking, or something where nothing is.
    Contained { piece_by_piece: bool },
    /// It does not count the one bits of the accessed words without the owned ones.
    OneBits { bits: u32 },
    /// A cent or more is left.
    Remainder,
    /// Cents and remainder together are not count times price.
    Product { product: u64 },
}

impl Evaluated {
    /// Tests a bill, given the words that evaluating leaves.
    pub fn audit(&self, words: &[u64], transfer: Transfer, bill: Bill) -> Result<(), Mistake> {
        let most = self.data.pieces * self.size(transfer.accessed);
        if usize::from(bill.count) > most {
            return Err(Mistake::TooMany { most });
        }
        let piece_by_piece = (0..self.data.pieces).all(|piece| self.contains(transfer, piece));
        if (bill.count == 0) != piece_by_piece {
            return Err(Mistake::Contained { piece_by_piece });
        }
        let bits = self.one_bits(words, transfer);
        if u32::from(bill.count) != bits {
            return Err(Mistake::OneBits { bits });
        }
        if bill.remainder >= 1000 {
            return Err(Mistake::Remainder);
        }
        let product = u64::from(bill.count) * transfer.price;
        if u64::from(bill.cents) * 1000 + u64::from(bill.remainder) != product {
            return Err(Mistake::Product { product });
        }
        Ok(())
    }

    /// Whether the owned piece has all that the accessed one has.
    fn contains(&self, Transfer { accessed, owned, .. }: Transfer, piece: usize) -> bool {
        let mut members = self.members(accessed, piece).into_iter().flatten();
        members.all(|element| self.has(owned, piece, element))
    }

    /// The one bits of the accessed node's words that are not in the owned node's.
    fn one_bits(&self, words: &[u64], Transfer { accessed, owned, .. }: Transfer) -> u32 {
        let length = self.data.pieces * PIECE_WORDS;
        let [accessed, owned] = [accessed, owned].map(|node| &words[node * length..][..length]);
        accessed.iter().zip(owned).map(|(accessed, owned)| (accessed & !owned).count_ones()).sum()
    }
}

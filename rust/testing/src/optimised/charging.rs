//! Charges: only the nodes that the two are built from, one behind the other.
#![forbid(unsafe_code)]

use mavisglen::{Charge, Refusal};

use super::evaluation::{self, fill_node, Data};
use super::plan::Plan;
use crate::encode::{limit, node, PIECE_WORDS};
use crate::question::Transfer;

/// Judges the data set and what is charged for, counts and prices.
pub fn charge(plan: &Plan, bytes: &[u8], transfer: Transfer) -> Result<Charge, Refusal> {
    let data = evaluation::read(plan, bytes)?;
    let Transfer { accessed, owned, price } = transfer;
    if accessed.max(owned) >= plan.nodes.len() {
        return Err(Refusal::InvalidCharge(1));
    }
    if plan.node_regions[accessed] != plan.node_regions[owned] {
        return Err(Refusal::InvalidCharge(2));
    }
    if price > limit::PRICE {
        return Err(Refusal::InvalidCharge(3));
    }
    let needed = operands(plan, accessed, owned);
    // The less room, the less there is to clear.
    let count = match needed.count_ones() as usize * data.pieces {
        0..=16 => count_in::<16>(plan, &data, transfer, needed),
        17..=128 => count_in::<128>(plan, &data, transfer, needed),
        _ => count_in::<{ limit::NODES * limit::PIECES }>(plan, &data, transfer, needed),
    };
    let product = u64::from(count) * price;
    let (cents, remainder) = (product / 1000, product % 1000);
    Ok(Charge::Charged { count: count as u16, cents: cents as u32, remainder: remainder as u16 })
}

/// The two nodes and all that they are built from, one bit to each.
#[inline]
fn operands(plan: &Plan, accessed: usize, owned: usize) -> u64 {
    let mut needed = 1 << accessed | 1 << owned;
    for number in (0..=accessed.max(owned)).rev() {
        let [kind, a, b, _] = plan.nodes[number];
        let operands = match kind {
            node::SUPPLIED | node::EQUAL => 0,
            node::IMAGE | node::PREIMAGE => 1 << a,
            _ => 1 << a | 1 << b,
        };
        needed |= operands * (needed >> number & 1);
    }
    needed
}

/// Fills the nodes needed, and counts what the one has and the other lacks.
fn count_in<const ROOM: usize>(plan: &Plan, data: &Data, transfer: Transfer, mut needed: u64) -> u32 {
    let mut room = [[0; PIECE_WORDS]; ROOM];
    // Where each of them is, by its rank.
    let mut places = [0; limit::NODES];
    for rank in 0..needed.count_ones() as usize {
        let number = needed.trailing_zeros() as usize;
        needed &= needed - 1;
        places[number] = rank as u8;
        let [kind, a, b, _] = plan.nodes[number];
        let place = |node: u8| places[usize::from(node) % limit::NODES];
        let record = match kind {
            node::SUPPLIED | node::EQUAL => plan.nodes[number],
            node::IMAGE | node::PREIMAGE => [kind, place(a), b, 0],
            _ => [kind, place(a), place(b), 0],
        };
        let (done, rest) = room.split_at_mut(rank * data.pieces);
        fill_node(plan, data, record, plan.node_regions[number], done, &mut rest[..data.pieces]);
    }
    let [accessed, owned] = [transfer.accessed, transfer.owned]
        .map(|node| room[usize::from(places[node]) * data.pieces..][..data.pieces].as_flattened());
    accessed.iter().zip(owned).map(|(accessed, owned)| (accessed & !owned).count_ones()).sum()
}

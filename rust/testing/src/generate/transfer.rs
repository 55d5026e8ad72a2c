//! Transfers to charge for: two nodes and a price.
#![forbid(unsafe_code)]

use super::beyond;
use crate::encode::limit;
use crate::question::Transfer;
use crate::random::Random;
use crate::reference::evaluation::Evaluated;

/// Prices at the edges: of a thousand, and of what is admitted.
pub const ADMITTED: [u64; 7] = [0, 1, 999, 1000, 1001, limit::PRICE - 1, limit::PRICE];

/// Just above what is admitted, the least past 32 bits and past 63, and the greatest.
pub const TOO_HIGH: [u64; 4] = [limit::PRICE + 1, 1 << 32, 1 << 63, u64::MAX];

/// Several, where there is much to charge for.
pub fn some_transfers(random: &mut Random, evaluated: &Evaluated) -> Vec<Transfer> {
    match evaluated.plan.nodes.len() {
        0 => any_transfers(random),
        _ => (0..random.within(3..=6)).map(|_| some_transfer(random, evaluated)).collect(),
    }
}

/// Of anything, where nothing can be charged for.
pub fn any_transfers(random: &mut Random) -> Vec<Transfer> {
    let mut any = || {
        let [accessed, owned] = [(); 2].map(|()| random.below(4));
        let (price, wrong) = (some_price(random), random.below(8));
        spoiled(random, Transfer { accessed, owned, price }, wrong, 4)
    };
    vec![any(), any()]
}

/// Most often of two nodes of one region, at a price that is admitted.
fn some_transfer(random: &mut Random, evaluated: &Evaluated) -> Transfer {
    let nodes = &evaluated.plan.nodes;
    // Where nothing is accessed there is little to count.
    let tries = [(); 4].map(|()| some_node(random, nodes.len()));
    let has_members = |node: &usize| evaluated.pieces(*node).iter().any(|members| !members.is_empty());
    let accessed = tries.into_iter().find(has_members).unwrap_or(tries[0]);
    let region = |node: usize| nodes[node].region;
    // What is wrong, a bit to each; the fourth is that regions differ.
    let wrong = if random.one_in(3) { random.within(1..=15) } else { 0 };
    let owned = match random.below(8) {
        _ if wrong & 8 != 0 => random.find(nodes.len(), |node| region(node) != region(accessed)),
        0 => Some(accessed),
        1 => Some(some_node(random, nodes.len())),
        _ => random.find(nodes.len(), |node| region(node) == region(accessed) && node != accessed),
    };
    let (owned, price) = (owned.unwrap_or(accessed), some_price(random));
    spoiled(random, Transfer { accessed, owned, price }, wrong, nodes.len())
}

/// Any, and more often the first and the last.
fn some_node(random: &mut Random, count: usize) -> usize {
    match random.below(8) {
        0 => 0,
        1 => count - 1,
        _ => random.below(count),
    }
}

fn some_price(random: &mut Random) -> u64 {
    match random.below(4) {
        0 => random.pick(&ADMITTED),
        1 => random.below(5000) as u64,
        2 => limit::PRICE - random.below(5000) as u64,
        _ => random.below(limit::PRICE as usize) as u64,
    }
}

/// The accessed node past the end where the lowest bit of `wrong` is set, the owned one where the second is, the price
/// too high where the third is.
fn spoiled(random: &mut Random, transfer: Transfer, wrong: usize, nodes: usize) -> Transfer {
    let Transfer { mut accessed, mut owned, mut price } = transfer;
    if wrong & 1 != 0 {
        accessed = beyond(random, accessed, nodes);
    }
    if wrong & 2 != 0 {
        owned = beyond(random, owned, nodes);
    }
    if wrong & 4 != 0 {
        price = too_high(random, price);
    }
    Transfer { accessed, owned, price }
}

/// At an edge, the same in its low bits, or any.
fn too_high(random: &mut Random, price: u64) -> u64 {
    match random.below(4) {
        0 | 1 => random.pick(&TOO_HIGH),
        2 => price | 1 << random.pick(&[20, 31, 32, 40, 63]),
        _ => random.word().max(limit::PRICE + 1),
    }
}

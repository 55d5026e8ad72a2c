//! Lemma steps over packed facts.
#![forbid(unsafe_code)]

use mavisglen::Refusal;

use super::plan::{invalid, Plan};
use crate::encode::{flag, limit, node};

/// What the steps conclude, each packed into one number.
pub struct Facts {
    pub packed: [u32; limit::STEPS],
    pub count: usize,
}

const DISJOINT: u32 = 1 << 16;
const COMPLETE: u32 = 2 << 16;
/// No step concludes this.
const NOTHING: u32 = u32::MAX;

#[inline]
pub fn contained(x: u8, y: u8) -> u32 {
    u32::from(x) << 8 | u32::from(y)
}

#[inline]
pub fn disjoint(x: u8) -> u32 {
    DISJOINT | u32::from(x)
}

#[inline]
pub fn complete(x: u8) -> u32 {
    COMPLETE | u32::from(x)
}

const Y: u8 = 1;
const P: u8 = 2;
const Q: u8 = 4;

/// What each lemma, from 1, uses beside x.
const USES: [u8; 21] = [
    0,
    0,
    0,
    0,
    Y,
    Y | P | Q,
    Y,
    Y | P | Q,
    Y,
    Y | P | Q,
    Y,
    Y | P,
    Y | P,
    Y | P,
    Y | P | Q,
    P,
    P,
    P,
    Y | P | Q,
    P,
    P,
];

pub fn read(plan: &Plan) -> Result<Facts, Refusal> {
    let mut facts = Facts { packed: [NOTHING; limit::STEPS], count: plan.steps.len() };
    for (record, &step) in plan.steps.iter().enumerate() {
        if !is_known(plan.nodes.len(), record, step) {
            return Err(invalid(7, record));
        }
        match conclude(plan, &facts, step) {
            Some(fact) => facts.packed[record % limit::STEPS] = fact,
            None => return Err(Refusal::UnlicensedStep(record as u64)),
        }
    }
    Ok(facts)
}

#[inline]
fn is_known(nodes: usize, earlier: usize, [lemma, x, y, p, q]: [u8; 5]) -> bool {
    let Some(&uses) = USES.get(usize::from(lemma).wrapping_sub(1)) else { return false };
    let below = |used: u8, count: usize| if uses & used != 0 { count } else { 1 };
    usize::from(x) < nodes
        && usize::from(y) < below(Y, nodes)
        && usize::from(p) < below(P, earlier)
        && usize::from(q) < below(Q, earlier)
}

/// The fact that a step concludes, if it follows by its lemma.
#[inline]
fn conclude(plan: &Plan, facts: &Facts, [lemma, x, y, p, q]: [u8; 5]) -> Option<u32> {
    let [x_kind, xa, xb, _] = plan.nodes[usize::from(x)];
    let [y_kind, ya, yb, _] = plan.nodes[usize::from(y)];
    let p = facts.packed[usize::from(p) % limit::STEPS];
    let q = facts.packed[usize::from(q) % limit::STEPS];
    let declared = |flag: u8| x_kind == node::SUPPLIED && plan.supplied[usize::from(xa)][1] & flag != 0;
    let follows = match lemma {
        1 | 2 => x_kind == node::EQUAL,
        3 => declared(flag::DISJOINT),
        4 => declared(flag::COMPLETE),
        5 => x == y,
        6 => p | q < DISJOINT && p >> 8 == u32::from(x) && q & 255 == u32::from(y) && p & 255 == q >> 8,
        7 => y_kind == node::UNION && (x == ya || x == yb),
        8 => x_kind == node::UNION && p == contained(xa, y) && q == contained(xb, y),
        9 => x_kind == node::INTERSECTION && (y == xa || y == xb),
        10 => y_kind == node::INTERSECTION && p == contained(x, ya) && q == contained(x, yb),
        11 => x_kind == node::DIFFERENCE && y == xa,
        12 => x_kind == node::IMAGE && y_kind == node::IMAGE && xb == yb && p == contained(xa, ya),
        13 => x_kind == node::PREIMAGE && y_kind == node::PREIMAGE && xb == yb && p == contained(xa, ya),
        14 => x_kind == node::IMAGE && p >> 8 == u32::from(xa) && is(plan, p as u8, [node::PREIMAGE, y, xb]),
        15 => p == disjoint(y) && q == contained(x, y),
        16 => x_kind == node::INTERSECTION && (p == disjoint(xa) || p == disjoint(xb)),
        17 => x_kind == node::DIFFERENCE && p == disjoint(xa),
        18 => x_kind == node::PREIMAGE && p == disjoint(xa),
        19 => p == complete(y) && q == contained(y, x),
        20 => x_kind == node::PREIMAGE && plan.maps[usize::from(xb)][2] == 1 && p == complete(xa),
        _ => x_kind == node::DIFFERENCE && p == disjoint(p as u8) && is_private_part(plan, xa, xb, p as u8),
    };
    let fact = match lemma {
        1 | 3 | 15..=18 | 21 => disjoint(x),
        2 | 4 | 19 | 20 => complete(x),
        _ => contained(x, y),
    };
    follows.then_some(fact)
}

#[inline]
fn is(plan: &Plan, number: u8, [kind, a, b]: [u8; 3]) -> bool {
    plan.nodes[usize::from(number)] == [kind, a, b, 0]
}

/// Whether an image without what is shared is the private part by a disjoint node. Kept out of the way of the other
/// lemmas, which are slower with this among them.
#[cold]
fn is_private_part(plan: &Plan, image: u8, shared: u8, of: u8) -> bool {
    let [shared_kind, others, map, _] = plan.nodes[usize::from(shared)];
    if shared_kind != node::IMAGE || !is(plan, image, [node::IMAGE, of, map]) {
        return false;
    }
    let [others_kind, sources, outside, _] = plan.nodes[usize::from(others)];
    others_kind == node::DIFFERENCE && outside == of && is(plan, sources, [node::PREIMAGE, image, map])
}

//! Plans whose nodes are built one on the other, so that explanations are long.
#![forbid(unsafe_code)]

use super::builder::Builder;
use super::program::{skeleton, Shape};
use crate::encode::{limit, node, Plan};
use crate::random::Random;

/// A plan without loops, up to as many nodes deep as there may be.
pub fn deep_plan(random: &mut Random) -> Plan {
    let shape = Shape {
        regions: random.within(1..=3),
        maps: random.within(1..=6),
        supplied: random.within(1..=4),
        loops: 0,
        ..Shape::random(random)
    };
    let plan = skeleton(random, shape);
    let mut builder = Builder::new(random, plan);
    builder.most_nodes = builder.random.within(1..=limit::NODES);
    let region = builder.random.below(builder.plan.regions.len()) as u8;
    let mut latest = builder.node(node::EQUAL, region, 0);
    // The fewer operators may lose elements, the longer the chains.
    let operators = builder.random.pick(&[6, 8, 10]);
    for _ in 0..2 * limit::NODES {
        latest = latest.and_then(|node| deeper(&mut builder, node, operators)).or(latest);
    }
    builder.plan
}

/// A node over this one, by one of the operators.
fn deeper(builder: &mut Builder, node: u8, operators: usize) -> Option<u8> {
    let region = builder.region(node);
    match builder.random.below(operators) {
        0 | 1 => {
            let map = builder.map_from(region)?;
            builder.node(node::IMAGE, node, map)
        }
        2 | 3 => {
            let map = builder.map_to(region)?;
            builder.node(node::PREIMAGE, node, map)
        }
        4 | 5 => {
            let other = some_other(builder, region)?;
            builder.node(node::UNION, node, other)
        }
        6 | 7 => {
            let other = some_other(builder, region)?;
            builder.either_way(node::UNION, node, other)
        }
        8 => {
            let other = some_other(builder, region)?;
            builder.node(node::INTERSECTION, node, other)
        }
        _ => {
            let other = some_other(builder, region)?;
            builder.node(node::DIFFERENCE, node, other)
        }
    }
}

/// A supplied or an equal node, or any that is listed.
fn some_other(builder: &mut Builder, region: u8) -> Option<u8> {
    match builder.random.below(4) {
        0 => builder.node(node::EQUAL, region, 0),
        1 => builder.supplied(region, 0).and_then(|number| builder.node(node::SUPPLIED, number, 0)),
        _ => builder.listed(region),
    }
}

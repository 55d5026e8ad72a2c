//! Plans and data sets with a given number of one thing: at its limit they
//! are accepted, one past it refused.
#![forbid(unsafe_code)]

use super::builder::Builder;
use super::data;
use super::lemma::some_lemma;
use super::loops::Loop;
use super::program::{skeleton, with_loops, Omission, Shape};
use crate::encode::{limit, node, statement, DataSet, Plan};
use crate::random::Random;
use crate::reference::flaw::Limit;

const SMALL: Shape = Shape {
    regions: 3,
    maps: 3,
    supplied: 2,
    loops: 1,
    statements: 4,
    depth: 1,
    spare_nodes: 2,
    spare_steps: 2,
};

/// A plan with `count` of what the limit is about, all else admitted; for
/// pieces and size, which are of the data, any small plan.
pub fn plan_with(random: &mut Random, limit: Limit, count: usize) -> Plan {
    loop {
        let plan = match limit {
            Limit::Regions => shaped(random, Shape { regions: count, ..SMALL }),
            Limit::Maps => shaped(random, Shape { maps: count, ..SMALL }),
            Limit::Supplied => shaped(random, Shape { supplied: count, ..SMALL }),
            Limit::Fields => with_fields(random, count),
            Limit::Statements => with_statements(random, count),
            Limit::Variables => with_variables(random, count),
            Limit::Nodes => with_nodes(random, count),
            Limit::Assignments => with_assignments(random, count),
            Limit::Steps => with_steps(random, count),
            Limit::Pieces | Limit::Size => shaped(random, SMALL),
        };
        if let Some(plan) = plan {
            return plan;
        }
    }
}

/// A data set for the plan, of as many pieces or elements if the limit is
/// about them.
pub fn data_with(random: &mut Random, plan: &Plan, limit: Limit, count: usize) -> DataSet {
    let mut data = data::fitting(random, plan);
    match limit {
        Limit::Pieces => data::filled(random, plan, count as u8, data.sizes),
        Limit::Size => {
            let region = random.below(data.sizes.len());
            data.sizes[region] = count as u16;
            data::filled(random, plan, data.pieces, data.sizes)
        }
        _ => data,
    }
}

fn shaped(random: &mut Random, shape: Shape) -> Option<Plan> {
    let (builder, loops) = with_loops(random, shape);
    finish(builder, &loops, shape)
}

fn finish(mut builder: Builder, loops: &[Loop], shape: Shape) -> Option<Plan> {
    for current in loops {
        builder.assign(current, shape.depth, Omission::Nothing)?;
    }
    builder.add_spares(shape);
    use_last(&mut builder);
    Some(builder.plan)
}

/// Nodes that name the last region, map and supplied partition.
fn use_last(builder: &mut Builder) {
    let last = |count: usize| count.checked_sub(1).map(|last| last as u8);
    let plan = &builder.plan;
    let (region, map, supplied) =
        (last(plan.regions.len()), last(plan.maps.len()), last(plan.supplied.len()));
    region.and_then(|region| builder.node(node::EQUAL, region, 0));
    supplied.and_then(|number| builder.node(node::SUPPLIED, number, 0));
    map.and_then(|map| {
        let target = builder.plan.maps[usize::from(map)][1];
        let of = builder.node(node::EQUAL, target, 0)?;
        builder.node(node::PREIMAGE, of, map)
    });
}

/// A region of so many fields, its last one read.
fn with_fields(random: &mut Random, count: usize) -> Option<Plan> {
    let mut plan = skeleton(random, SMALL);
    let region = random.below(plan.regions.len()) as u8;
    plan.regions[usize::from(region)] = [count as u8];
    let mut current = Loop::open(random, &mut plan, region);
    current.push_access(&mut plan, 0, [statement::READ, count as u8 - 1, 0]);
    finish(Builder::new(random, plan), &[current], SMALL)
}

/// Loops of random statements, the last cut off at the count.
fn with_statements(random: &mut Random, count: usize) -> Option<Plan> {
    let mut plan = skeleton(random, SMALL);
    let mut loops = Vec::new();
    while plan.statements.len() < count {
        let region = random.below(plan.regions.len()) as u8;
        let mut current = Loop::open(random, &mut plan, region);
        let wished = random.below(12);
        for _ in 0..wished {
            if plan.statements.len() < count {
                current.add(random, &mut plan);
            }
        }
        loops.push(current);
    }
    finish(Builder::new(random, plan), &loops, Shape { depth: 0, spare_steps: 0, ..SMALL })
}

/// A loop of so many variables, the last of them read.
fn with_variables(random: &mut Random, count: usize) -> Option<Plan> {
    let mut plan = skeleton(random, SMALL);
    let region = random.below(plan.regions.len()) as u8;
    let mut current = Loop::open(random, &mut plan, region);
    while current.variables.len() < count {
        if random.one_in(3) {
            current.add(random, &mut plan);
        }
        if current.variables.len() < count {
            let copied = random.below(current.variables.len());
            current.copy(&mut plan, copied);
        }
    }
    finish(Builder::new(random, plan), &[current], SMALL)
}

fn with_nodes(random: &mut Random, count: usize) -> Option<Plan> {
    let (mut builder, loops) = with_loops(random, SMALL);
    builder.most_nodes = count;
    for current in &loops {
        builder.assign(current, 2, Omission::Nothing)?;
    }
    for _ in 0..40 * count {
        let region = builder.random.below(builder.plan.regions.len()) as u8;
        builder.some_node(region, 2);
    }
    // A step about the last node makes its number matter.
    builder.step(5, count as u8 - 1, count as u8 - 1, 0, 0);
    (builder.plan.nodes.len() == count).then_some(builder.plan)
}

fn with_steps(random: &mut Random, count: usize) -> Option<Plan> {
    let (mut builder, loops) = with_loops(random, SMALL);
    builder.most_steps = count;
    for current in &loops {
        builder.assign(current, 2, Omission::Nothing)?;
    }
    for _ in 0..40 * count {
        let lemma = some_lemma(builder.random);
        builder.instance(lemma, 2);
    }
    // Steps may repeat.
    while builder.plan.steps.len() < count {
        let step = builder.random.below(builder.plan.steps.len());
        builder.plan.steps.push(builder.plan.steps[step]);
    }
    Some(builder.plan)
}

/// As many assignments as symbols, as far as statements can have symbols.
fn with_assignments(random: &mut Random, count: usize) -> Option<Plan> {
    let mut plan = skeleton(random, SMALL);
    let mut loops = Vec::new();
    while plan.statements.len() < count.min(limit::STATEMENTS) {
        let region = random.below(plan.regions.len()) as u8;
        let mut current = Loop::open(random, &mut plan, region);
        while plan.statements.len() < limit::STATEMENTS && !random.one_in(6) {
            current.push_access(&mut plan, 0, [statement::READ, 0, 0]);
        }
        loops.push(current);
    }
    let mut plan = finish(Builder::new(random, plan), &loops, Shape { depth: 0, ..SMALL })?;
    plan.assignments.resize(count, [0]);
    Some(plan)
}

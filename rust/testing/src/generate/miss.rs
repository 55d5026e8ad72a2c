//! Plans that are nearly right, and bytes that are damaged.
#![forbid(unsafe_code)]

use super::builder::Builder;
use super::conflict::conflicting_plan;
use super::lemma::{Miss, LEMMAS};
use super::program::{accepted_plan, incomplete_plan};
use crate::encode::{limit, node, statement, Plan};
use crate::random::Random;

/// A small plan and one more step, which is nearly by its lemma.
pub fn lemma_near_miss(random: &mut Random, miss: Miss) -> Option<Plan> {
    let plan = accepted_plan(random);
    if plan.nodes.len() > 24 || plan.steps.len() > 60 {
        return None;
    }
    let mut builder = resume(random, plan);
    builder.near_miss(miss)?;
    Some(builder.plan)
}

fn some_lemma_near_miss(random: &mut Random) -> Plan {
    let misses = Miss::all();
    loop {
        let miss = random.pick(&misses);
        if let Some(plan) = lemma_near_miss(random, miss) {
            return plan;
        }
    }
}

/// A builder that goes on with a finished plan.
fn resume(random: &mut Random, mut plan: Plan) -> Builder<'_> {
    let nodes = std::mem::take(&mut plan.nodes);
    let mut builder = Builder::new(random, plan);
    for [kind, a, b, _] in nodes {
        builder.node(kind, a, b);
    }
    builder
}

/// Changes one thing about a plan's records.
pub fn alter(random: &mut Random, plan: &mut Plan) {
    match random.below(36) {
        0 | 1 => repeat_node(random, plan),
        2 | 3 => resize_assignments(random, plan),
        4..=7 => reassign(random, plan),
        8 | 9 => drop_step(random, plan),
        10..=13 => insert_statement(random, plan),
        14 | 15 => swap_records(random, plan),
        16..=19 => append_node(random, plan),
        20..=25 => alter_statement(random, plan),
        26 => plan.regions.clear(),
        27..=30 => alter_kind(random, plan),
        _ => alter_byte(random, plan),
    }
}

/// An accepted plan with one thing about its records changed.
pub fn altered_plan(random: &mut Random) -> Plan {
    let mut plan = accepted_plan(random);
    alter(random, &mut plan);
    plan
}

/// A plan with several things wrong, so that the order of rules shows.
pub fn compound_plan(random: &mut Random) -> Plan {
    let mut plan = match random.below(5) {
        0 | 1 => conflicting_plan(random),
        2 => incomplete_plan(random),
        3 => some_lemma_near_miss(random),
        _ => accepted_plan(random),
    };
    for _ in 0..random.within(0..=3) {
        alter(random, &mut plan);
    }
    if random.one_in(3) {
        let lemma = random.within(0..=usize::from(LEMMAS) + 1) as u8;
        plan.steps.push([lemma, 255, 0, 0, 0]);
    }
    plan
}

fn repeat_node(random: &mut Random, plan: &mut Plan) {
    if !plan.nodes.is_empty() {
        plan.nodes.push(random.pick(&plan.nodes));
    }
}

/// One more node of known operands, their regions not looked at.
fn append_node(random: &mut Random, plan: &mut Plan) {
    let kind = random.within(2..=6) as u8;
    let seconds = if kind >= node::IMAGE { plan.maps.len() } else { plan.nodes.len() };
    if !plan.nodes.is_empty() && seconds > 0 {
        plan.nodes.push([kind, random.below(plan.nodes.len()) as u8, random.below(seconds) as u8, 0]);
    }
}

/// Another map, variable, field or operator in a statement, at times two.
fn alter_statement(random: &mut Random, plan: &mut Plan) {
    if plan.statements.is_empty() {
        return;
    }
    let place = random.below(plan.statements.len());
    let fields = if plan.regions.is_empty() { 1 } else { random.pick(&plan.regions)[0] };
    let field = fields.saturating_sub(random.below(2) as u8);
    let operand = random.below(plan.maps.len().max(2)) as u8;
    let record = &mut plan.statements[place];
    match record[0] {
        statement::LOAD | statement::CALL if random.one_in(2) => record[1] = operand,
        statement::LOAD if random.one_in(2) => (record[1], record[3]) = (operand, limit::FIELDS as u8),
        statement::LOAD => record[3] = field,
        statement::REDUCE if random.one_in(2) => record[3] = random.within(3..=5) as u8,
        statement::READ | statement::WRITE | statement::REDUCE => record[2] = field,
        _ => record[random.within(1..=3)] = random.below(3) as u8,
    }
}

/// Another kind of a statement, known or not, its operands still right for the old one. An unknown kind is the first,
/// the old one in its low bits, or any.
fn alter_kind(random: &mut Random, plan: &mut Plan) {
    let Some(place) = random.find(plan.statements.len(), |_| true) else { return };
    let kind = &mut plan.statements[place][0];
    let unknown = statement::REDUCE + 1;
    *kind = match random.below(6) {
        0 | 1 => random.below(usize::from(unknown)) as u8,
        2 | 3 => unknown,
        4 => *kind | random.pick(&[8, 16, 32, 64, 128]),
        _ => random.within(usize::from(unknown)..=255) as u8,
    };
}

fn resize_assignments(random: &mut Random, plan: &mut Plan) {
    if random.one_in(2) {
        plan.assignments.pop();
    } else {
        plan.assignments.push([0]);
    }
}

fn reassign(random: &mut Random, plan: &mut Plan) {
    if !plan.assignments.is_empty() && !plan.nodes.is_empty() {
        let symbol = random.below(plan.assignments.len());
        plan.assignments[symbol] = [random.below(plan.nodes.len()) as u8];
    }
}

/// Drops a step and moves the citations of later ones.
fn drop_step(random: &mut Random, plan: &mut Plan) {
    if plan.steps.is_empty() {
        return;
    }
    let dropped = random.below(plan.steps.len());
    plan.steps.remove(dropped);
    for step in &mut plan.steps[dropped..] {
        for cited in &mut step[3..] {
            *cited -= u8::from(usize::from(*cited) > dropped);
        }
    }
}

/// A statement of random operands in any place, often within bounds.
fn insert_statement(random: &mut Random, plan: &mut Plan) {
    let place = random.within(0..=plan.statements.len());
    let kind = random.below(7) as u8;
    let record = [kind, random.below(3) as u8, random.below(2) as u8, 0];
    plan.statements.insert(place, record);
    // With an assignment for it, later rules are reached.
    if random.one_in(2) && !matches!(kind, statement::CALL | statement::COPY) {
        plan.assignments.push([0]);
    }
}

fn swap_records(random: &mut Random, plan: &mut Plan) {
    let count = plan.steps.len();
    if count > 1 {
        plan.steps.swap(random.below(count), random.below(count));
    }
    if plan.nodes.len() > 1 && random.one_in(2) {
        let count = plan.nodes.len();
        plan.nodes.swap(random.below(count), random.below(count));
    }
}

/// One byte of one record changed, most often to a value near a bound.
fn alter_byte(random: &mut Random, plan: &mut Plan) {
    let counts = [
        plan.regions.len(),
        plan.maps.len(),
        plan.supplied.len(),
        plan.nodes.len(),
        plan.steps.len(),
        limit_values(random),
    ];
    let value = match random.below(6) {
        0 => random.byte(),
        1 => 0,
        2 => random.pick(&counts).wrapping_sub(1) as u8,
        3 => random.below(8) as u8,
        _ => random.pick(&counts) as u8,
    };
    let section: &mut [u8] = match random.below(8) {
        0 => plan.regions.as_flattened_mut(),
        1 => plan.maps.as_flattened_mut(),
        2 => plan.supplied.as_flattened_mut(),
        3 | 4 => plan.statements.as_flattened_mut(),
        5 => plan.nodes.as_flattened_mut(),
        6 => plan.assignments.as_flattened_mut(),
        _ => plan.steps.as_flattened_mut(),
    };
    if !section.is_empty() {
        section[random.below(section.len())] = value;
    }
}

/// First values that some byte does not admit.
fn limit_values(random: &mut Random) -> usize {
    random.pick(&[2, 4, 7, 9, 16, usize::from(LEMMAS) + 1])
}

/// The bytes of an accepted plan, damaged anywhere.
pub fn damaged_plan(random: &mut Random, plan: &Plan) -> Vec<u8> {
    let mut bytes = plan.encode();
    match random.below(8) {
        0 => bytes.truncate(random.below(bytes.len())),
        1 | 2 => bytes.extend((0..random.within(1..=3)).map(|_| 0)),
        3 => bytes[0] = random.pick(&[0, 2, 255]),
        4 => alter_length(random, &mut bytes),
        5 => bytes = (0..random.below(40)).map(|_| random.byte()).collect(),
        _ => {
            let place = random.below(bytes.len());
            bytes[place] = random.byte();
        }
    }
    if random.one_in(6) {
        alter_length(random, &mut bytes);
    }
    bytes
}

/// Adds to or takes from the length of one section.
fn alter_length(random: &mut Random, bytes: &mut [u8]) {
    let mut place = 1;
    for _ in 0..random.below(7) {
        let Some(&[high, low]) = bytes.get(place..place + 2).and_then(|two| two.first_chunk()) else {
            return;
        };
        place += 2 + usize::from(u16::from_be_bytes([high, low]));
    }
    if let Some(low) = bytes.get_mut(place + 1) {
        *low = match random.below(4) {
            0 => 0,
            1 => low.wrapping_add(1),
            2 => low.wrapping_sub(1),
            _ => random.byte(),
        };
    }
}

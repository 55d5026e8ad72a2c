//! Plans right but for one loop that is not parallelizable; and plans with such a loop set apart, its accesses no
//! longer of one region and field.
#![forbid(unsafe_code)]

use super::loops::{some_field, Loop};
use super::program::{with_loops, Omission, Shape};
use crate::encode::{statement, Plan};
use crate::random::Random;

/// A statement, its variable (0 centered, 1 and 2 not) and, for a REDUCE, how far its operator is from the others'.
type Conflicting = (u8, usize, u8);

/// Two accesses that may not have one region and field. Variable 1 alone can be of another region.
const CONFLICTS: [[Conflicting; 2]; 11] = [
    [(statement::REDUCE, 1, 0), (statement::READ, 0, 0)],
    [(statement::REDUCE, 1, 0), (statement::READ, 2, 0)],
    [(statement::REDUCE, 1, 0), (statement::LOAD, 0, 0)],
    [(statement::REDUCE, 1, 0), (statement::LOAD, 2, 0)],
    [(statement::REDUCE, 1, 0), (statement::WRITE, 0, 0)],
    [(statement::REDUCE, 1, 0), (statement::REDUCE, 0, 0)],
    [(statement::REDUCE, 1, 0), (statement::REDUCE, 2, 1)],
    [(statement::READ, 1, 0), (statement::WRITE, 0, 0)],
    [(statement::READ, 1, 0), (statement::REDUCE, 0, 0)],
    [(statement::LOAD, 1, 0), (statement::WRITE, 0, 0)],
    [(statement::LOAD, 1, 0), (statement::REDUCE, 0, 0)],
];

/// What the two accesses share.
#[derive(Clone, Copy, Debug, PartialEq, Eq)]
enum Shared {
    RegionAndField,
    RegionOnly,
    FieldOnly,
}

/// The region and field of each of two accesses, the loop's region last.
struct Targets {
    regions: [u8; 2],
    fields: [u8; 2],
}

impl Targets {
    /// The plan gets one more region or field where it has too few.
    fn random(random: &mut Random, plan: &mut Plan, shared: Shared) -> Targets {
        let region = random.below(plan.regions.len()) as u8;
        if shared == Shared::RegionOnly {
            at_least(plan, region, 2);
        }
        let field = some_field(random, plan, region);
        let mut targets = Targets { regions: [region; 2], fields: [field; 2] };
        match shared {
            Shared::RegionAndField => {}
            Shared::RegionOnly => {
                targets.fields[0] = another(random, field, usize::from(plan.regions[usize::from(region)][0]));
            }
            Shared::FieldOnly => {
                if plan.regions.len() == 1 {
                    plan.regions.push([1]);
                }
                targets.regions[0] = another(random, region, plan.regions.len());
                at_least(plan, targets.regions[0], field + 1);
            }
        }
        targets
    }
}

/// Another number below a bound, which is at least 2.
fn another(random: &mut Random, number: u8, bound: usize) -> u8 {
    ((usize::from(number) + random.within(1..=bound - 1)) % bound) as u8
}

fn at_least(plan: &mut Plan, region: u8, fields: u8) {
    let known = &mut plan.regions[usize::from(region)][0];
    *known = (*known).max(fields);
}

/// A loop over the last region with variable 1 of the first and 2 of the last again, and the maps between them:
/// the one from each variable's region.
fn loop_of_three_variables(random: &mut Random, plan: &mut Plan, [first, last]: [u8; 2]) -> (Loop, [u8; 3]) {
    let there = plan.maps.len() as u8;
    let back = there + 1;
    plan.maps.push([last, first, random.below(2) as u8]);
    plan.maps.push([first, last, random.below(2) as u8]);
    let mut current = Loop::open(random, plan, last);
    current.call(plan, there, 0);
    current.call(plan, back, 1);
    (current, [there, back, there])
}

/// A loop of two accesses that conflict if they share region and field, perhaps one of them twice.
fn conflicting_loop(random: &mut Random, plan: &mut Plan, shared: Shared) -> Loop {
    let Targets { regions, fields } = Targets::random(random, plan, shared);
    let (mut current, maps) = loop_of_three_variables(random, plan, regions);
    let conflict = random.pick(&CONFLICTS);
    let operator = random.below(4) as u8;
    let mut accesses = vec![(conflict[0], fields[0]), (conflict[1], fields[1])];
    if random.one_in(2) {
        accesses.reverse();
    }
    // With a third between the two, the first must be remembered.
    if random.one_in(2) {
        let between = if shared == Shared::RegionAndField && random.one_in(2) {
            ((statement::READ, 0, 0), fields[1])
        } else {
            random.pick(&accesses)
        };
        accesses.insert(1, between);
    }
    for ((kind, variable, distance), field) in accesses {
        match kind {
            statement::LOAD => current.load(plan, maps[variable], variable, field),
            statement::REDUCE => {
                current.push_access(plan, variable, [kind, field, (operator + distance) % 4])
            }
            _ => current.push_access(plan, variable, [kind, field, 0]),
        }
    }
    current
}

/// No other access is needed to refuse an uncentered WRITE.
fn loop_of_an_uncentered_write(random: &mut Random, plan: &mut Plan) -> Loop {
    let Targets { regions, fields } = Targets::random(random, plan, Shared::FieldOnly);
    let (mut current, _) = loop_of_three_variables(random, plan, regions);
    current.push_access(plan, random.within(1..=2), [statement::WRITE, fields[0], 0]);
    current
}

/// A plan that must be refused for a loop that is not parallelizable.
pub fn conflicting_plan(random: &mut Random) -> Plan {
    if random.one_in(CONFLICTS.len() + 1) {
        plan_with(random, loop_of_an_uncentered_write)
    } else {
        plan_with(random, |random, plan| conflicting_loop(random, plan, Shared::RegionAndField))
    }
}

/// A plan that must be accepted, because two accesses of a loop share a region only, or a field number only.
pub fn apart_plan(random: &mut Random) -> Plan {
    let shared = random.pick(&[Shared::RegionOnly, Shared::FieldOnly]);
    plan_with(random, |random, plan| conflicting_loop(random, plan, shared))
}

fn plan_with(random: &mut Random, special: impl Fn(&mut Random, &mut Plan) -> Loop) -> Plan {
    loop {
        let shape = Shape { loops: random.below(2), ..Shape::random(random) };
        if let Some(plan) = try_plan_with(random, shape, &special) {
            return plan;
        }
    }
}

fn try_plan_with(
    random: &mut Random,
    shape: Shape,
    special: impl Fn(&mut Random, &mut Plan) -> Loop,
) -> Option<Plan> {
    let (mut builder, mut loops) = with_loops(random, shape);
    let (random, plan) = (&mut *builder.random, &mut builder.plan);
    loops.push(special(random, plan));
    // A loop may follow, which is read before the one before it is judged.
    if random.one_in(2) {
        let region = random.below(plan.regions.len()) as u8;
        let mut last = Loop::open(random, plan, region);
        (0..3).for_each(|_| last.add(random, plan));
        loops.push(last);
    }
    for current in &loops {
        builder.assign(current, shape.depth, Omission::Nothing)?;
    }
    Some(builder.plan)
}

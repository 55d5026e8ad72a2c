//! Accepted plans: regions, maps and supplied partitions, parallelizable
//! loops over them, and nodes and steps that give each symbol its need.
#![forbid(unsafe_code)]

use super::builder::Builder;
use super::lemma::some_lemma;
use super::loops::{Loop, Origin};
use crate::encode::{limit, node, Plan};
use crate::random::Random;

/// How large a plan is to be.
#[derive(Clone, Copy, Debug)]
pub struct Shape {
    pub regions: usize,
    pub maps: usize,
    pub supplied: usize,
    pub loops: usize,
    /// Statements of a loop after its FOR, at most.
    pub statements: usize,
    /// How deep expressions and derivations go.
    pub depth: usize,
    /// Nodes and steps that nothing needs.
    pub spare_nodes: usize,
    pub spare_steps: usize,
}

impl Shape {
    pub fn random(random: &mut Random) -> Shape {
        let regions =
            if random.one_in(20) { random.within(5..=limit::REGIONS) } else { random.within(1..=4) };
        Shape {
            regions,
            maps: random.below(6),
            supplied: random.below(4),
            loops: random.below(4),
            statements: random.below(8),
            depth: random.below(4),
            spare_nodes: random.below(6),
            spare_steps: random.below(6),
        }
    }
}

/// What a plan may leave out of what its loops need.
#[derive(Clone, Copy, Debug, PartialEq, Eq)]
pub enum Omission {
    Nothing,
    /// Image nodes of accesses through a pointer.
    Images,
    /// Disjointness of loops that reduce through a pointer.
    Disjointness,
}

impl Builder<'_> {
    /// Assigns a node to each symbol of a loop, with the steps it needs.
    pub fn assign(&mut self, of: &Loop, depth: usize, omission: Omission) -> Option<()> {
        let owner = if of.reduces_through_pointer() && omission != Omission::Disjointness {
            self.complete_and_disjoint(of.region, depth)?
        } else {
            self.complete(of.region, depth)?.0
        };
        self.plan.assignments.push([owner]);
        for access in &of.accesses {
            let node = if omission == Omission::Images && !of.variables[access.variable].centered {
                self.some_node(of.variables[access.variable].region, depth)?
            } else {
                let bound = self.bound(of, owner, access.variable)?;
                self.superset(bound, depth)?.0
            };
            self.plan.assignments.push([node]);
        }
        Some(())
    }

    /// The bound of a variable, its image nodes added where not yet listed.
    fn bound(&mut self, of: &Loop, owner: u8, variable: usize) -> Option<u8> {
        match of.variables[variable].origin {
            Origin::Iteration => Some(owner),
            Origin::Copy { of: copied } => self.bound(of, owner, copied),
            Origin::Entry { map, of: earlier } => {
                let bound = self.bound(of, owner, earlier)?;
                self.node(node::IMAGE, bound, map)
            }
        }
    }

    /// Nodes and steps beyond what is needed, as far as there is room.
    pub fn add_spares(&mut self, shape: Shape) {
        for _ in 0..shape.spare_nodes {
            let region = self.random.below(self.plan.regions.len()) as u8;
            self.some_node(region, shape.depth.max(1));
        }
        for _ in 0..shape.spare_steps {
            let lemma = some_lemma(self.random);
            self.instance(lemma, shape.depth);
        }
    }
}

/// Regions, maps and supplied partitions; no loops yet.
pub fn skeleton(random: &mut Random, shape: Shape) -> Plan {
    let regions = (0..shape.regions).map(|_| [random.within(1..=limit::FIELDS) as u8]).collect();
    let mut plan = Plan { regions, ..Plan::default() };
    for _ in 0..shape.maps {
        let total = random.below(2) as u8;
        // Maps between the same regions make the near misses of lemmas.
        let map = match plan.maps.last() {
            Some(&[source, target, _]) if random.one_in(3) => [source, target, total],
            _ => [random.below(shape.regions) as u8, random.below(shape.regions) as u8, total],
        };
        plan.maps.push(map);
    }
    plan.supplied =
        (0..shape.supplied).map(|_| [random.below(shape.regions) as u8, random.below(4) as u8]).collect();
    plan
}

/// A builder over a skeleton with loops, its symbols not yet assigned.
pub fn with_loops(random: &mut Random, shape: Shape) -> (Builder<'_>, Vec<Loop>) {
    let mut plan = skeleton(random, shape);
    let mut loops = Vec::new();
    for _ in 0..shape.loops {
        let region = random.below(shape.regions) as u8;
        let mut current = Loop::open(random, &mut plan, region);
        for _ in 0..shape.statements {
            current.add(random, &mut plan);
        }
        loops.push(current);
    }
    (Builder::new(random, plan), loops)
}

/// Tries once; none when the sections have not room enough.
pub fn try_plan(random: &mut Random, shape: Shape, omission: Omission) -> Option<Plan> {
    let (mut builder, loops) = with_loops(random, shape);
    if builder.random.one_in(2) {
        builder.add_spares(Shape { spare_steps: 0, ..shape });
    }
    for current in &loops {
        builder.assign(current, shape.depth, omission)?;
    }
    builder.add_spares(shape);
    Some(builder.plan)
}

/// A plan that the checker must accept.
pub fn accepted_plan(random: &mut Random) -> Plan {
    loop {
        let shape = Shape::random(random);
        if let Some(plan) = try_plan(random, shape, Omission::Nothing) {
            return plan;
        }
    }
}

/// A plan like an accepted one in which something needed may be missing.
pub fn incomplete_plan(random: &mut Random) -> Plan {
    loop {
        let shape = Shape { loops: 1, statements: 6, ..Shape::random(random) };
        let omission = random.pick(&[Omission::Images, Omission::Disjointness]);
        if let Some(plan) = try_plan(random, shape, omission) {
            return plan;
        }
    }
}

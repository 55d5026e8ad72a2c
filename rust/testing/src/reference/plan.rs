//! A plan's parts, and reading its sections in order: Tangled after the
//! statements, Uneven before the assignments.
#![forbid(unsafe_code)]

use mavisglen::{Answer, Refusal};

use super::flaw::{Flaw, Limit};
use super::kind::Kind;
use super::sections::records;
use super::steps::Fact;
use super::{require, Reference};

#[derive(Clone, Copy, Debug)]
pub struct Map {
    pub source: usize,
    pub target: usize,
    pub total: bool,
}

#[derive(Clone, Debug)]
pub struct Supplied {
    pub region: usize,
    pub disjoint: bool,
    pub complete: bool,
}

/// Where a variable's element comes from.
#[derive(Clone, Copy, Debug, PartialEq, Eq)]
pub enum Origin {
    Iteration,
    Entry { map: usize, of: usize },
    Copy { of: usize },
}

#[derive(Clone, Debug)]
pub struct Variable {
    pub region: usize,
    pub origin: Origin,
}

/// What an access does with its variable's element.
#[derive(Clone, Copy, Debug, PartialEq, Eq)]
pub enum Effect {
    Read,
    Write,
    Reduce { operator: u8 },
}

#[derive(Clone, Copy, Debug, PartialEq, Eq)]
pub struct Access {
    pub symbol: usize,
    /// What it is, its effect says: rules of LOAD alone look at this.
    pub kind: Kind,
    pub variable: usize,
    pub field: usize,
    pub effect: Effect,
}

#[derive(Clone, Debug)]
pub struct Loop {
    /// The record and the symbol of its FOR.
    pub record: usize,
    pub symbol: usize,
    pub variables: Vec<Variable>,
    pub accesses: Vec<Access>,
}

#[derive(Clone, Copy, Debug, PartialEq, Eq)]
pub enum Expression {
    Supplied(usize),
    Equal,
    Union(usize, usize),
    Intersection(usize, usize),
    Difference(usize, usize),
    Image { of: usize, map: usize },
    Preimage { of: usize, map: usize },
}

#[derive(Clone, Debug, PartialEq, Eq)]
pub struct Node {
    pub expression: Expression,
    pub region: usize,
}

#[derive(Clone, Debug, Default)]
pub struct Plan {
    /// Number of fields of each region.
    pub regions: Vec<usize>,
    pub maps: Vec<Map>,
    pub supplied: Vec<Supplied>,
    pub loops: Vec<Loop>,
    /// Region of each symbol.
    pub symbols: Vec<usize>,
    pub nodes: Vec<Node>,
    /// Node of each symbol.
    pub assignments: Vec<usize>,
    /// What each step concludes.
    pub steps: Vec<Fact>,
}

impl Plan {
    pub fn counts(&self) -> Answer {
        Answer::Accepted {
            symbols: self.symbols.len() as u8,
            nodes: self.nodes.len() as u8,
            steps: self.steps.len() as u8,
        }
    }

    /// FOR and accesses get the next symbol each.
    pub(super) fn new_symbol(&mut self, region: usize) -> usize {
        self.symbols.push(region);
        self.symbols.len() - 1
    }
}

impl Loop {
    pub fn region(&self) -> usize {
        self.variables[0].region
    }

    /// Centered: the loop variable, or reached from it by COPY alone.
    pub fn is_centered(&self, variable: usize) -> bool {
        match self.variables[variable].origin {
            Origin::Iteration => true,
            Origin::Entry { .. } => false,
            Origin::Copy { of } => self.is_centered(of),
        }
    }

    /// A loop reduces through a pointer when it has an uncentered REDUCE.
    pub fn reduces_through_pointer(&self) -> bool {
        let through = |access: &Access| matches!(access.effect, Effect::Reduce { .. });
        self.accesses.iter().any(|access| through(access) && !self.is_centered(access.variable))
    }
}

/// Stray and Mismatch give section × 256 + record.
fn place(section: usize, record: usize) -> u64 {
    (section * 256 + record) as u64
}

pub(super) fn invalid(section: usize, record: usize) -> Refusal {
    Refusal::InvalidRecord(place(section, record))
}

pub(super) fn mismatch(section: usize, record: usize) -> Refusal {
    Refusal::RegionMismatch(place(section, record))
}

impl Reference {
    /// Reads all seven sections: every refusal but Unmet.
    pub(super) fn read_plan(&self, bytes: &[u8]) -> Result<Plan, Refusal> {
        let bodies = self.split_plan(bytes)?;
        let mut plan = self.read_sections_1_to_4(&bodies)?;
        match self.flaw {
            Some(Flaw::LoopsJudgedAfterNodes) => {
                self.read_nodes(&mut plan, bodies[4])?;
                self.judge_loops(&plan)?;
                self.judge_count(&plan, bodies[5])?;
            }
            Some(Flaw::CountJudgedBeforeNodes) => {
                self.judge_loops(&plan)?;
                self.judge_count(&plan, bodies[5])?;
                self.read_nodes(&mut plan, bodies[4])?;
            }
            // Tangled after section 4, Uneven before section 6.
            _ => {
                self.judge_loops(&plan)?;
                self.read_nodes(&mut plan, bodies[4])?;
                self.judge_count(&plan, bodies[5])?;
            }
        }
        self.read_assignments(&mut plan, bodies[5])?;
        self.read_steps(&mut plan, bodies[6])?;
        Ok(plan)
    }

    /// Reads a plan up to its loops, which are not judged.
    pub fn read_loops(&self, bytes: &[u8]) -> Result<Plan, Refusal> {
        self.read_sections_1_to_4(&self.split_plan(bytes)?)
    }

    fn read_sections_1_to_4(&self, bodies: &[&[u8]]) -> Result<Plan, Refusal> {
        let mut plan = Plan::default();
        self.read_regions(&mut plan, bodies[0])?;
        self.read_maps(&mut plan, bodies[1])?;
        self.read_supplied(&mut plan, bodies[2])?;
        self.read_statements(&mut plan, bodies[3])?;
        Ok(plan)
    }

    /// Unused bytes are 0.
    pub(super) fn unused(&self, bytes: &[usize]) -> bool {
        self.has(Flaw::UnusedBytesIgnored) || bytes.iter().all(|&byte| byte == 0)
    }

    /// Section 1: one to eight fields.
    fn read_regions(&self, plan: &mut Plan, body: &[u8]) -> Result<(), Refusal> {
        for (record, [fields]) in records(body) {
            require((1..=self.most(Limit::Fields)).contains(&fields), invalid(1, record))?;
            plan.regions.push(fields);
        }
        Ok(())
    }

    /// Section 2: two known regions, and partial or total.
    fn read_maps(&self, plan: &mut Plan, body: &[u8]) -> Result<(), Refusal> {
        let regions = plan.regions.len();
        for (record, [source, target, total]) in records(body) {
            require(source < regions && target < regions && total <= 1, invalid(2, record))?;
            plan.maps.push(Map { source, target, total: total == 1 });
        }
        Ok(())
    }

    /// Section 3: a known region and two flags.
    fn read_supplied(&self, plan: &mut Plan, body: &[u8]) -> Result<(), Refusal> {
        for (record, [region, flags]) in records(body) {
            require(region < plan.regions.len() && flags <= 3, invalid(3, record))?;
            plan.supplied.push(Supplied { region, disjoint: flags & 1 != 0, complete: flags & 2 != 0 });
        }
        Ok(())
    }

    /// Uneven: one assignment for each symbol.
    fn judge_count(&self, plan: &Plan, body: &[u8]) -> Result<(), Refusal> {
        let symbols = plan.symbols.len();
        let even =
            body.len() == symbols || (self.has(Flaw::MissingAssignmentsAdmitted) && body.len() < symbols);
        require(even, Refusal::AssignmentCount(symbols as u64))
    }

    /// Section 6: a known node of its symbol's region.
    fn read_assignments(&self, plan: &mut Plan, body: &[u8]) -> Result<(), Refusal> {
        for (record, [node]) in records(body) {
            require(node < plan.nodes.len(), invalid(6, record))?;
            let fits = plan.nodes[node].region == plan.symbols[record];
            require(fits || self.has(Flaw::AssignmentRegionUnjudged), mismatch(6, record))?;
            plan.assignments.push(node);
        }
        Ok(())
    }
}

//! Loops under construction, parallelizable unless asked otherwise.
#![forbid(unsafe_code)]

use crate::encode::{limit, statement, Plan};
use crate::random::Random;

/// Where a variable of a loop comes from.
#[derive(Clone, Copy, Debug)]
pub enum Origin {
    Iteration,
    Entry { map: u8, of: usize },
    Copy { of: usize },
}

#[derive(Clone, Copy, Debug)]
pub struct Variable {
    pub region: u8,
    pub centered: bool,
    pub origin: Origin,
}

#[derive(Clone, Copy, Debug)]
pub struct Access {
    pub variable: usize,
    pub reduces: bool,
}

/// What a loop may do with a field of a region, so that it stays parallelizable.
#[derive(Clone, Copy, Debug)]
enum Role {
    ReadOnly,
    Centered,
    Reduced { operator: u8 },
}

impl Role {
    fn admits_read(self, centered: bool) -> bool {
        match self {
            Role::ReadOnly => true,
            Role::Centered => centered,
            Role::Reduced { .. } => false,
        }
    }
}

/// A loop under construction; its records go straight into the plan.
#[derive(Clone, Debug)]
pub struct Loop {
    pub region: u8,
    pub variables: Vec<Variable>,
    pub accesses: Vec<Access>,
    /// By region, then by field.
    roles: Vec<Vec<Role>>,
}

impl Loop {
    pub fn open(random: &mut Random, plan: &mut Plan, region: u8) -> Loop {
        plan.statements.push([statement::FOR, region, 0, 0]);
        let roles = plan.regions.iter().map(|&[fields]| some_roles(random, fields)).collect();
        let variable = Variable { region, centered: true, origin: Origin::Iteration };
        Loop { region, variables: vec![variable], accesses: Vec::new(), roles }
    }

    /// Adds a statement of a random kind, if it is admitted here.
    pub fn add(&mut self, random: &mut Random, plan: &mut Plan) {
        // The latest variable is preferred, to make chains.
        let latest = self.variables.len() - 1;
        let variable = if random.one_in(2) { latest } else { random.below(self.variables.len()) };
        match random.below(7) {
            0 | 1 => self.define(random, plan, variable, statement::LOAD),
            2 => self.define(random, plan, variable, statement::CALL),
            3 => self.define(random, plan, variable, statement::COPY),
            _ => self.access(random, plan, variable),
        }
    }

    fn define(&mut self, random: &mut Random, plan: &mut Plan, of: usize, kind: u8) {
        if self.variables.len() >= limit::VARIABLES {
            return;
        }
        let Variable { region, centered, .. } = self.variables[of];
        if kind == statement::COPY {
            return self.copy(plan, of);
        }
        let maps = &plan.maps;
        let Some(map) = random.find(maps.len(), |map| maps[map][0] == region) else { return };
        match kind {
            statement::LOAD => {
                let field = some_field(random, plan, region);
                if self.role(region, field).admits_read(centered) {
                    self.load(plan, map as u8, of, field);
                }
            }
            statement::CALL => self.call(plan, map as u8, of),
            _ => {}
        }
    }

    /// A LOAD, whatever the field's role.
    pub fn load(&mut self, plan: &mut Plan, map: u8, of: usize, field: u8) {
        plan.statements.push([statement::LOAD, map, of as u8, field]);
        self.accesses.push(Access { variable: of, reduces: false });
        self.push_entry(plan, map, of);
    }

    pub fn call(&mut self, plan: &mut Plan, map: u8, of: usize) {
        plan.statements.push([statement::CALL, map, of as u8, 0]);
        self.push_entry(plan, map, of);
    }

    fn push_entry(&mut self, plan: &Plan, map: u8, of: usize) {
        let region = plan.maps[usize::from(map)][1];
        self.variables.push(Variable { region, centered: false, origin: Origin::Entry { map, of } });
    }

    /// A COPY of a variable, the limit of variables not looked at.
    pub fn copy(&mut self, plan: &mut Plan, of: usize) {
        plan.statements.push([statement::COPY, of as u8, 0, 0]);
        self.variables.push(Variable { origin: Origin::Copy { of }, ..self.variables[of] });
    }

    fn role(&self, region: u8, field: u8) -> Role {
        self.roles[usize::from(region)][usize::from(field)]
    }

    fn access(&mut self, random: &mut Random, plan: &mut Plan, variable: usize) {
        let Variable { region, centered, .. } = self.variables[variable];
        let field = some_field(random, plan, region);
        let (kind, operator) = match self.role(region, field) {
            Role::ReadOnly => (statement::READ, 0),
            Role::Centered if centered => match random.below(3) {
                0 => (statement::READ, 0),
                1 => (statement::WRITE, 0),
                _ => (statement::REDUCE, random.below(4) as u8),
            },
            Role::Reduced { operator } if !centered => (statement::REDUCE, operator),
            _ => return,
        };
        self.push_access(plan, variable, [kind, field, operator]);
    }

    /// A READ, WRITE or REDUCE, whatever the field's role.
    pub fn push_access(&mut self, plan: &mut Plan, variable: usize, [kind, field, operator]: [u8; 3]) {
        plan.statements.push([kind, variable as u8, field, operator]);
        self.accesses.push(Access { variable, reduces: kind == statement::REDUCE });
    }

    pub fn reduces_through_pointer(&self) -> bool {
        self.accesses.iter().any(|access| access.reduces && !self.variables[access.variable].centered)
    }
}

fn some_roles(random: &mut Random, fields: u8) -> Vec<Role> {
    let role = |_| match random.below(3) {
        0 => Role::ReadOnly,
        1 => Role::Centered,
        _ => Role::Reduced { operator: random.below(4) as u8 },
    };
    (0..fields).map(role).collect()
}

/// A field of a region, often its last.
pub fn some_field(random: &mut Random, plan: &Plan, region: u8) -> u8 {
    let fields = plan.regions[usize::from(region)][0];
    if random.one_in(2) {
        fields - 1
    } else {
        random.below(usize::from(fields)) as u8
    }
}

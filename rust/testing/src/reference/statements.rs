//! Section 4: at each statement Stray, then Mismatch.
#![forbid(unsafe_code)]

use mavisglen::Refusal;

use super::flaw::{Flaw, Limit};
use super::kind::Kind;
use super::plan::{invalid, mismatch, Access, Loop, Map, Origin, Plan, Variable};
use super::sections::records;
use super::{require, Reference};

/// What a statement's operands name, found right. What is made of them, its kind decides.
struct Named {
    /// The variable that it goes through.
    variable: usize,
    /// The field of that variable's region; 0 where none is named.
    field: usize,
    /// Where the variable that it defines comes from. For the kinds that define none this is a copy, which only a
    /// flawed copy of the reference takes notice of.
    origin: Origin,
}

impl Reference {
    /// Section 4: FOR opens a loop, all other kinds belong to the one open.
    pub(super) fn read_statements(&self, plan: &mut Plan, body: &[u8]) -> Result<(), Refusal> {
        for (record, [byte, a, b, c]) in records(body) {
            let kind = self.kind_of(byte);
            if kind == Kind::Unknown && self.has(Flaw::UnknownIgnored) {
                continue;
            }
            if kind.opens() {
                self.open_loop(plan, record, [a, b, c])?;
            }
            require(!plan.loops.is_empty(), invalid(4, record))?;
            self.read_statement(plan, record, kind, [a, b, c])?;
        }
        Ok(())
    }

    fn open_loop(&self, plan: &mut Plan, record: usize, [region, b, c]: [usize; 3]) -> Result<(), Refusal> {
        if self.has(Flaw::LoopsJudgedAsTheyClose) {
            self.judge_loops(plan)?;
        }
        require(region < plan.regions.len() && self.unused(&[b, c]), invalid(4, record))?;
        let symbol = plan.new_symbol(region);
        let variables = vec![Variable { region, origin: Origin::Iteration }];
        plan.loops.push(Loop { record, symbol, variables, accesses: Vec::new() });
        Ok(())
    }

    /// A statement of the loop that is open. It may have at most 16 variables with the loop variable.
    fn read_statement(
        &self,
        plan: &mut Plan,
        record: usize,
        kind: Kind,
        operands: [usize; 3],
    ) -> Result<(), Refusal> {
        let variables = &plan.loops[plan.loops.len() - 1].variables;
        let defines = self.defines(kind);
        require(!defines || variables.len() < self.most(Limit::Variables), invalid(4, record))?;
        let Named { variable, field, origin } =
            self.read_operands(plan, variables, record, kind, operands)?;
        let region = variables[variable].region;
        if let Some(effect) = self.effect(kind, operands[2] as u8) {
            let symbol = plan.new_symbol(region);
            current_loop(plan).accesses.push(Access { symbol, kind, variable, field, effect });
        }
        if defines {
            let region = match origin {
                Origin::Entry { map, .. } => plan.maps[map].target,
                Origin::Iteration | Origin::Copy { .. } => region,
            };
            current_loop(plan).variables.push(Variable { region, origin });
        }
        Ok(())
    }

    /// Which operands each kind has.
    fn read_operands(
        &self,
        plan: &Plan,
        variables: &[Variable],
        record: usize,
        kind: Kind,
        [a, b, c]: [usize; 3],
    ) -> Result<Named, Refusal> {
        let operator_known = c <= 3 || self.has(Flaw::OperatorUnjudged);
        match kind {
            // Its region opened the loop: what is left is the loop variable.
            Kind::For => Ok(Named { variable: 0, field: 0, origin: Origin::Copy { of: 0 } }),
            Kind::Load => self.read_load(plan, variables, record, [a, b, c]),
            Kind::Call => self.read_call(plan, variables, record, [a, b, c]),
            Kind::Copy => self.read_copy(variables, record, [a, b, c]),
            Kind::Read => self.read_access(plan, variables, record, [a, b], self.unused(&[c])),
            Kind::Write => self.read_access(plan, variables, record, [a, b], self.unused(&[c])),
            Kind::Reduce => self.read_access(plan, variables, record, [a, b], operator_known),
            Kind::Unknown => Err(invalid(4, record)),
        }
    }

    /// LOAD's field is judged in its variable's region (Stray) before that
    /// region is compared with the map's source (Mismatch).
    fn read_load(
        &self,
        plan: &Plan,
        variables: &[Variable],
        record: usize,
        [map, of, field]: [usize; 3],
    ) -> Result<Named, Refusal> {
        require(map < plan.maps.len() && of < variables.len(), invalid(4, record))?;
        let (region, Map { source, target, .. }) = (variables[of].region, plan.maps[map]);
        if self.has(Flaw::LoadMismatchJudgedFirst) {
            require(region == source, mismatch(4, record))?;
        }
        let holder = if self.has(Flaw::LoadFieldJudgedInTarget) { target } else { region };
        let known = field < plan.regions[holder] || self.has(Flaw::LoadFieldUnjudged);
        require(known, invalid(4, record))?;
        require(region == source, mismatch(4, record))?;
        Ok(Named { variable: of, field, origin: Origin::Entry { map, of } })
    }

    /// CALL needs a variable of the map's source.
    fn read_call(
        &self,
        plan: &Plan,
        variables: &[Variable],
        record: usize,
        [map, of, c]: [usize; 3],
    ) -> Result<Named, Refusal> {
        let known = map < plan.maps.len() && of < variables.len();
        require(known && self.unused(&[c]), invalid(4, record))?;
        let fits = variables[of].region == plan.maps[map].source || self.has(Flaw::CallRegionUnjudged);
        require(fits, mismatch(4, record))?;
        Ok(Named { variable: of, field: 0, origin: Origin::Entry { map, of } })
    }

    /// A copy has the region of the variable copied.
    fn read_copy(
        &self,
        variables: &[Variable],
        record: usize,
        [of, b, c]: [usize; 3],
    ) -> Result<Named, Refusal> {
        require(of < variables.len() && self.unused(&[b, c]), invalid(4, record))?;
        Ok(Named { variable: of, field: 0, origin: Origin::Copy { of } })
    }

    /// READ, WRITE and REDUCE name a field of their variable's region. Their last byte is judged by their kind.
    fn read_access(
        &self,
        plan: &Plan,
        variables: &[Variable],
        record: usize,
        [variable, field]: [usize; 2],
        last_byte_valid: bool,
    ) -> Result<Named, Refusal> {
        let known = variable < variables.len() && field < plan.regions[variables[variable].region];
        require(known && last_byte_valid, invalid(4, record))?;
        Ok(Named { variable, field, origin: Origin::Copy { of: variable } })
    }
}

/// The loop that the statement being read belongs to.
fn current_loop(plan: &mut Plan) -> &mut Loop {
    plan.loops.last_mut().expect("a loop is open")
}

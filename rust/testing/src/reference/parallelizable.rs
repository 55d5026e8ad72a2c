//! Tangled: loops that are not parallelizable, their accesses compared two by two.
#![forbid(unsafe_code)]

use mavisglen::Refusal;

use super::flaw::Flaw;
use super::kind::Kind;
use super::plan::{Access, Effect, Loop, Plan};
use super::{require, Reference};

/// An access as the parallelizable rule sees it.
struct JudgedAccess {
    region: usize,
    field: usize,
    centered: bool,
    effect: Effect,
}

impl Reference {
    /// Tangled, by loop, once all statements are read.
    pub fn judge_loops(&self, plan: &Plan) -> Result<(), Refusal> {
        for (index, current) in plan.loops.iter().enumerate() {
            let judged = if self.has(Flaw::LoopsJudgedTogether) {
                &plan.loops[..=index]
            } else {
                std::slice::from_ref(current)
            };
            require(self.is_parallelizable(judged), Refusal::NotParallelizable(current.record as u64))?;
        }
        Ok(())
    }

    /// All three conditions over the accesses (of one loop, flaws aside).
    fn is_parallelizable(&self, loops: &[Loop]) -> bool {
        let accesses: Vec<JudgedAccess> = loops.iter().flat_map(|each| self.judged_accesses(each)).collect();
        accesses.iter().enumerate().all(|(index, one)| {
            let mut others = (0..accesses.len()).filter(|&other| self.are_compared(&accesses, index, other));
            self.write_is_centered(one) && others.all(|other| self.may_stand_together(one, &accesses[other]))
        })
    }

    /// Each access with every other, flaws aside.
    fn are_compared(&self, accesses: &[JudgedAccess], one: usize, other: usize) -> bool {
        let hides = |between: &JudgedAccess| self.have_one_target(&accesses[one], between);
        let hidden = || accesses[one.min(other) + 1..one.max(other)].iter().any(hides);
        one != other && !(self.has(Flaw::OnlyLatestAccessRemembered) && hidden())
    }

    fn judged_accesses(&self, within: &Loop) -> Vec<JudgedAccess> {
        let counts = |access: &&Access| access.kind != Kind::Load || !self.has(Flaw::LoadIsNoRead);
        let judged = |access: &Access| JudgedAccess {
            region: within.variables[access.variable].region,
            field: self.field_of(access),
            centered: self.counts_as_centered(within, access.variable),
            effect: access.effect,
        };
        within.accesses.iter().filter(counts).map(judged).collect()
    }

    /// LOAD reads the field it names in c; its b is its variable.
    fn field_of(&self, access: &Access) -> usize {
        if access.kind == Kind::Load && self.has(Flaw::LoadFieldIsB) {
            return access.variable;
        }
        access.field
    }

    fn counts_as_centered(&self, within: &Loop, variable: usize) -> bool {
        if self.has(Flaw::CopyIsUncentered) {
            return variable == 0;
        }
        within.is_centered(variable) || self.has(Flaw::EveryVariableCentered)
    }

    /// First condition: each WRITE is centered.
    fn write_is_centered(&self, access: &JudgedAccess) -> bool {
        access.effect != Effect::Write || access.centered || self.has(Flaw::WriteMayBeUncentered)
    }

    /// A target is a region and a field.
    fn have_one_target(&self, one: &JudgedAccess, other: &JudgedAccess) -> bool {
        let flaw = match one.effect {
            Effect::Reduce { .. } => Flaw::ReductionByRegion,
            Effect::Read | Effect::Write => Flaw::UncenteredReadByRegion,
        };
        let field_ignored = self.has(Flaw::FieldIgnored) || self.has(flaw);
        (one.region == other.region || self.has(Flaw::FieldsAlone))
            && (one.field == other.field || field_ignored)
    }

    /// Second and third condition, which are about accesses of one target.
    fn may_stand_together(&self, one: &JudgedAccess, other: &JudgedAccess) -> bool {
        match one.effect {
            _ if one.centered || !self.have_one_target(one, other) => true,
            Effect::Read => self.may_meet_uncentered_read(other),
            Effect::Reduce { operator } => self.may_meet_reduction(operator, other),
            // The first condition is enough.
            Effect::Write => true,
        }
    }

    /// Beside an uncentered REDUCE: only such of the same operator.
    fn may_meet_reduction(&self, operator: u8, other: &JudgedAccess) -> bool {
        let same = other.effect == Effect::Reduce { operator } || self.has(Flaw::ReductionOperatorsMayDiffer);
        match other.effect {
            _ if self.has(Flaw::ReductionMayMeetAccess) => true,
            Effect::Reduce { .. } => {
                same && (!other.centered || self.has(Flaw::ReductionMayMeetCenteredReduction))
            }
            Effect::Write => self.has(Flaw::ReductionMayMeetCenteredWrite),
            Effect::Read => false,
        }
    }

    /// Beside an uncentered read: no WRITE and no REDUCE.
    fn may_meet_uncentered_read(&self, other: &JudgedAccess) -> bool {
        match other.effect {
            Effect::Write => self.has(Flaw::UncenteredReadMayMeetWrite),
            Effect::Reduce { .. } => self.has(Flaw::UncenteredReadMayMeetReduction),
            Effect::Read => true,
        }
    }
}

//! Unmet: what each symbol needs of its node, symbol by symbol.
#![forbid(unsafe_code)]

use mavisglen::Refusal;

use super::flaw::Flaw;
use super::kind::Kind;
use super::plan::{Access, Expression, Loop, Origin, Plan};
use super::steps::Fact;
use super::{require, Reference};

impl Reference {
    pub(super) fn settle_needs(&self, plan: &Plan) -> Result<(), Refusal> {
        // Symbols follow the statements, so loop by loop is symbol by symbol.
        for current in &plan.loops {
            require(self.for_is_met(plan, current), Refusal::UnmetNeed(current.symbol as u64))?;
            let bounds = self.bounds(plan, current);
            for access in &current.accesses {
                let met = self.access_is_met(plan, &bounds, access);
                require(met, Refusal::UnmetNeed(access.symbol as u64))?;
            }
        }
        Ok(())
    }

    /// FOR needs a complete node, and a disjoint one if the loop reduces
    /// through a pointer.
    fn for_is_met(&self, plan: &Plan, current: &Loop) -> bool {
        let Some(&node) = plan.assignments.get(current.symbol) else { return true };
        let complete = concludes(plan, Fact::Complete(node)) || self.has(Flaw::CompletenessNotNeeded);
        let disjoint = concludes(plan, Fact::Disjoint(node)) || self.has(Flaw::DisjointnessNotNeeded);
        let needs_disjoint = current.reduces_through_pointer() || self.has(Flaw::DisjointnessAlwaysNeeded);
        complete && (disjoint || !needs_disjoint)
    }

    /// An access needs its variable's bound contained in its node; a bound
    /// that is not listed leaves the need unmet.
    fn access_is_met(&self, plan: &Plan, bounds: &[Option<usize>], access: &Access) -> bool {
        let Some(&node) = plan.assignments.get(access.symbol) else { return true };
        if self.has(Flaw::ContainmentNotNeeded)
            || (access.kind == Kind::Load && self.has(Flaw::LoadNeedsNothing))
        {
            return true;
        }
        match bounds[access.variable] {
            Some(bound) if bound == node && self.has(Flaw::ReflexiveNeedMet) => true,
            Some(bound) => concludes(plan, Fact::Contained(bound, node)),
            None => self.has(Flaw::UnlistedImageMet),
        }
    }

    /// The bound of each variable: FOR's node, the listed image of the
    /// earlier variable's bound, or the bound of the variable copied.
    fn bounds(&self, plan: &Plan, current: &Loop) -> Vec<Option<usize>> {
        let mut bounds: Vec<Option<usize>> = Vec::new();
        for variable in &current.variables {
            bounds.push(match variable.origin {
                Origin::Iteration => plan.assignments.get(current.symbol).copied(),
                Origin::Entry { map, of } => bounds[of].and_then(|bound| listed_image(plan, bound, map)),
                Origin::Copy { .. } if self.has(Flaw::CopyBoundForgotten) => None,
                Origin::Copy { of } => bounds[of],
            });
        }
        bounds
    }
}

fn listed_image(plan: &Plan, of: usize, map: usize) -> Option<usize> {
    plan.nodes.iter().position(|node| node.expression == Expression::Image { of, map })
}

/// Whether some step concludes the fact.
fn concludes(plan: &Plan, fact: Fact) -> bool {
    plan.steps.contains(&fact)
}

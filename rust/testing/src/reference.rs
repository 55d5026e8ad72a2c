//! The independent reference: the format paper's rules, one after the other,
//! over plain sets. Clarity comes before speed.
#![forbid(unsafe_code)]

pub mod audit;
pub mod charge;
pub mod data;
pub mod evaluation;
pub mod explain;
pub mod flaw;
pub mod grounds;
pub mod kind;
pub mod needs;
pub mod nodes;
pub mod parallelizable;
pub mod plan;
pub mod private_part;
pub mod promise;
pub mod sections;
pub mod statements;
pub mod steps;
pub mod undisturbed;

use mavisglen::{Answer, Charge, Refusal, Written};

use crate::encode::PIECE_WORDS;
use crate::question::{Question, Transfer};
use flaw::{Flaw, Limit};
use plan::Plan;

/// The reference, or a copy of it with one deliberate flaw.
#[derive(Clone, Copy, Debug, Default)]
pub struct Reference {
    flaw: Option<Flaw>,
}

/// Judges a plan.
pub fn check(plan: &[u8]) -> Answer {
    Reference::default().check(plan)
}

/// Judges a plan and a data set and fills the words if both are accepted.
pub fn evaluate(plan: &[u8], data: &[u8], words: &mut [u64]) -> Answer {
    Reference::default().evaluate(plan, data, words)
}

/// Judges a plan, a data set and what is asked and writes the chain if all are accepted.
pub fn explain(
    plan: &[u8],
    data: &[u8],
    question: Question,
    nodes: &mut [u16],
    elements: &mut [u16],
) -> Written {
    Reference::default().explain(plan, data, question, nodes, elements)
}

/// Judges a plan, a data set and what is charged for and, if all are accepted, charges.
pub fn charge(plan: &[u8], data: &[u8], transfer: Transfer) -> Charge {
    Reference::default().charge(plan, data, transfer)
}

impl Reference {
    /// A copy with one deliberate flaw, to try the tests themselves.
    pub fn flawed(flaw: Flaw) -> Reference {
        Reference { flaw: Some(flaw) }
    }

    fn has(&self, flaw: Flaw) -> bool {
        self.flaw == Some(flaw)
    }

    /// The greatest number that a limit admits.
    fn most(&self, limit: Limit) -> usize {
        match self.flaw {
            Some(Flaw::Lower(lowered)) if lowered == limit => limit.value() - 1,
            Some(Flaw::Higher(raised)) if raised == limit => limit.value() + 1,
            _ => limit.value(),
        }
    }

    pub fn check(&self, plan: &[u8]) -> Answer {
        match self.checked_plan(plan) {
            Ok(plan) => plan.counts(),
            Err(refusal) => Answer::Refused(refusal),
        }
    }

    pub fn evaluate(&self, plan: &[u8], data: &[u8], words: &mut [u64]) -> Answer {
        match self.try_evaluate(plan, data, words) {
            Ok(plan) => plan.counts(),
            Err(refusal) => Answer::Refused(refusal),
        }
    }

    /// Reads a plan and settles its needs: refusals 1 to 11.
    pub fn checked_plan(&self, bytes: &[u8]) -> Result<Plan, Refusal> {
        let plan = self.read_plan(bytes)?;
        self.settle_needs(&plan)?;
        Ok(plan)
    }

    fn try_evaluate(&self, plan: &[u8], data: &[u8], words: &mut [u64]) -> Result<Plan, Refusal> {
        let plan = self.checked_plan(plan)?;
        let data = self.read_data(&plan, data, words.len())?;
        if self.has(Flaw::WritesBeforeJudgingTheSlice) {
            self.store(&plan, &data, words);
        }
        self.judge_slice(&plan, data.pieces, words.len())?;
        self.store(&plan, &data, words);
        Ok(plan)
    }

    /// Narrow: fewer words than nodes × N × 8.
    fn judge_slice(&self, plan: &Plan, pieces: usize, lent: usize) -> Result<(), Refusal> {
        let needed = plan.nodes.len() * pieces * PIECE_WORDS;
        let spare = usize::from(self.has(Flaw::WantsASpareWord));
        require(lent >= needed + spare, Refusal::OutputTooSmall(needed as u64))
    }
}

/// The refusal, unless the rule holds.
fn require(holds: bool, refusal: Refusal) -> Result<(), Refusal> {
    if holds {
        Ok(())
    } else {
        Err(refusal)
    }
}

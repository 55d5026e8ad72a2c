//! A hand-optimised, unverified version in safe Rust: fixed arrays, no
//! allocation, words in place of elements. It is there to measure against
//! and is itself tested against the reference.
#![forbid(unsafe_code)]

mod charging;
mod evaluation;
mod explanation;
mod loops;
mod plan;
mod steps;

use mavisglen::{Answer, Charge, Refusal, Written};

use crate::question::{Question, Transfer};

/// Judges a plan.
pub fn check(plan: &[u8]) -> Answer {
    match plan::read(plan) {
        Ok(plan) => plan.counts(),
        Err(refusal) => Answer::Refused(refusal),
    }
}

/// Judges a plan and a data set and fills the words if both are accepted.
pub fn evaluate(plan: &[u8], data: &[u8], words: &mut [u64]) -> Answer {
    match try_evaluate(plan, data, words) {
        Ok(answer) => answer,
        Err(refusal) => Answer::Refused(refusal),
    }
}

fn try_evaluate(plan: &[u8], data: &[u8], words: &mut [u64]) -> Result<Answer, Refusal> {
    let plan = plan::read(plan)?;
    evaluation::fill(&plan, data, words)?;
    Ok(plan.counts())
}

/// Judges a plan, a data set and what is asked and writes the chain if all are accepted.
pub fn explain(
    plan: &[u8],
    data: &[u8],
    question: Question,
    nodes: &mut [u16],
    elements: &mut [u16],
) -> Written {
    match plan::read(plan).and_then(|plan| explanation::write(&plan, data, question, nodes, elements)) {
        Ok(length) => Written::Length(length),
        Err(refusal) => Written::Refused(refusal),
    }
}

/// Judges a plan, a data set and what is charged for and, if all are accepted, charges.
pub fn charge(plan: &[u8], data: &[u8], transfer: Transfer) -> Charge {
    plan::read(plan).and_then(|plan| charging::charge(&plan, data, transfer)).unwrap_or_else(Charge::Refused)
}

/// The body of a section and what follows it.
#[inline]
fn take_section(bytes: &[u8]) -> Option<(&[u8], &[u8])> {
    let (&length, rest) = bytes.split_first_chunk::<2>()?;
    rest.split_at_checked(usize::from(u16::from_be_bytes(length)))
}

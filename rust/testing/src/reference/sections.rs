//! Splitting bytes into sections and sections into records.
#![forbid(unsafe_code)]

use mavisglen::Refusal;

use super::flaw::{Flaw, Limit};
use super::{require, Reference};

/// Width, least and most records of each of a plan's sections, in order.
const PLAN_SECTIONS: [(usize, usize, Limit); 7] = [
    (1, 1, Limit::Regions),
    (3, 0, Limit::Maps),
    (2, 0, Limit::Supplied),
    (4, 0, Limit::Statements),
    (4, 0, Limit::Nodes),
    (1, 0, Limit::Assignments),
    (5, 0, Limit::Steps),
];

impl Reference {
    /// The seven bodies of a plan: Short, Edition, Measure, Long.
    pub(super) fn split_plan<'a>(&self, bytes: &'a [u8]) -> Result<Vec<&'a [u8]>, Refusal> {
        // An empty input is Short at 0, before the edition is looked at.
        let (&edition, mut rest) = bytes.split_first().ok_or(Refusal::Truncated(0))?;
        require(edition == 1 || self.has(Flaw::AnyEdition), Refusal::UnknownEdition)?;
        if self.has(Flaw::TruncationJudgedFirst) {
            judge_truncation(rest)?;
        }
        let mut bodies = Vec::new();
        for number in 1..=PLAN_SECTIONS.len() {
            if self.has(Flaw::LengthJudgedBeforeTruncation) && rest.len() >= 2 {
                self.judge_length(number, section_length(rest))?;
            }
            // Short, whether the length or the body is cut; then Measure.
            let (body, after) = take_section(rest).ok_or(Refusal::Truncated(number as u64))?;
            self.judge_length(number, body.len())?;
            bodies.push(body);
            rest = after;
        }
        // Long: bytes left after the last section, at their offset.
        let offset = bytes.len() - rest.len();
        require(
            rest.is_empty() || self.has(Flaw::TrailingBytesAdmitted),
            Refusal::TrailingBytes(offset as u64),
        )?;
        Ok(bodies)
    }

    /// Measure: whole records, and no fewer and no more than the limits say.
    fn judge_length(&self, number: usize, length: usize) -> Result<(), Refusal> {
        let (width, least, most) = PLAN_SECTIONS[number - 1];
        let whole = length.is_multiple_of(width) || self.has(Flaw::PartRecordsAdmitted);
        let enough = length / width >= least || self.has(Flaw::NoRegionAdmitted);
        let few = length / width <= self.most(most);
        require(whole && enough && few, Refusal::InvalidLength(number as u64))
    }
}

/// Short for any section, before any other rule: only a flaw asks for it.
fn judge_truncation(mut rest: &[u8]) -> Result<(), Refusal> {
    for number in 1..=PLAN_SECTIONS.len() {
        (_, rest) = take_section(rest).ok_or(Refusal::Truncated(number as u64))?;
    }
    Ok(())
}

/// A section's body and what follows it; none if it is cut.
pub(super) fn take_section(bytes: &[u8]) -> Option<(&[u8], &[u8])> {
    if bytes.len() < 2 {
        return None;
    }
    bytes[2..].split_at_checked(section_length(bytes))
}

fn section_length(bytes: &[u8]) -> usize {
    usize::from(bytes[0]) * 256 + usize::from(bytes[1])
}

/// The records of a body with their numbers, each byte as a number.
pub(super) fn records<const WIDTH: usize>(body: &[u8]) -> impl Iterator<Item = (usize, [usize; WIDTH])> + '_ {
    body.chunks_exact(WIDTH).map(|record| std::array::from_fn(|byte| usize::from(record[byte]))).enumerate()
}

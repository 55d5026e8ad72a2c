//! No iteration of a loop disturbs another, tested directly: the touches of one field of one element against each
//! other, with no use of the parallelizable rule.
#![forbid(unsafe_code)]

use std::collections::BTreeSet;

use super::data::DataSet;
use super::plan::{Effect, Loop};
use super::promise::{touches, Touch};

/// Two touches of one field of one element, of which the first does not admit the other.
#[derive(Clone, Copy, Debug, PartialEq, Eq)]
pub struct Disturbance {
    /// The record of their loop's FOR.
    pub record: usize,
    pub one: Touch,
    pub other: Touch,
}

/// What a touch asks of every touch of the same field of the same element.
#[derive(Clone, Copy, Debug, PartialEq, Eq, PartialOrd, Ord)]
enum Demand {
    /// To be of its iteration.
    Iteration(usize),
    /// To be an uncentered REDUCE as it is itself, with its operator.
    UncenteredReduce { operator: u8 },
}

impl Demand {
    fn of(current: &Loop, touch: &Touch) -> Option<Demand> {
        match touch.access.effect {
            Effect::Read => None,
            Effect::Reduce { operator } if !current.is_centered(touch.access.variable) => {
                Some(Demand::UncenteredReduce { operator })
            }
            Effect::Write | Effect::Reduce { .. } => Some(Demand::Iteration(touch.iteration)),
        }
    }

    fn admits(self, current: &Loop, touch: &Touch) -> bool {
        match self {
            Demand::Iteration(iteration) => touch.iteration == iteration,
            Demand::UncenteredReduce { .. } => Demand::of(current, touch) == Some(self),
        }
    }
}

/// Tests a loop over a data set that fits.
pub fn test_loop(current: &Loop, data: &DataSet) -> Result<(), Disturbance> {
    test_touches(current, touches(current, data))
}

/// Tests all touches of a loop, those of each field of each element by themselves.
pub fn test_touches(current: &Loop, mut touches: Vec<Touch>) -> Result<(), Disturbance> {
    let region = |touch: &Touch| current.variables[touch.access.variable].region;
    let target = |touch: &Touch| (region(touch), touch.access.field, touch.element);
    touches.sort_by_key(target);
    let mut targets = touches.chunk_by(|one, other| target(one) == target(other));
    targets.try_for_each(|touches| test_target(current, touches))
}

/// Each touch with each, also those of one access. Equal demands admit the same touches, so that one of them stands
/// for all: many iterations may reduce one element.
fn test_target(current: &Loop, touches: &[Touch]) -> Result<(), Disturbance> {
    let mut tested = BTreeSet::new();
    for &one in touches {
        let new = Demand::of(current, &one).filter(|&demand| tested.insert(demand));
        let refused = new.and_then(|demand| touches.iter().find(|other| !demand.admits(current, other)));
        if let Some(&other) = refused {
            return Err(Disturbance { record: current.record, one, other });
        }
    }
    Ok(())
}

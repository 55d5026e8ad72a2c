//! What the parallelizable rule means: no data set lets an iteration of the loop disturb another. One data set shows
//! it: where every pointer leads to the first element, all accesses meet there that could meet anywhere.
#![forbid(unsafe_code)]

use mavisglen::Refusal;

use crate::encode;
use crate::generate::data::all_to_first;
use crate::reference::plan::Plan;
use crate::reference::undisturbed::{test_loop, Disturbance};
use crate::reference::Reference;

/// A plan's loops as read, and what the touches over that data set say of each.
#[derive(Clone, Debug)]
pub struct Meaning {
    pub plan: Plan,
    /// By loop.
    undisturbed: Vec<Result<(), Disturbance>>,
}

impl Meaning {
    /// None where the plan is refused before its loops are judged.
    pub fn of(bytes: &[u8]) -> Option<Meaning> {
        let reference = Reference::default();
        let plan = reference.read_loops(bytes).ok()?;
        let records = encode::Plan::decode(bytes).expect("what is read is well framed");
        let data = reference.read_data(&plan, &all_to_first(&records).encode(), 0);
        let data = data.expect("the data set fits every plan that is read");
        let undisturbed = plan.loops.iter().map(|current| test_loop(current, &data)).collect();
        Some(Meaning { plan, undisturbed })
    }

    /// What the rule must say of the loops: the first that is disturbed is refused.
    pub fn judgement(&self) -> Result<(), Refusal> {
        let first = self.undisturbed.iter().find_map(|undisturbed| undisturbed.err());
        first.map_or(Ok(()), |disturbance| Err(Refusal::NotParallelizable(disturbance.record as u64)))
    }

    /// Tests that another data set, if it fits, leaves undisturbed the loops that are so here, and counts them.
    pub fn test_over(&self, data: &[u8]) -> Result<usize, Disturbance> {
        let Ok(data) = Reference::default().read_data(&self.plan, data, 0) else { return Ok(0) };
        let loops = self.plan.loops.iter().zip(&self.undisturbed);
        let mut undisturbed = loops.filter(|(_, undisturbed)| undisturbed.is_ok());
        undisturbed.try_fold(0, |count, (current, _)| test_loop(current, &data).map(|()| count + 1))
    }
}

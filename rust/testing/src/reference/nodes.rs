//! Section 5: at each node Stray, Mismatch, Twin.
#![forbid(unsafe_code)]

use mavisglen::Refusal;

use super::flaw::Flaw;
use super::plan::{invalid, mismatch, Expression, Node, Plan};
use super::sections::records;
use super::{require, Reference};

impl Reference {
    /// Section 5: at each node Stray, Mismatch, Twin.
    pub(super) fn read_nodes(&self, plan: &mut Plan, body: &[u8]) -> Result<(), Refusal> {
        for (record, [kind, a, b, last]) in records(body) {
            let expression = self.read_expression(plan, [kind, a, b]).ok_or(invalid(5, record))?;
            require(self.unused(&[last]), invalid(5, record))?;
            let region = self.region_of(plan, expression, a).ok_or(mismatch(5, record))?;
            let node = Node { expression, region };
            let new = !plan.nodes.contains(&node) || self.has(Flaw::DuplicatesAdmitted);
            require(new, Refusal::DuplicateNode(record as u64))?;
            plan.nodes.push(node);
        }
        Ok(())
    }

    /// Known kinds over known numbers; node operands are earlier nodes.
    fn read_expression(&self, plan: &Plan, [kind, a, b]: [usize; 3]) -> Option<Expression> {
        let (earlier, maps) = (plan.nodes.len(), plan.maps.len());
        match kind {
            0 if a < plan.supplied.len() && self.unused(&[b]) => Some(Expression::Supplied(a)),
            1 if a < plan.regions.len() && self.unused(&[b]) => Some(Expression::Equal),
            2 if a < earlier && b < earlier => Some(Expression::Union(a, b)),
            3 if a < earlier && b < earlier => Some(Expression::Intersection(a, b)),
            4 if a < earlier && b < earlier => Some(Expression::Difference(a, b)),
            5 if a < earlier && b < maps => Some(Expression::Image { of: a, map: b }),
            6 if a < earlier && b < maps => Some(Expression::Preimage { of: a, map: b }),
            _ => None,
        }
    }

    /// The region of an expression (of region `a` if it is equal); none if
    /// its operands' regions disagree.
    fn region_of(&self, plan: &Plan, expression: Expression, a: usize) -> Option<usize> {
        let region = |node: usize| plan.nodes[node].region;
        match expression {
            Expression::Supplied(number) => Some(plan.supplied[number].region),
            Expression::Equal => Some(a),
            Expression::Union(a, b) | Expression::Intersection(a, b) | Expression::Difference(a, b) => {
                (region(a) == region(b) || self.has(Flaw::SetRegionsUnjudged)).then(|| region(a))
            }
            // Image: of the map's source, in its target.
            Expression::Image { of, map } => {
                let map = &plan.maps[map];
                (region(of) == map.source || self.has(Flaw::ImageRegionUnjudged)).then_some(map.target)
            }
            Expression::Preimage { of, map } if self.has(Flaw::PreimageLikeImage) => {
                (region(of) == plan.maps[map].source).then(|| plan.maps[map].source)
            }
            // Preimage: the reverse.
            Expression::Preimage { of, map } => {
                let map = &plan.maps[map];
                (region(of) == map.target).then_some(map.source)
            }
        }
    }
}

//! Section 7: at each step Stray, then Unlicensed.
#![forbid(unsafe_code)]

use mavisglen::Refusal;

use super::flaw::Flaw;
use super::plan::{invalid, Expression, Plan};
use super::sections::records;
use super::{require, Reference};

/// What a step concludes and a need asks.
#[derive(Clone, Copy, Debug, PartialEq, Eq)]
pub enum Fact {
    /// SUB: piece by piece, the first node is contained in the second.
    Contained(usize, usize),
    /// DISJ: different pieces share nothing.
    Disjoint(usize),
    /// COMP: the pieces together are the region.
    Complete(usize),
}

#[derive(Clone, Copy)]
enum Conclusion {
    Contained,
    Disjoint,
    Complete,
}

/// What a lemma concludes, and which of y, p and q it uses.
struct Lemma {
    conclusion: Conclusion,
    uses: [bool; 3],
}

const fn lemma(conclusion: Conclusion, y: usize, p: usize, q: usize) -> Lemma {
    Lemma { conclusion, uses: [y == 1, p == 1, q == 1] }
}

/// The 21 lemmas, from 1; the columns are y, p, q.
const LEMMAS: [Lemma; 21] = [
    lemma(Conclusion::Disjoint, 0, 0, 0),
    lemma(Conclusion::Complete, 0, 0, 0),
    lemma(Conclusion::Disjoint, 0, 0, 0),
    lemma(Conclusion::Complete, 0, 0, 0),
    lemma(Conclusion::Contained, 1, 0, 0),
    lemma(Conclusion::Contained, 1, 1, 1),
    lemma(Conclusion::Contained, 1, 0, 0),
    lemma(Conclusion::Contained, 1, 1, 1),
    lemma(Conclusion::Contained, 1, 0, 0),
    lemma(Conclusion::Contained, 1, 1, 1),
    lemma(Conclusion::Contained, 1, 0, 0),
    lemma(Conclusion::Contained, 1, 1, 0),
    lemma(Conclusion::Contained, 1, 1, 0),
    lemma(Conclusion::Contained, 1, 1, 0),
    lemma(Conclusion::Disjoint, 1, 1, 1),
    lemma(Conclusion::Disjoint, 0, 1, 0),
    lemma(Conclusion::Disjoint, 0, 1, 0),
    lemma(Conclusion::Disjoint, 0, 1, 0),
    lemma(Conclusion::Complete, 1, 1, 1),
    lemma(Conclusion::Complete, 0, 1, 0),
    lemma(Conclusion::Disjoint, 0, 1, 0),
];

impl Reference {
    pub(super) fn read_steps(&self, plan: &mut Plan, body: &[u8]) -> Result<(), Refusal> {
        if self.has(Flaw::AllStepsReadFirst) {
            let unknown = records(body).find(|&(record, bytes)| !self.step_is_known(plan, record, bytes));
            require(unknown.is_none(), invalid(7, unknown.map_or(0, |(record, _)| record)))?;
        }
        for (record, bytes) in records(body) {
            require(self.step_is_known(plan, record, bytes), invalid(7, record))?;
            require(self.step_follows(plan, bytes), Refusal::UnlicensedStep(record as u64))?;
            plan.steps.push(conclusion(bytes));
        }
        Ok(())
    }

    /// Stray: a known lemma, known nodes, earlier steps, unused bytes 0.
    fn step_is_known(&self, plan: &Plan, record: usize, [lemma, x, y, p, q]: [usize; 5]) -> bool {
        if !(1..=LEMMAS.len()).contains(&lemma) {
            return false;
        }
        let (nodes, earlier) = (plan.nodes.len(), record + usize::from(self.has(Flaw::StepMayCiteItself)));
        let [uses_y, uses_p, uses_q] = LEMMAS[lemma - 1].uses;
        let known = |used: bool, number: usize, count: usize| {
            if used {
                number < count
            } else {
                self.unused(&[number])
            }
        };
        x < nodes && known(uses_y, y, nodes) && known(uses_p, p, earlier) && known(uses_q, q, earlier)
    }

    /// Whether the step follows by its lemma from the steps it cites.
    fn step_follows(&self, plan: &Plan, [lemma, x, y, p, q]: [usize; 5]) -> bool {
        use Expression::*;
        use Fact::*;
        let node = |number: usize| plan.nodes[number].expression;
        let number = lemma as u8;
        // A lemma that does not use y sees node 0 there, and ignores it.
        let y = if LEMMAS[lemma - 1].uses[0] { y } else { 0 };
        // Whether step p, or step q, concludes a fact.
        let p = |fact| plan.steps.get(p) == Some(&fact) || self.has(Flaw::IgnoresP(number));
        let q = |fact| plan.steps.get(q) == Some(&fact) || self.has(Flaw::IgnoresQ(number));
        let some_node = |holds: &dyn Fn(usize) -> bool| (0..plan.nodes.len()).any(holds);
        match (lemma, node(x), node(y)) {
            // 1, 2: x is equal.
            (1 | 2, expression, _) => expression == Equal || self.has(Flaw::EqualFromAnything),
            // 3, 4: x is supplied and so declared.
            (3, Supplied(number), _) => {
                plan.supplied[number].disjoint || self.has(Flaw::SuppliedWithoutItsFlag)
            }
            (4, Supplied(number), _) => {
                plan.supplied[number].complete || self.has(Flaw::SuppliedWithoutItsFlag)
            }
            // 5: y is x.
            (5, _, _) => x == y || self.has(Flaw::ReflexiveForAnything),
            // 6: through some z.
            (6, _, _) => some_node(&|z| p(Contained(x, z)) && q(Contained(z, y))),
            // 7: y is a union with operand x, either one.
            (7, _, Union(a, b)) => x == a || (x == b && !self.has(Flaw::UnionByLeftOperandOnly)),
            // 8: both operands of the union x are contained in y.
            (8, Union(a, b), _) => p(Contained(a, y)) && q(Contained(b, y)),
            // 9: x is an intersection with operand y, either one.
            (9, Intersection(a, b), _) => {
                y == a || (y == b && !self.has(Flaw::IntersectionByLeftOperandOnly))
            }
            // 10: x is contained in both operands of the intersection y.
            (10, _, Intersection(a, b)) => p(Contained(x, a)) && q(Contained(x, b)),
            // 11: x is y minus something.
            (11, Difference(a, b), _) => y == a || (y == b && self.has(Flaw::DifferenceBelowItsRightOperand)),
            // 12: images under one map, of contained nodes.
            (12, Image { of: a, map: f }, Image { of: b, map: g }) => {
                (f == g || self.has(Flaw::ImageUnderAnyMap)) && p(Contained(a, b))
            }
            // 13: preimages under one map, of contained nodes.
            (13, Preimage { of: a, map: f }, Preimage { of: b, map: g }) => {
                (f == g || self.has(Flaw::PreimageUnderAnyMap)) && p(Contained(a, b))
            }
            // 14: x is the image of a, and a is contained in the preimage of
            // y under the same map.
            (14, Image { of: a, map: f }, _) => some_node(&|z| match node(z) {
                Preimage { of, map } => {
                    of == y && (map == f || self.has(Flaw::ImageOfPreimageUnderAnyMap)) && p(Contained(a, z))
                }
                _ => false,
            }),
            // 15: contained in the disjoint y.
            (15, _, _) => p(Disjoint(y)) && q(Contained(x, y)),
            // 16: an operand of the intersection x is disjoint, either one.
            (16, Intersection(a, b), _) => {
                p(Disjoint(a)) || (p(Disjoint(b)) && !self.has(Flaw::DisjointIntersectionByLeftOperandOnly))
            }
            (16, Union(a, b), _) if self.has(Flaw::DisjointUnion) => p(Disjoint(a)) || p(Disjoint(b)),
            // 17: the left operand of the difference x is disjoint.
            (17, Difference(a, b), _) => {
                p(Disjoint(a)) || (p(Disjoint(b)) && self.has(Flaw::DisjointDifferenceByRightOperand))
            }
            // 18: x is a preimage of a disjoint node.
            (18, Preimage { of, .. }, _) => p(Disjoint(of)),
            (18, Image { of, .. }, _) if self.has(Flaw::DisjointImage) => p(Disjoint(of)),
            // 19: the complete y is contained in x.
            (19, _, _) => p(Complete(y)) && q(Contained(y, x)),
            // 20: x is a preimage of a complete node under a total map.
            (20, Preimage { of, map }, _) => {
                (plan.maps[map].total || self.has(Flaw::CompletePreimageUnderPartialMap)) && p(Complete(of))
            }
            // 21: x is the private part of the image of a disjoint node.
            (21, Image { of, .. }, _) if self.has(Flaw::PrivateIsTheImage) => p(Disjoint(of)),
            (21, _, _) => self.is_private_part(plan, x, p),
            _ => false,
        }
    }
}

fn conclusion([lemma, x, y, _, _]: [usize; 5]) -> Fact {
    match LEMMAS[lemma - 1].conclusion {
        Conclusion::Contained => Fact::Contained(x, y),
        Conclusion::Disjoint => Fact::Disjoint(x),
        Conclusion::Complete => Fact::Complete(x),
    }
}

//! Lemma 21: x is F minus the image under f of (G minus P), where F is the image of P under f and G the preimage of F
//! under f; p is DISJ(P).
#![forbid(unsafe_code)]

use std::mem::discriminant;

use super::flaw::{Aspect, Flaw, Part};
use super::plan::{Expression, Plan};
use super::steps::Fact;
use super::Reference;

impl Reference {
    pub(super) fn is_private_part(&self, plan: &Plan, x: usize, p: impl Fn(Fact) -> bool) -> bool {
        let by_another = match self.flaw {
            Some(Flaw::PrivateByDisjoint(part)) => self.is_private_by(plan, x, Some(part), &p),
            _ => false,
        };
        self.is_private_by(plan, x, None, &p) || by_another
    }

    /// Whether there are such nodes and such a map: each node is looked for in the list by what it has to be. What p
    /// proves disjoint is P; by a flaw, another part.
    fn is_private_by(&self, plan: &Plan, x: usize, proved: Option<Part>, p: impl Fn(Fact) -> bool) -> bool {
        use Expression::*;
        let is_proved = |part: Option<Part>, node: usize| part != proved || p(Fact::Disjoint(node));
        let is = |part: Part, node: usize, wanted| {
            self.fits(part, plan.nodes[node].expression, wanted) && is_proved(Some(part), node)
        };
        let nodes = || 0..plan.nodes.len();
        let listed = |part: Part, wanted| nodes().filter(move |&node| is(part, node, wanted));
        let is_private = |of: usize, f: usize| {
            listed(Part::Image, Image { of, map: f }).any(|image| {
                listed(Part::Sources, Preimage { of: image, map: f }).any(|sources| {
                    listed(Part::Others, Difference(sources, of)).any(|others| {
                        listed(Part::Shared, Image { of: others, map: f })
                            .any(|shared| is(Part::Private, x, Difference(image, shared)))
                    })
                })
            })
        };
        let mut disjoint = nodes().filter(|&of| is_proved(None, of));
        disjoint.any(|of| self.admitted_maps(plan).any(|f| is_private(of, f)))
    }

    /// Any map, total or not.
    fn admitted_maps<'a>(&self, plan: &'a Plan) -> impl Iterator<Item = usize> + 'a {
        let total_only = self.has(Flaw::PrivateUnderTotalMapOnly);
        (0..plan.maps.len()).filter(move |&map| plan.maps[map].total || !total_only)
    }

    /// Whether a node is what it has to be; a flaw leaves one thing about it out.
    fn fits(&self, part: Part, found: Expression, wanted: Expression) -> bool {
        let overlooked = |aspect| self.has(Flaw::PrivatePart(part, aspect));
        let (Some([a, b]), Some([first, second])) = (operands(found), operands(wanted)) else { return false };
        let of_kind = discriminant(&found) == discriminant(&wanted) || overlooked(Aspect::Kind);
        let exchanged = [b, a] == [first, second] && overlooked(Aspect::Order);
        let over = (a == first || overlooked(Aspect::First)) && (b == second || overlooked(Aspect::Second));
        of_kind && (over || exchanged)
    }
}

/// The two numbers that an operator has, whichever it is.
fn operands(expression: Expression) -> Option<[usize; 2]> {
    match expression {
        Expression::Supplied(_) | Expression::Equal => None,
        Expression::Union(a, b) | Expression::Intersection(a, b) | Expression::Difference(a, b) => {
            Some([a, b])
        }
        Expression::Image { of, map } | Expression::Preimage { of, map } => Some([of, map]),
    }
}

//! The grounds for a membership, tested directly: each pair against the sets and its successor by what its operator
//! means, with no use of the rule that makes the chain.
#![forbid(unsafe_code)]

use super::evaluation::Evaluated;
use super::explain::Pair;
use super::flaw::Limit;
use super::plan::Expression;
use crate::question::Question;

/// How a chain can fail to be the grounds.
#[derive(Clone, Copy, Debug, PartialEq, Eq)]
pub enum Groundless {
    /// It has no pair, or more than there can be nodes.
    Length(usize),
    /// It does not start with the pair asked about.
    Start(Pair),
    /// A pair is no member.
    NoMember(Pair),
    /// A pair does not follow from its successor.
    NotFollowing { pair: Pair, from: Pair },
    /// The last pair is neither of a supplied nor of an equal node.
    Unfinished(Pair),
}

impl Evaluated {
    /// Tests what an explanation has written, the nodes and the elements of the chain.
    pub fn test_grounds(
        &self,
        question: Question,
        nodes: &[u16],
        elements: &[u16],
    ) -> Result<(), Groundless> {
        let pair = |(&node, &element): (&u16, &u16)| Pair { node: node.into(), element: element.into() };
        let chain: Vec<Pair> = nodes.iter().zip(elements).map(pair).collect();
        if chain.len() > Limit::Nodes.value() {
            return Err(Groundless::Length(chain.len()));
        }
        let (Some(&first), Some(&last)) = (chain.first(), chain.last()) else {
            return Err(Groundless::Length(0));
        };
        if first != question.into() {
            return Err(Groundless::Start(first));
        }
        let is_member = |pair: &Pair| self.has(pair.node, question.piece, pair.element);
        if let Some(&pair) = chain.iter().find(|pair| !is_member(pair)) {
            return Err(Groundless::NoMember(pair));
        }
        let follows = |link: &&[Pair]| self.follows(question.piece, link[0], link[1]);
        if let Some(link) = chain.windows(2).find(|link| !follows(link)) {
            return Err(Groundless::NotFollowing { pair: link[0], from: link[1] });
        }
        match self.plan.nodes[last.node].expression {
            Expression::Supplied(_) | Expression::Equal => Ok(()),
            _ => Err(Groundless::Unfinished(last)),
        }
    }

    /// Whether a pair is a member because another is, by the operator's definition and every other membership or
    /// absence that this and the order among several grounds need.
    fn follows(&self, piece: usize, pair: Pair, from: Pair) -> bool {
        let has = |node: usize, element: usize| self.has(node, piece, element);
        let same = pair.element == from.element;
        match self.plan.nodes[pair.node].expression {
            Expression::Supplied(_) | Expression::Equal => false,
            Expression::Union(a, b) => {
                let by_first = from.node == a && has(a, from.element);
                let by_second = from.node == b && has(b, from.element) && !has(a, from.element);
                same && (by_first || by_second)
            }
            Expression::Intersection(a, b) => {
                same && from.node == a && has(a, from.element) && has(b, from.element)
            }
            Expression::Difference(a, b) => {
                same && from.node == a && has(a, from.element) && !has(b, from.element)
            }
            Expression::Image { of, map } => {
                let is_ground = |element| has(of, element) && self.leads(map, element, pair.element);
                from.node == of && is_least(is_ground, from.element)
            }
            Expression::Preimage { of, map } => {
                let is_ground = |element| has(of, element) && self.leads(map, pair.element, element);
                from.node == of && is_least(is_ground, from.element)
            }
        }
    }
}

/// Whether an element is a ground and none below it is.
fn is_least(is_ground: impl Fn(usize) -> bool, element: usize) -> bool {
    is_ground(element) && !(0..element).any(is_ground)
}

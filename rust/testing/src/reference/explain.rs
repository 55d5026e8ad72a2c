//! Grounds for membership: the chain of pairs from the one asked about to a supplied or an equal node.
#![forbid(unsafe_code)]

use std::iter;

use mavisglen::{Refusal, Written};

use super::evaluation::Evaluated;
use super::flaw::{Flaw, Limit};
use super::plan::Expression;
use super::{require, Reference};
use crate::question::Question;

/// A node and an element in its piece.
#[derive(Clone, Copy, Debug, PartialEq, Eq)]
pub struct Pair {
    pub node: usize,
    pub element: usize,
}

impl From<Question> for Pair {
    fn from(question: Question) -> Pair {
        Pair { node: question.node, element: question.element }
    }
}

impl Reference {
    pub fn explain(
        &self,
        plan: &[u8],
        data: &[u8],
        question: Question,
        nodes: &mut [u16],
        elements: &mut [u16],
    ) -> Written {
        match self.evaluated_to_explain(plan, data, question) {
            Ok(evaluated) => self.explain_over(&evaluated, question, nodes, elements),
            Err(refusal) => Written::Refused(refusal),
        }
    }

    /// Refusals 1 to 14 come first; the question matters to a flaw only.
    fn evaluated_to_explain(
        &self,
        plan: &[u8],
        data: &[u8],
        question: Question,
    ) -> Result<Evaluated, Refusal> {
        let plan = self.checked_plan(plan)?;
        if self.has(Flaw::NodeJudgedBeforeData) {
            require(question.node < plan.nodes.len(), Refusal::NotFound(1))?;
        }
        self.evaluated(plan, data)
    }

    /// Explains what is evaluated already.
    pub fn explain_over(
        &self,
        evaluated: &Evaluated,
        question: Question,
        nodes: &mut [u16],
        elements: &mut [u16],
    ) -> Written {
        match self.try_explain(evaluated, question, nodes, elements) {
            Ok(length) => Written::Length(length),
            Err(refusal) => Written::Refused(refusal),
        }
    }

    /// Absent, then Narrow, and only then the pairs.
    fn try_explain(
        &self,
        evaluated: &Evaluated,
        question: Question,
        nodes: &mut [u16],
        elements: &mut [u16],
    ) -> Result<usize, Refusal> {
        let question = self.cut(question);
        if self.has(Flaw::SlicesJudgedBeforeQuestion) {
            let length = self.chain(evaluated, question).len();
            self.judge_slices(length, nodes.len(), elements.len())?;
        }
        self.judge_question(evaluated, question)?;
        let chain = self.chain(evaluated, question);
        if self.has(Flaw::PairsWrittenBeforeJudgingSlices) {
            write(&chain, nodes, elements);
        }
        self.judge_slices(chain.len(), nodes.len(), elements.len())?;
        write(&chain, nodes, elements);
        if self.has(Flaw::LaterPairsCleared) {
            nodes[chain.len()..].fill(0);
            elements[chain.len()..].fill(0);
        }
        Ok(chain.len())
    }

    /// The numbers as they are given.
    fn cut(&self, question: Question) -> Question {
        let Some(Flaw::QuestionCutTo { bits }) = self.flaw else { return question };
        let cut = |number: usize| number & ((1 << bits) - 1);
        Question { node: cut(question.node), piece: cut(question.piece), element: cut(question.element) }
    }

    /// Absent: node (1), piece (2) or element (3) does not exist, or the
    /// element is not a member (4); the lowest.
    fn judge_question(&self, evaluated: &Evaluated, question: Question) -> Result<(), Refusal> {
        let Question { node, piece, element } = question;
        let pieces = match self.flaw {
            Some(Flaw::PieceUnjudged) => usize::MAX,
            Some(Flaw::PieceJudgedByLimit) => Limit::Pieces.value(),
            _ => evaluated.data.pieces,
        };
        let size = match self.flaw {
            Some(Flaw::ElementJudgedByLimit) => Limit::Size.value(),
            _ => evaluated.size(node),
        };
        let mut found = [
            (1, node < evaluated.plan.nodes.len()),
            (2, piece < pieces),
            (3, element < size),
            (4, evaluated.has(node, piece, element)),
        ];
        if self.has(Flaw::PieceJudgedFirst) {
            found.swap(0, 1);
        }
        if self.has(Flaw::HighestPlaceGiven) {
            found.reverse();
        }
        found.into_iter().try_for_each(|(place, found)| require(found, Refusal::NotFound(place)))
    }

    /// Narrow: either slice is shorter than the chain.
    fn judge_slices(&self, chain: usize, nodes: usize, elements: usize) -> Result<(), Refusal> {
        let judged = match self.flaw {
            Some(Flaw::OnlyNodesSliceJudged) => nodes,
            Some(Flaw::OnlyElementsSliceJudged) => elements,
            Some(Flaw::LongerSliceJudged) => nodes.max(elements),
            _ => nodes.min(elements),
        };
        let needed = match self.flaw {
            Some(Flaw::WantsASparePair) => chain + 1,
            Some(Flaw::WantsTheLongestChain) => Limit::Nodes.value(),
            _ => chain,
        };
        require(judged >= needed, Refusal::OutputTooSmall(chain as u64))
    }

    /// The pair asked about, and behind each pair its ground.
    pub fn chain(&self, evaluated: &Evaluated, question: Question) -> Vec<Pair> {
        let ground = |&pair: &Pair| self.ground(evaluated, question.piece, pair);
        let mut chain: Vec<Pair> = iter::successors(Some(question.into()), ground).collect();
        if self.has(Flaw::ChainOfOnePair) {
            chain.truncate(1);
        }
        if self.has(Flaw::ChainBackwards) {
            chain.reverse();
        }
        chain
    }

    /// What a pair goes to, in the same piece; nothing where the chain ends,
    /// and for a pair that is no member perhaps nothing either.
    fn ground(&self, evaluated: &Evaluated, piece: usize, Pair { node, element }: Pair) -> Option<Pair> {
        let same_element_in = |node: usize| Some(Pair { node, element });
        match evaluated.plan.nodes.get(node)?.expression {
            // Supplied and equal end the chain.
            Expression::Supplied(_) | Expression::Equal => None,
            // A union goes to its first operand that holds the element.
            Expression::Union(a, b) => {
                let (first, second) = if self.has(Flaw::UnionToItsSecondFirst) { (b, a) } else { (a, b) };
                let goes_first = evaluated.has(first, piece, element) || self.has(Flaw::UnionAlwaysToItsLeft);
                same_element_in(if goes_first { first } else { second })
            }
            // An intersection to its first operand.
            Expression::Intersection(_, b) if self.has(Flaw::IntersectionToItsSecond) => same_element_in(b),
            Expression::Intersection(a, _) => same_element_in(a),
            // A difference to its left.
            Expression::Difference(_, b) if self.has(Flaw::DifferenceToItsRight) => same_element_in(b),
            Expression::Difference(a, _) => same_element_in(a),
            // An image to the least element of its operand's piece that leads there.
            Expression::Image { of, map } => {
                let leads = |&source: &usize| evaluated.leads(map, source, element);
                let source = match self.flaw {
                    Some(Flaw::ImageToItsLastElement) => evaluated.members(of, piece)?.filter(leads).max(),
                    Some(Flaw::ImageFromOutsideThePiece) => (0..evaluated.size(of)).find(leads),
                    _ => evaluated.members(of, piece)?.filter(leads).min(),
                };
                source.map(|element| Pair { node: of, element })
            }
            // A preimage to the entry: of what the element leads to, the least in the operand's piece.
            Expression::Preimage { of, .. } if self.has(Flaw::PreimageKeepsTheElement) => same_element_in(of),
            Expression::Preimage { of, map } => {
                let led_to = |&target: &usize| evaluated.leads(map, element, target);
                let entry = evaluated.members(of, piece)?.filter(led_to).min();
                entry.map(|element| Pair { node: of, element })
            }
        }
    }
}

/// The nodes into one slice, the elements into the other; what is behind them stays.
fn write(chain: &[Pair], nodes: &mut [u16], elements: &mut [u16]) {
    for ((pair, node), element) in chain.iter().zip(nodes).zip(elements) {
        (*node, *element) = (pair.node as u16, pair.element as u16);
    }
}

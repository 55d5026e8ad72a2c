//! Explanations of a version against the reference's, and against the sets.
#![forbid(unsafe_code)]

use mavisglen::{Written, LONGEST_CHAIN};
use mavisglen_testing::filed::{data_d, plans};
use mavisglen_testing::generate::{Explained, Inquiry, Request};
use mavisglen_testing::question::Question;
use mavisglen_testing::reference::Reference;
use mavisglen_testing::workload::{Asked, Workload};

use super::{hexadecimal, Compared, Guarded};

impl Compared {
    fn explain(&self, plan: &[u8], data: &[u8], request: &Request) -> Explained {
        let [mut nodes, mut elements] =
            [&request.nodes, &request.elements].map(|old| Guarded::new(old, 0x5AA5));
        let answer = (self.0.explain)(plan, data, request.question, nodes.lent(), elements.lent());
        Explained { answer, nodes: nodes.written(), elements: elements.written() }
    }

    /// Answer and slices are the reference's; what was lent is kept but for the chain, and the chain is the grounds.
    pub(super) fn explains_alike(
        &self,
        name: impl Fn() -> String,
        inquiry: &Inquiry,
        request: &Request,
    ) -> Written {
        let Inquiry { plan, data, .. } = inquiry;
        let explained = self.explain(plan, data, request);
        let expected = inquiry.explained_by(Reference::default(), request);
        let describe =
            || format!("{}: {request:?}\nplan {}\ndata {}", name(), hexadecimal(plan), hexadecimal(data));
        assert_eq!(expected, explained, "reference and version differ, {}", describe());
        let length = explained.answer.length();
        let [old, new] = [[&request.nodes, &request.elements], [&explained.nodes, &explained.elements]];
        let kept = |slice: &[u16]| slice[length.unwrap_or(0)..].to_vec();
        assert_eq!(new.map(|slice| kept(slice)), old.map(|slice| kept(slice)), "{}", describe());
        if let Some(length) = length {
            let evaluated = inquiry.evaluated.as_ref().expect("what is explained is accepted");
            let [nodes, elements] = new.map(|slice| &slice[..length]);
            let grounds = evaluated.test_grounds(request.question, nodes, elements);
            assert_eq!(grounds, Ok(()), "{}", describe());
        }
        explained.answer
    }

    /// Every node, piece and element of the filed examples, those that are just not there and the greatest numbers,
    /// with slices of every length that matters.
    pub fn explains_the_filed_examples_alike(&self) {
        let with_greatest = |end: usize| (0..end).chain([usize::MAX]);
        let lengths = || (0..25).map(|number| [number / 5, number % 5]);
        for plan in plans() {
            let inquiry = Inquiry::of(plan.encode(), data_d().encode());
            for node in with_greatest(plan.nodes.len() + 1) {
                for piece in with_greatest(3) {
                    for element in with_greatest(7) {
                        let question = Question { node, piece, element };
                        let request = |lengths: [usize; 2]| lent(question, lengths);
                        for request in lengths().map(request) {
                            self.explains_alike(|| "filed example".into(), &inquiry, &request);
                        }
                    }
                }
            }
        }
    }

    /// Of every node and piece of a plan a member, and a member with the longest chain, with slices long enough, just
    /// enough, and too short.
    pub(super) fn explains_workload_alike(&self, workload: &Workload) -> usize {
        let inquiry = Inquiry::of(workload.plan.clone(), workload.data.clone());
        let evaluated = inquiry.evaluated.as_ref().expect("a workload is accepted");
        let Asked { question: deepest, length } = workload.deepest_question();
        for lengths in
            [[length; 2], [length - 1, length], [length, length - 1], [0; 2], [LONGEST_CHAIN + 1; 2]]
        {
            self.explains_alike(|| workload.name.clone(), &inquiry, &lent(deepest, lengths));
        }
        for node in 0..evaluated.plan.nodes.len() {
            for piece in 0..evaluated.data.pieces {
                let member = evaluated.members(node, piece).and_then(|members| members.last());
                let question = Question { node, piece, element: member.unwrap_or(0) };
                let request = lent(question, [LONGEST_CHAIN; 2]);
                self.explains_alike(|| workload.name.clone(), &inquiry, &request);
            }
        }
        length
    }

    /// A member, and something of a node that not every plan has.
    pub(super) fn explains_altered_alike(&self, inquiry: &Inquiry) {
        for node in [1, 3] {
            let request = lent(Question { node, piece: 1, element: 2 }, [3; 2]);
            self.explains_alike(|| "altered bytes".into(), inquiry, &request);
        }
    }
}

/// A request with slices of these lengths.
fn lent(question: Question, [nodes, elements]: [usize; 2]) -> Request {
    Request { question, nodes: vec![0xEEEE; nodes], elements: vec![0xDDDD; elements] }
}

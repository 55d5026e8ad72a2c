//! Requests to explain: what is asked about, and what the two slices hold before. Beside them stand those to charge.
#![forbid(unsafe_code)]

use mavisglen::{Charge, Refusal, Written, LONGEST_CHAIN};

use super::case::Generator;
use super::deep::deep_plan;
use super::transfer::{any_transfers, some_transfers};
use super::wide::{wide_data, wide_plan};
use super::{beyond, data};
use crate::question::{Question, Transfer};
use crate::random::Random;
use crate::reference::evaluation::Evaluated;
use crate::reference::Reference;

#[derive(Clone, Debug)]
pub struct Request {
    pub question: Question,
    /// Old contents of the slices lent.
    pub nodes: Vec<u16>,
    pub elements: Vec<u16>,
}

/// What comes of a request: the answer, and the slices after.
#[derive(Clone, Debug, PartialEq, Eq)]
pub struct Explained {
    pub answer: Written,
    pub nodes: Vec<u16>,
    pub elements: Vec<u16>,
}

/// A plan, a data set, what the reference makes of both, and requests to explain and to charge.
#[derive(Clone, Debug)]
pub struct Inquiry {
    pub plan: Vec<u8>,
    pub data: Vec<u8>,
    pub evaluated: Result<Evaluated, Refusal>,
    pub requests: Vec<Request>,
    pub transfers: Vec<Transfer>,
}

impl Inquiry {
    /// Without requests.
    pub fn of(plan: Vec<u8>, data: Vec<u8>) -> Inquiry {
        let reference = Reference::default();
        let evaluated = reference.checked_plan(&plan).and_then(|plan| reference.evaluated(plan, &data));
        Inquiry { plan, data, evaluated, requests: Vec::new(), transfers: Vec::new() }
    }

    /// What the reference, or a flawed copy of it, makes of a request; what is evaluated is not evaluated again.
    pub fn explained_by(&self, reference: Reference, request: &Request) -> Explained {
        let Request { question, mut nodes, mut elements } = request.clone();
        let answer = match &self.evaluated {
            Ok(evaluated) => reference.explain_over(evaluated, question, &mut nodes, &mut elements),
            Err(_) => reference.explain(&self.plan, &self.data, question, &mut nodes, &mut elements),
        };
        Explained { answer, nodes, elements }
    }

    /// What the reference, or a flawed copy of it, charges for a transfer.
    pub fn charged_by(&self, reference: Reference, transfer: Transfer) -> Charge {
        match &self.evaluated {
            Ok(evaluated) => reference.charge_over(evaluated, transfer),
            Err(_) => reference.charge(&self.plan, &self.data, transfer),
        }
    }
}

/// An endless row of inquiries, the same for the same seed.
#[derive(Clone, Debug)]
pub struct Inquiries {
    random: Random,
    cases: Generator,
}

impl Inquiries {
    pub fn new(seed: u64) -> Inquiries {
        Inquiries { random: Random::new(!seed), cases: Generator::new(seed) }
    }

    /// The bytes of a plan and of a data set: deep plans as often as cases of any origin, which are mostly refused, and
    /// wide plans at times.
    fn bytes(&mut self) -> Option<(Vec<u8>, Vec<u8>)> {
        let random = &mut self.random;
        if random.one_in(2) {
            return self.cases.next().map(|case| (case.plan, case.data));
        }
        if random.one_in(12) {
            return Some((wide_plan(random).encode(), wide_data(random).encode()));
        }
        let plan = deep_plan(random);
        let data = match random.below(16) {
            0 => data::nearly_fitting(random, &plan),
            _ => data::fitting(random, &plan).encode(),
        };
        Some((plan.encode(), data))
    }
}

impl Iterator for Inquiries {
    type Item = Inquiry;

    fn next(&mut self) -> Option<Inquiry> {
        let (plan, data) = self.bytes()?;
        let mut inquiry = Inquiry::of(plan, data);
        let random = &mut self.random;
        (inquiry.requests, inquiry.transfers) = match &inquiry.evaluated {
            Ok(evaluated) => (some_requests(random, evaluated), some_transfers(random, evaluated)),
            Err(_) => (vec![any_request(random)], any_transfers(random)),
        };
        Some(inquiry)
    }
}

/// Several, where there is much to ask about.
fn some_requests(random: &mut Random, evaluated: &Evaluated) -> Vec<Request> {
    let count = if some_member(random, evaluated).is_some() { random.within(2..=8) } else { 1 };
    (0..count).map(|_| some_request(random, evaluated)).collect()
}

/// Most often about a member.
fn some_request(random: &mut Random, evaluated: &Evaluated) -> Request {
    let length = |question: &Question| Reference::default().chain(evaluated, *question).len();
    let members = (0..random.pick(&[1, 1, 8])).filter_map(|_| some_member(random, evaluated));
    let asked = members.max_by_key(length).unwrap_or_else(|| any_question(random));
    let question = match random.below(8) {
        0 => Question { element: random.below(evaluated.size(asked.node).max(1)), ..asked },
        1 | 2 => spoiled(random, evaluated, asked),
        _ => asked,
    };
    // A wrong version may make a chain of what is no member too.
    with_slices(random, question, length(&question))
}

/// About anything, where nothing can be found.
fn any_request(random: &mut Random) -> Request {
    let question = any_question(random);
    let length = random.below(4);
    with_slices(random, question, length)
}

/// A member of a node, of a later one rather; none if sets are empty too often.
fn some_member(random: &mut Random, evaluated: &Evaluated) -> Option<Question> {
    let count = evaluated.plan.nodes.len();
    if count == 0 {
        return None;
    }
    (0..8).find_map(|_| {
        let node = random.below(count).max(random.below(count));
        let piece = random.below(evaluated.data.pieces);
        let members: Vec<usize> = evaluated.members(node, piece)?.collect();
        (!members.is_empty()).then(|| Question { node, piece, element: random.pick(&members) })
    })
}

fn any_question(random: &mut Random) -> Question {
    let mut any = |below: usize| {
        let number = random.below(below);
        if random.one_in(3) {
            beyond(random, number, below)
        } else {
            number
        }
    };
    Question { node: any(4), piece: any(3), element: any(6) }
}

/// One, two or all three numbers past what there is.
fn spoiled(random: &mut Random, evaluated: &Evaluated, asked: Question) -> Question {
    let which = random.within(1..=7);
    let mut spoil = |bit: usize, number: usize, count: usize| {
        if which & bit != 0 {
            beyond(random, number, count)
        } else {
            number
        }
    };
    Question {
        node: spoil(1, asked.node, evaluated.plan.nodes.len()),
        piece: spoil(2, asked.piece, evaluated.data.pieces),
        element: spoil(4, asked.element, evaluated.size(asked.node)),
    }
}

fn with_slices(random: &mut Random, question: Question, needed: usize) -> Request {
    let [nodes, elements] = [(); 2].map(|()| {
        let length = some_length(random, needed);
        (0..length).map(|_| random.word() as u16).collect()
    });
    Request { question, nodes, elements }
}

/// Most often enough, and then most often just enough.
fn some_length(random: &mut Random, needed: usize) -> usize {
    match random.below(12) {
        0 => needed.saturating_sub(1),
        1 if random.one_in(2) => 0,
        1 => random.within(0..=needed),
        2..=4 => needed + random.within(1..=5),
        5 => LONGEST_CHAIN,
        _ => needed,
    }
}

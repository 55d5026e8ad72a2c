//! Explanations, without the verified library: one fixed run of requests must reach every rule of the chain, its
//! refusals and its slices, and notice every flaw; and the direct test of grounds must itself notice a wrong chain.
#![forbid(unsafe_code)]

use std::collections::BTreeMap;
use std::fmt::Debug;
use std::sync::OnceLock;

use mavisglen::{Refusal, Written, LONGEST_CHAIN};
use mavisglen_testing::encode::limit;
use mavisglen_testing::generate::{Explained, Inquiries, Inquiry, Request};
use mavisglen_testing::question::Question;
use mavisglen_testing::reference::evaluation::Evaluated;
use mavisglen_testing::reference::explain::Pair;
use mavisglen_testing::reference::flaw::Flaw;
use mavisglen_testing::reference::plan::Expression;
use mavisglen_testing::reference::Reference;
use mavisglen_testing::tally::tally;

const SEED: u64 = 1;
const INQUIRIES: usize = 14_000;
/// What "often" means over the run.
const OFTEN: usize = 50;

/// The inquiries of the run, and what the reference makes of each of their requests.
fn run() -> &'static [(Inquiry, Vec<Explained>)] {
    static RUN: OnceLock<Vec<(Inquiry, Vec<Explained>)>> = OnceLock::new();
    let explained = |inquiry: Inquiry| {
        let by_reference = |request| inquiry.explained_by(Reference::default(), request);
        let explained = inquiry.requests.iter().map(by_reference).collect();
        (inquiry, explained)
    };
    RUN.get_or_init(|| Inquiries::new(SEED).take(INQUIRIES).map(explained).collect())
}

fn requests() -> impl Iterator<Item = (&'static Inquiry, &'static Request, &'static Explained)> {
    run().iter().flat_map(|(inquiry, explained)| {
        inquiry.requests.iter().zip(explained).map(move |(request, explained)| (inquiry, request, explained))
    })
}

/// The sets, the question and the chain of each request that is explained.
fn chains() -> impl Iterator<Item = (&'static Evaluated, Question, Vec<Pair>)> {
    requests().filter_map(|(inquiry, request, explained)| {
        explained.answer.length()?;
        let evaluated = inquiry.evaluated.as_ref().ok()?;
        let chain = Reference::default().chain(evaluated, request.question);
        Some((evaluated, request.question, chain))
    })
}

fn must_be_often<K: Debug + Ord>(counts: &BTreeMap<K, usize>, keys: impl IntoIterator<Item = K>) {
    for key in keys {
        assert!(counts.get(&key) >= Some(&OFTEN), "{key:?} is too seldom: {counts:?}");
    }
}

#[test]
fn every_refusal_is_reached_often() {
    let numbers = tally(requests().map(|(.., explained)| explained.answer.number()));
    let places = tally(requests().filter_map(|(.., explained)| match explained.answer {
        Written::Refused(Refusal::NotFound(place)) => Some(place),
        _ => None,
    }));
    println!("{} requests, numbers {numbers:?}, places of 16 {places:?}", requests().count());
    must_be_often(&numbers, 0..=16);
    must_be_often(&places, 1..=4);
}

/// How a pair goes to the next, by operator, and by the choice that it leaves.
fn step(evaluated: &Evaluated, piece: usize, pair: Pair, next: Pair) -> &'static str {
    match evaluated.plan.nodes[pair.node].expression {
        Expression::Supplied(_) | Expression::Equal => unreachable!("the chain ends there"),
        Expression::Union(a, b) if a == b => "union of a node with itself",
        Expression::Union(a, b) => match [a, b].map(|operand| evaluated.has(operand, piece, pair.element)) {
            [true, true] => "union, both have it",
            [true, false] => "union, left",
            _ => "union, right",
        },
        Expression::Intersection(..) => "intersection",
        Expression::Difference(..) => "difference",
        Expression::Image { of, map } => {
            let leads = |source: &usize| evaluated.leads(map, *source, pair.element);
            let in_piece = evaluated.members(of, piece).into_iter().flatten().filter(leads).count();
            match (0..next.element).find(leads) {
                Some(_) => "image, a lower one outside the piece",
                None if in_piece > 1 => "image, one of several",
                None => "image",
            }
        }
        Expression::Preimage { .. } if pair.element == next.element => "preimage, same element",
        Expression::Preimage { .. } => "preimage",
    }
}

/// What a chain ends with.
fn end(evaluated: &Evaluated, chain: &[Pair]) -> &'static str {
    let last = chain.last().expect("a chain has its first pair");
    match evaluated.plan.nodes[last.node].expression {
        Expression::Supplied(_) => "supplied",
        Expression::Equal => "equal",
        expression => panic!("a chain ends with {expression:?}"),
    }
}

#[test]
fn chains_go_through_every_operator() {
    let steps = tally(chains().flat_map(|(evaluated, question, chain)| {
        let step = |link: &[Pair]| step(evaluated, question.piece, link[0], link[1]);
        chain.windows(2).map(step).chain([end(evaluated, &chain)]).collect::<Vec<_>>()
    }));
    println!("{steps:#?}");
    let wanted = [
        "union, left",
        "union, right",
        "union, both have it",
        "intersection",
        "difference",
        "image",
        "image, one of several",
        "image, a lower one outside the piece",
        "preimage",
        "preimage, same element",
        "supplied",
        "equal",
    ];
    must_be_often(&steps, wanted);
}

#[test]
fn chains_are_short_and_long() {
    let lengths = tally(chains().map(|(.., chain)| chain.len()));
    println!("{lengths:?}");
    must_be_often(&lengths, 1..=12);
    let long: usize = lengths.range(20..).map(|(_, count)| count).sum();
    assert!(long >= OFTEN, "{long} chains of 20 pairs and more");
    assert!(lengths.keys().all(|&length| length <= LONGEST_CHAIN));
}

/// The length of the chain, where the answer says it.
fn needed(answer: Written) -> Option<usize> {
    match answer {
        Written::Length(length) => Some(length),
        Written::Refused(Refusal::OutputTooSmall(length)) => Some(length as usize),
        Written::Refused(_) => None,
    }
}

#[test]
fn slices_of_every_length_are_lent() {
    let lent = |lent: usize, needed: usize| match lent {
        0 => "none",
        _ if lent + 1 == needed => "one short",
        _ if lent < needed => "short",
        _ if lent == needed => "exact",
        _ => "longer",
    };
    let counts = tally(requests().filter_map(|(_, request, explained)| {
        let needed = needed(explained.answer)?;
        Some([&request.nodes, &request.elements].map(|slice| lent(slice.len(), needed)))
    }));
    println!("nodes and elements {counts:?}");
    let (short, enough) = (["none", "one short", "short"], ["exact", "longer"]);
    for nodes in enough {
        must_be_often(&counts, enough.map(|elements| [nodes, elements]));
        must_be_often(&counts, short.map(|elements| [nodes, elements]));
        must_be_often(&counts, short.map(|elements| [elements, nodes]));
    }
    must_be_often(&counts, [["one short"; 2], ["none"; 2]]);
}

/// How a number goes past the end, if it does.
fn past(number: usize, count: usize, most: usize) -> &'static str {
    match number {
        _ if number < count => "there",
        usize::MAX => "greatest",
        _ if number == count => "first",
        _ if number < most => "below the limit",
        _ if number >> 16 == 0 => "past the limit",
        _ => "of many bits",
    }
}

#[test]
fn numbers_past_the_end_are_asked_for() {
    let asked: Vec<[&str; 3]> = requests()
        .filter_map(|(inquiry, request, _)| {
            let evaluated = inquiry.evaluated.as_ref().ok()?;
            let Question { node, piece, element } = request.question;
            Some([
                past(node, evaluated.plan.nodes.len(), limit::NODES),
                past(piece, evaluated.data.pieces, limit::PIECES),
                past(element, evaluated.size(node), limit::SIZE),
            ])
        })
        .collect();
    for (number, name) in ["node", "piece", "element"].into_iter().enumerate() {
        let counts = tally(asked.iter().map(|asked| asked[number]));
        println!("{name} {counts:?}");
        must_be_often(
            &counts,
            ["there", "first", "below the limit", "past the limit", "of many bits", "greatest"],
        );
    }
    // Of a node that does not exist no element does.
    let wrong = tally(asked.iter().map(|asked| asked.map(|number| number != "there")));
    println!("not there {wrong:?}");
    must_be_often(&wrong, [false, true].map(|piece| [true, piece, true]));
    must_be_often(&wrong, [false, true].map(|element| [false, true, element]));
    must_be_often(&wrong, [false, true].map(|element| [false, false, element]));
}

#[test]
fn a_refusal_changes_nothing_and_later_places_are_kept() {
    for (_, request, explained) in requests() {
        let kept = explained.answer.length().unwrap_or(0);
        assert_eq!(explained.nodes[kept..], request.nodes[kept..]);
        assert_eq!(explained.elements[kept..], request.elements[kept..]);
    }
}

#[test]
fn every_flaw_is_noticed_often() {
    for flaw in [&Flaw::CHAIN[..], &Flaw::EXPLAINING].concat() {
        let flawed = Reference::flawed(flaw);
        let differs = |(inquiry, request, explained): &(&Inquiry, &Request, &Explained)| {
            inquiry.explained_by(flawed, request) != **explained
        };
        let count = requests().filter(differs).count();
        println!("{flaw:?}: {count}");
        assert!(count >= OFTEN, "{flaw:?} is noticed too seldom: {count}");
    }
}

/// How often the direct test finds a chain of a version of the reference groundless.
fn groundless(reference: Reference) -> usize {
    let is_groundless = |(inquiry, request, _): &(&Inquiry, &Request, &Explained)| {
        let (Ok(evaluated), explained) = (&inquiry.evaluated, inquiry.explained_by(reference, request))
        else {
            return false;
        };
        let Some(length) = explained.answer.length() else { return false };
        let (nodes, elements) = (&explained.nodes[..length], &explained.elements[..length]);
        evaluated.test_grounds(request.question, nodes, elements).is_err()
    };
    requests().filter(is_groundless).count()
}

#[test]
fn chains_are_grounds() {
    assert_eq!(groundless(Reference::default()), 0);
}

#[test]
fn every_flaw_of_the_chain_is_groundless() {
    for flaw in Flaw::CHAIN {
        let count = groundless(Reference::flawed(flaw));
        println!("{flaw:?}: {count}");
        assert!(count >= OFTEN, "{flaw:?} is found groundless too seldom: {count}");
    }
}

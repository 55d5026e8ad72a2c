//! Charges: one fixed run of transfers must reach every rule of counting, pricing and refusing, and notice every flaw;
//! what every version charges stands the audit; and the audit must itself notice a wrong charge.
#![forbid(unsafe_code)]

use std::collections::BTreeMap;
use std::fmt::Debug;
use std::sync::OnceLock;

use mavisglen::{Charge, Refusal};
use mavisglen_testing::encode::{limit, PIECE_WORDS};
use mavisglen_testing::generate::transfer::{ADMITTED, TOO_HIGH};
use mavisglen_testing::generate::{Inquiries, Inquiry};
use mavisglen_testing::question::Transfer;
use mavisglen_testing::reference::audit::{Bill, Mistake};
use mavisglen_testing::reference::evaluation::Evaluated;
use mavisglen_testing::reference::flaw::Flaw;
use mavisglen_testing::reference::Reference;
use mavisglen_testing::tally::tally;
use mavisglen_testing::version::Version;

const SEED: u64 = 1;
const INQUIRIES: usize = 10_000;
/// What "often" means over the run.
const OFTEN: usize = 50;

/// The inquiries of the run, and what the reference charges for each of their transfers.
fn run() -> &'static [(Inquiry, Vec<Charge>)] {
    static RUN: OnceLock<Vec<(Inquiry, Vec<Charge>)>> = OnceLock::new();
    let charged = |inquiry: Inquiry| {
        let by_reference = |&transfer| inquiry.charged_by(Reference::default(), transfer);
        let charges = inquiry.transfers.iter().map(by_reference).collect();
        (inquiry, charges)
    };
    RUN.get_or_init(|| Inquiries::new(SEED).take(INQUIRIES).map(charged).collect())
}

fn transfers() -> impl Iterator<Item = (&'static Inquiry, Transfer, Charge)> {
    run().iter().flat_map(|(inquiry, charges)| {
        inquiry.transfers.iter().zip(charges).map(move |(&transfer, &charge)| (inquiry, transfer, charge))
    })
}

/// The transfers of accepted plans over data sets that fit.
fn judged() -> impl Iterator<Item = (&'static Evaluated, Transfer, Charge)> {
    transfers().filter_map(|(inquiry, transfer, charge)| {
        inquiry.evaluated.as_ref().ok().map(|evaluated| (evaluated, transfer, charge))
    })
}

/// The transfers that are charged for.
fn bills() -> impl Iterator<Item = (&'static Evaluated, Transfer, Bill)> {
    judged().filter_map(|(evaluated, transfer, charge)| Some((evaluated, transfer, bill(charge)?)))
}

fn bill(charge: Charge) -> Option<Bill> {
    match charge {
        Charge::Charged { count, cents, remainder } => Some(Bill { count, cents, remainder }),
        Charge::Refused(_) => None,
    }
}

fn must_be_often<K: Debug + Ord>(counts: &BTreeMap<K, usize>, keys: impl IntoIterator<Item = K>) {
    for key in keys {
        assert!(counts.get(&key) >= Some(&OFTEN), "{key:?} is too seldom: {counts:?}");
    }
}

#[test]
fn every_refusal_is_reached_often() {
    let numbers = tally(transfers().map(|(.., charge)| charge.number()));
    let places = tally(transfers().filter_map(|(.., charge)| match charge {
        Charge::Refused(Refusal::InvalidCharge(place)) => Some(place),
        _ => None,
    }));
    println!("{} transfers, numbers {numbers:?}, places of 17 {places:?}", transfers().count());
    must_be_often(&numbers, (0..=14).chain([17]));
    must_be_often(&places, 1..=3);
    // Nothing is lent, and no element is asked for.
    assert!(!numbers.contains_key(&15) && !numbers.contains_key(&16));
}

/// Nodes that are missing or of two regions, and prices that are too high: each alone and with the others, and beside
/// plans and data sets that are refused before.
#[test]
fn everything_is_wrong_alone_and_together() {
    let regions_differ = |evaluated: &Evaluated, transfer: Transfer| {
        let region = |node: usize| evaluated.plan.nodes.get(node).map(|node| node.region);
        region(transfer.accessed) != region(transfer.owned)
    };
    let counts = tally(judged().map(|(evaluated, transfer, _)| {
        let missing = |node: usize| node >= evaluated.plan.nodes.len();
        [
            missing(transfer.accessed),
            missing(transfer.owned),
            regions_differ(evaluated, transfer),
            transfer.price > limit::PRICE,
        ]
    }));
    println!("accessed, owned, regions, price: {counts:?}");
    for price in [false, true] {
        // A node that is missing differs in region from one that is there, but not from another that is missing.
        must_be_often(&counts, [true, false].map(|owned| [true, owned, !owned, price]));
        must_be_often(&counts, [[false, true, true, price]]);
        must_be_often(&counts, [true, false].map(|regions| [false, false, regions, price]));
    }
    let before = tally(
        transfers()
            .filter(|(inquiry, ..)| inquiry.evaluated.is_err())
            .map(|(_, transfer, charge)| (charge.number() >= 12, transfer.price > limit::PRICE)),
    );
    println!("data set in place of plan refused, price: {before:?}");
    must_be_often(&before, [(false, false), (false, true), (true, false), (true, true)]);
}

/// Where a number is among the nodes, or how it goes past the end.
fn position(number: usize, count: usize) -> &'static str {
    match number {
        0 => "first",
        usize::MAX => "greatest",
        _ if number + 1 == count => "last",
        _ if number < count => "between",
        _ if number == count => "just past the end",
        _ if number < limit::NODES => "below the limit",
        _ if number >> 16 == 0 => "past the limit",
        _ => "of many bits",
    }
}

#[test]
fn nodes_of_every_number_are_charged_for() {
    for number in [|transfer: Transfer| transfer.accessed, |transfer: Transfer| transfer.owned] {
        let counts = tally(
            judged().map(|(evaluated, transfer, _)| position(number(transfer), evaluated.plan.nodes.len())),
        );
        println!("{counts:?}");
        must_be_often(&counts, ["first", "last", "between"]);
        let beyond = ["just past the end", "below the limit", "past the limit", "of many bits", "greatest"];
        must_be_often(&counts, beyond);
    }
    let same = tally(bills().map(|(_, transfer, _)| transfer.accessed == transfer.owned));
    println!("a node against itself {same:?}");
    must_be_often(&same, [false, true]);
}

#[test]
fn every_price_is_charged_or_refused() {
    let prices = tally(judged().map(|(_, transfer, charge)| (transfer.price, charge.number())));
    must_be_often(&prices, ADMITTED.map(|price| (price, 0)));
    must_be_often(&prices, TOO_HIGH.map(|price| (price, 17)));
    let others = tally(bills().map(|(_, transfer, _)| match transfer.price {
        price if ADMITTED.contains(&price) => "at an edge",
        0..1_000 => "below a thousand",
        1_000..100_000 => "middling",
        _ => "high",
    }));
    println!("{others:?}");
    must_be_often(&others, ["at an edge", "below a thousand", "middling", "high"]);
}

#[test]
fn charges_are_nothing_small_and_large() {
    let counts = tally(bills().map(|(_, _, bill)| match bill.count {
        0 => "0",
        1 => "1",
        2..256 => "a byte",
        256..1_000 => "below a thousand",
        1_000..4_096 => "thousands",
        4_096..8_192 => "many thousands",
        _ => "all",
    }));
    println!("counts {counts:?}");
    must_be_often(&counts, ["0", "1", "a byte", "below a thousand", "thousands", "many thousands"]);
    assert!(counts.contains_key("all"), "{counts:?}");
    let costs = tally(bills().map(|(.., bill)| (bill.count > 0, bill.cents > 0, bill.remainder > 0)));
    println!("count, cents, remainder {costs:?}");
    must_be_often(&costs, [false, true].map(|cents| (true, cents, true)));
    must_be_often(&costs, [(false, false, false), (true, true, false), (true, false, false)]);
    // Something is accessed, in more pieces than one, and all of it is owned.
    let accessed = |evaluated: &Evaluated, node: usize| {
        let in_piece =
            |&piece: &usize| evaluated.members(node, piece).is_some_and(|mut all| all.next().is_some());
        (0..evaluated.data.pieces).filter(in_piece).count()
    };
    let contained =
        bills().filter(|(_, transfer, bill)| bill.count == 0 && transfer.accessed != transfer.owned);
    let counts =
        tally(contained.map(|(evaluated, transfer, _)| accessed(evaluated, transfer.accessed).min(2)));
    println!("pieces with elements, all of them owned {counts:?}");
    must_be_often(&counts, 0..=2);
}

#[test]
fn every_flaw_is_noticed_often() {
    for flaw in [&Flaw::CHARGE[..], &Flaw::CHARGING].concat() {
        let flawed = Reference::flawed(flaw);
        let differs = |(inquiry, transfer, charge): &(&Inquiry, Transfer, Charge)| {
            inquiry.charged_by(flawed, *transfer) != *charge
        };
        let count = transfers().filter(differs).count();
        println!("{flaw:?}: {count}");
        assert!(count >= OFTEN, "{flaw:?} is noticed too seldom: {count}");
    }
}

/// The words that a version leaves.
fn words_by(version: &Version, inquiry: &Inquiry, evaluated: &Evaluated) -> Vec<u64> {
    let mut words = vec![!0; evaluated.plan.nodes.len() * evaluated.data.pieces * PIECE_WORDS];
    assert!((version.evaluate)(&inquiry.plan, &inquiry.data, &mut words).is_accepted());
    words
}

/// What the audit says of all that is charged for in the run as the caller does it, over a version's words.
fn audits(
    version: &'static Version,
    charge: impl Fn(&Inquiry, Transfer) -> Charge + Copy + 'static,
) -> impl Iterator<Item = Result<(), Mistake>> {
    run().iter().flat_map(move |(inquiry, _)| {
        let evaluated = inquiry.evaluated.as_ref().ok();
        let words = evaluated.map_or(Vec::new(), |evaluated| words_by(version, inquiry, evaluated));
        inquiry.transfers.iter().filter_map(move |&transfer| {
            let bill = bill(charge(inquiry, transfer))?;
            evaluated.map(|evaluated| evaluated.audit(&words, transfer, bill))
        })
    })
}

#[test]
fn what_every_version_charges_stands_the_audit() {
    let count = bills().count();
    let by_reference = |inquiry: &Inquiry, transfer| inquiry.charged_by(Reference::default(), transfer);
    assert_eq!(tally(audits(&Version::REFERENCE, by_reference)), [(Ok(()), count)].into());
    for version in &Version::ALL[1..] {
        let by_version =
            |inquiry: &Inquiry, transfer| (version.charge)(&inquiry.plan, &inquiry.data, transfer);
        assert_eq!(tally(audits(version, by_version)), [(Ok(()), count)].into());
    }
    println!("{count} bills of each version are right");
}

#[test]
fn every_flaw_of_the_charge_is_noticed_often_by_the_audit() {
    for flaw in Flaw::CHARGE {
        let by_flawed =
            move |inquiry: &Inquiry, transfer| inquiry.charged_by(Reference::flawed(flaw), transfer);
        let mistakes = audits(&Version::OPTIMISED, by_flawed).filter(Result::is_err);
        let count = mistakes.take(OFTEN).count();
        assert_eq!(count, OFTEN, "{flaw:?} is found by the audit too seldom");
    }
}

//! The generator is tested itself, without the verified library: one fixed
//! run must reach every corner of the format and notice every flaw.
#![forbid(unsafe_code)]

use std::sync::OnceLock;

use mavisglen::{Answer, Refusal};
use mavisglen_testing::encode::{node, Plan};
use mavisglen_testing::generate::builder::{form, Form};
use mavisglen_testing::generate::lemma::{only_broken, uses, Miss, LEMMAS};
use mavisglen_testing::generate::{Case, Generator, Origin};
use mavisglen_testing::reference::flaw::{Flaw, Limit};
use mavisglen_testing::reference::{self, Reference};
use mavisglen_testing::tally::tally;

const SEED: u64 = 1;
const CASES: usize = 40_000;
/// What "often" means over the run.
const OFTEN: usize = 50;

/// A case with the reference's answers and final words.
struct Judged {
    case: Case,
    checked: Answer,
    evaluated: Answer,
    words: Vec<u64>,
}

fn run() -> &'static [Judged] {
    static RUN: OnceLock<Vec<Judged>> = OnceLock::new();
    RUN.get_or_init(|| Generator::new(SEED).take(CASES).map(judge).collect())
}

fn judge(case: Case) -> Judged {
    let mut words = case.words.clone();
    let checked = reference::check(&case.plan);
    let evaluated = reference::evaluate(&case.plan, &case.data, &mut words);
    Judged { case, checked, evaluated, words }
}

/// The records of every plan accepted in the run.
fn accepted_plans() -> impl Iterator<Item = Plan> {
    let accepted = run().iter().filter(|judged| judged.checked.is_accepted());
    accepted.map(|judged| Plan::decode(&judged.case.plan).expect("an accepted plan is well framed"))
}

#[test]
fn every_refusal_and_acceptance_is_reached_often() {
    let checks = tally(run().iter().map(|judged| judged.checked.number()));
    let evaluations = tally(run().iter().map(|judged| judged.evaluated.number()));
    println!("checks {checks:?}\nevaluations {evaluations:?}");
    for number in 0..=11 {
        assert!(checks.get(&number) >= Some(&OFTEN), "check gives {number} too seldom: {checks:?}");
    }
    for number in 0..=15 {
        assert!(
            evaluations.get(&number) >= Some(&OFTEN),
            "evaluate gives {number} too seldom: {evaluations:?}"
        );
    }
}

#[test]
fn truncation_and_length_are_reached_in_every_section() {
    let places = |wanted: fn(u64) -> Refusal| {
        (1..=7).all(|section| run().iter().any(|judged| judged.checked == Answer::Refused(wanted(section))))
    };
    assert!(places(Refusal::Truncated));
    assert!(places(Refusal::InvalidLength));
}

#[test]
fn records_are_refused_in_every_section() {
    let places = tally(run().iter().filter_map(|judged| match judged.checked {
        Answer::Refused(Refusal::InvalidRecord(place)) => Some((5, place / 256)),
        Answer::Refused(Refusal::RegionMismatch(place)) => Some((6, place / 256)),
        _ => None,
    }));
    println!("{places:?}");
    for section in 1..=7 {
        assert!(places.contains_key(&(5, section)), "no invalid record in section {section}");
    }
    for section in 4..=6 {
        assert!(places.contains_key(&(6, section)), "no region mismatch in section {section}");
    }
}

#[test]
fn plans_meant_to_be_accepted_are() {
    let meant = |origin: Origin| matches!(origin, Origin::Accepted | Origin::Apart);
    for judged in run().iter().filter(|judged| meant(judged.case.origin)) {
        assert!(judged.checked.is_accepted(), "{:?}", judged.checked);
    }
}

#[test]
fn conflicting_plans_are_refused_for_their_loop() {
    for judged in run().iter().filter(|judged| judged.case.origin == Origin::Conflicting) {
        assert_eq!(judged.checked.number(), 8, "{:?}", judged.checked);
    }
}

/// The cases of the run that a flawed copy checks otherwise.
fn checked_otherwise(flaw: Flaw) -> impl Iterator<Item = usize> {
    let flawed = Reference::flawed(flaw);
    (0..CASES).filter(move |&case| flawed.check(&run()[case].case.plan) != run()[case].checked)
}

/// The rules with most to overlook: what statements of each kind are, that of loops, and lemma 21.
#[test]
fn flaws_of_the_longest_rules_are_noticed_often() {
    for flaw in [&Flaw::KINDS[..], &Flaw::PARALLELIZABLE, &Flaw::PRIVATE_PART].concat() {
        let often = checked_otherwise(flaw).nth(OFTEN - 1);
        println!("{flaw:?}: {OFTEN} times by case {often:?}");
        assert!(often.is_some(), "{flaw:?} is noticed too seldom");
    }
}

#[test]
fn many_plans_are_accepted_only_by_their_fields() {
    let by_region = Reference::flawed(Flaw::FieldIgnored);
    let refused = |judged: &&Judged| !by_region.check(&judged.case.plan).is_accepted();
    let accepted = run().iter().filter(|judged| judged.checked.is_accepted());
    let (all, by_fields) = (accepted.clone().count(), accepted.filter(refused).count());
    println!("{by_fields} of {all} accepted");
    assert!(by_fields >= all / 20, "{by_fields} of {all}");
}

#[test]
fn every_lemma_is_used_often_in_accepted_plans() {
    let lemmas = tally(accepted_plans().flat_map(|plan| plan.steps.into_iter().map(|step| step[0])));
    println!("{lemmas:?}");
    for lemma in 1..=LEMMAS {
        assert!(lemmas.get(&lemma) >= Some(&OFTEN), "lemma {lemma} is used too seldom: {lemmas:?}");
    }
}

#[test]
fn disjointness_by_every_lemma_is_used_often_by_every_other() {
    let premises = |plan: Plan| {
        let premise = |&[lemma, _, _, p, _]: &[u8; 5]| (lemma, plan.steps[usize::from(p)][0]);
        plan.steps.iter().map(premise).collect::<Vec<_>>()
    };
    let counts = tally(accepted_plans().flat_map(premises));
    let disjoint: Vec<u8> = (1..=LEMMAS).filter(|&lemma| form(lemma) == Form::Disjoint).collect();
    for &lemma in disjoint.iter().filter(|&&lemma| uses(lemma)[1]) {
        for &premise in &disjoint {
            let count = counts.get(&(lemma, premise));
            println!("{lemma} by {premise}: {count:?}");
            assert!(count >= Some(&OFTEN), "{lemma} by {premise} is too seldom: {count:?}");
        }
    }
}

/// No lemma puts anything inside a difference but what is built from it,
/// so no need is ever met by one: it is assigned in refused plans only.
#[test]
fn every_operator_is_assigned_to_symbols() {
    let kinds_of = |plan: Plan| {
        let kind = move |assigned: [u8; 1]| plan.nodes[usize::from(assigned[0])][0];
        plan.assignments.clone().into_iter().map(kind)
    };
    let kinds = tally(accepted_plans().flat_map(kinds_of));
    println!("{kinds:?}");
    for kind in [node::SUPPLIED, node::EQUAL, node::UNION, node::INTERSECTION, node::IMAGE, node::PREIMAGE] {
        assert!(kinds.get(&kind) >= Some(&OFTEN), "operator {kind} is assigned too seldom: {kinds:?}");
    }
    let unmet = run().iter().filter(|judged| match judged.checked {
        Answer::Refused(Refusal::UnmetNeed(symbol)) => {
            let plan = Plan::decode(&judged.case.plan).expect("the plan was read");
            let [assigned] = plan.assignments[symbol as usize];
            plan.nodes[usize::from(assigned)][0] == node::DIFFERENCE
        }
        _ => false,
    });
    assert!(unmet.count() >= OFTEN / 4, "differences are assigned too seldom");
}

#[test]
fn every_operator_is_evaluated_often() {
    let evaluated = run().iter().filter(|judged| judged.evaluated.is_accepted());
    let plans =
        evaluated.map(|judged| Plan::decode(&judged.case.plan).expect("an accepted plan is well framed"));
    let kinds = tally(plans.flat_map(|plan| plan.nodes.into_iter().map(|record| record[0])));
    println!("{kinds:?}");
    for kind in node::SUPPLIED..=node::PREIMAGE {
        assert!(kinds.get(&kind) >= Some(&OFTEN), "operator {kind} is evaluated too seldom: {kinds:?}");
    }
}

/// Every near miss of a lemma in the run, with its plan but for the last step, and that step.
fn near_misses() -> impl Iterator<Item = (Miss, Plan, [u8; 5])> {
    run().iter().filter_map(|judged| {
        let Origin::Lemma(miss) = judged.case.origin else { return None };
        let mut plan = Plan::decode(&judged.case.plan).expect("a near miss is well framed");
        let last = plan.steps.pop().expect("a near miss has its step");
        assert_eq!(judged.checked, Answer::Refused(Refusal::UnlicensedStep(plan.steps.len() as u64)));
        Some((miss, plan, last))
    })
}

#[test]
fn every_requirement_of_every_lemma_is_broken_alone() {
    for (miss, plan, last) in near_misses() {
        match miss {
            Miss::Requirement { lemma, number } => {
                assert_eq!((last[0], only_broken(&plan, last)), (lemma, Some(number)));
            }
            Miss::PrivatePart(_) => assert_eq!(last[0], 21),
        }
        assert!(reference::check(&plan.encode()).is_accepted(), "without that step it is accepted");
    }
    let counts = tally(near_misses().map(|(miss, ..)| miss));
    println!("{counts:?}");
    for miss in Miss::all() {
        assert!(counts.get(&miss) >= Some(&OFTEN), "{miss:?} is too seldom");
    }
}

/// The refusal of one more than the limit admits.
fn refusal_past(limit: Limit) -> u8 {
    match limit {
        Limit::Fields | Limit::Variables => 5,
        Limit::Pieces | Limit::Size => 12,
        _ => 4,
    }
}

#[test]
fn every_limit_is_reached_and_passed() {
    for limit in Limit::ALL {
        let of = |origin: Origin| run().iter().filter(move |judged| judged.case.origin == origin);
        let at: Vec<u8> = of(Origin::AtLimit(limit)).map(|judged| judged.evaluated.number()).collect();
        assert!(at.len() >= OFTEN, "{limit:?} is reached too seldom");
        assert!(of(Origin::AtLimit(limit)).all(|judged| judged.checked.is_accepted()), "{limit:?}");
        assert!(at.contains(&0), "{limit:?} is never evaluated at its limit");
        let past: Vec<u8> = of(Origin::PastLimit(limit)).map(|judged| judged.evaluated.number()).collect();
        assert!(past.len() >= OFTEN, "{limit:?} is passed too seldom");
        assert!(past.iter().all(|&number| number == refusal_past(limit)), "{limit:?}: {past:?}");
    }
}

/// Whether a flawed copy differs from the reference on a case.
fn differs(flawed: Reference, judged: &Judged) -> bool {
    let Judged { case, checked, evaluated, words } = judged;
    if flawed.check(&case.plan) != *checked {
        return true;
    }
    let mut flawed_words = case.words.clone();
    flawed.evaluate(&case.plan, &case.data, &mut flawed_words) != *evaluated || flawed_words != *words
}

#[test]
fn every_flaw_is_noticed() {
    let first_notice = |flaw: Flaw| run().iter().position(|judged| differs(Reference::flawed(flaw), judged));
    let notices: Vec<(Flaw, Option<usize>)> =
        Flaw::all().into_iter().map(|flaw| (flaw, first_notice(flaw))).collect();
    notices.iter().for_each(|(flaw, case)| println!("{flaw:?}: {case:?}"));
    let unnoticed: Vec<Flaw> =
        notices.iter().filter(|notice| notice.1.is_none()).map(|notice| notice.0).collect();
    assert!(unnoticed.is_empty(), "{} of {} flaws unnoticed: {unnoticed:?}", unnoticed.len(), notices.len());
}

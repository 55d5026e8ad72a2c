//! The direct test of the promise must itself notice broken words.
#![forbid(unsafe_code)]

use mavisglen_testing::encode::{Plan, PIECE_WORDS};
use mavisglen_testing::generate::{Case, Generator};
use mavisglen_testing::reference::flaw::Flaw;
use mavisglen_testing::reference::promise::{test_promise, Broken};
use mavisglen_testing::reference::Reference;

const CASES: usize = 8_000;

/// Accepted evaluations of plans with loops, with their final words.
fn evaluations() -> impl Iterator<Item = (Case, Plan, Vec<u64>)> {
    evaluations_by(Reference::default())
}

fn evaluations_by(reference: Reference) -> impl Iterator<Item = (Case, Plan, Vec<u64>)> {
    Generator::new(3).take(CASES).filter_map(move |case| {
        let mut words = case.words.clone();
        let accepted = reference.evaluate(&case.plan, &case.data, &mut words).is_accepted();
        let plan = Plan::decode(&case.plan)?;
        (accepted && !plan.assignments.is_empty()).then_some((case, plan, words))
    })
}

/// The final words of a symbol's node.
fn words_of<'a>(case: &Case, plan: &Plan, symbol: usize, words: &'a mut [u64]) -> &'a mut [u64] {
    let length = usize::from(case.data[3]) * PIECE_WORDS;
    let start = usize::from(plan.assignments[symbol][0]) * length;
    &mut words[start..start + length]
}

#[test]
fn the_final_words_keep_the_promise() {
    for (case, _, words) in evaluations() {
        assert_eq!(test_promise(&case.plan, &case.data, &words), Ok(()));
    }
}

#[test]
fn a_lost_iteration_is_noticed() {
    let mut noticed = 0;
    for (case, plan, mut words) in evaluations() {
        let owners = words_of(&case, &plan, 0, &mut words);
        let had_elements = owners.iter().any(|&word| word != 0);
        owners.fill(0);
        let outcome = test_promise(&case.plan, &case.data, &words);
        if had_elements {
            assert_eq!(outcome, Err(Broken::LostIteration { symbol: 0, iteration: 0 }));
            noticed += 1;
        }
    }
    assert!(noticed > 100, "{noticed}");
}

#[test]
fn missing_elements_and_repeated_iterations_are_noticed() {
    let (mut missing, mut repeated) = (0, 0);
    for (case, plan, words) in evaluations() {
        for symbol in 0..plan.assignments.len() {
            let mut emptied = words.clone();
            words_of(&case, &plan, symbol, &mut emptied).fill(0);
            let mut filled = words.clone();
            words_of(&case, &plan, symbol, &mut filled).fill(!0);
            let outcomes = [emptied, filled].map(|words| test_promise(&case.plan, &case.data, &words));
            missing += usize::from(matches!(outcomes[0], Err(Broken::MissingElement { .. })));
            repeated += usize::from(matches!(outcomes[1], Err(Broken::RepeatedIteration { .. })));
        }
    }
    assert!(missing > 100 && repeated > 100, "{missing} {repeated}");
}

/// A copy whose rule admits every loop still fills the right words: it breaks the promise by its loops alone.
#[test]
fn disturbed_iterations_are_noticed() {
    let flawed = Reference::flawed(Flaw::EveryVariableCentered);
    let mut noticed = 0;
    for (case, _, words) in evaluations_by(flawed) {
        match flawed.test_promise(&case.plan, &case.data, &words) {
            Ok(()) => {}
            Err(Broken::Disturbed(_)) => noticed += 1,
            Err(broken) => panic!("{broken:?}"),
        }
    }
    assert!(noticed > 100, "{noticed}");
}

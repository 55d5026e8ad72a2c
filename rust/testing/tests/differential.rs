//! The verified library against the reference. MAVISGLEN_CASES sets the
//! number of random cases, and of random plans to explain and to charge
//! for, and MAVISGLEN_SEED the run.
#![forbid(unsafe_code)]

mod common;

use common::{loops_are_judged_by_touches, Compared};
use mavisglen_testing::reference::promise::test_promise;
use mavisglen_testing::version::Version;

const DEFAULT_CASES: u64 = 250_000;
/// Each with several requests.
const DEFAULT_INQUIRIES: u64 = 100_000;
const LIBRARY: Compared = Compared(Version::LIBRARY);

/// Answers and words are the reference's. Every accepted evaluation keeps
/// the promise, and every loop is refused or admitted as its iterations
/// disturb each other or not: both tested directly from what loops touch.
#[test]
fn random_cases_agree_and_keep_the_promise() {
    let (mut accepted, mut not_parallelizable) = (0, 0);
    LIBRARY.agrees_on_random_cases(DEFAULT_CASES, |case, answer, words| {
        loops_are_judged_by_touches(&case.plan, answer);
        not_parallelizable += usize::from(answer.number() == 8);
        if answer.is_accepted() {
            accepted += 1;
            assert_eq!(test_promise(&case.plan, &case.data, words), Ok(()), "{case:?}");
        }
    });
    println!("{accepted} of them accepted, and the promise kept");
    println!("{not_parallelizable} of them refused for a loop that is disturbed");
}

#[test]
fn random_requests_are_answered_alike() {
    LIBRARY.answers_random_requests_alike(DEFAULT_INQUIRIES);
}

#[test]
fn the_filed_examples_are_explained_alike() {
    LIBRARY.explains_the_filed_examples_alike();
}

#[test]
fn the_filed_examples_are_charged_alike() {
    LIBRARY.charges_the_filed_examples_alike();
}

#[test]
fn everything_near_the_filed_examples_agrees() {
    LIBRARY.agrees_around_the_filed_examples();
}

#[test]
fn every_three_accesses_agree() {
    LIBRARY.agrees_on_every_three_accesses();
}

#[test]
fn all_targets_are_told_apart() {
    LIBRARY.tells_all_targets_apart();
}

#[test]
fn the_largest_plans_agree() {
    LIBRARY.agrees_on_the_largest_plans();
}

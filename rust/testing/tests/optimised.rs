//! The optimised version against the reference.
#![forbid(unsafe_code)]

mod common;

use common::Compared;
use mavisglen_testing::version::Version;

const DEFAULT_CASES: u64 = 40_000;
const DEFAULT_INQUIRIES: u64 = 20_000;
const OPTIMISED: Compared = Compared(Version::OPTIMISED);

#[test]
fn random_cases_agree() {
    OPTIMISED.agrees_on_random_cases(DEFAULT_CASES, |_, _, _| {});
}

#[test]
fn random_requests_are_answered_alike() {
    OPTIMISED.answers_random_requests_alike(DEFAULT_INQUIRIES);
}

#[test]
fn the_filed_examples_are_explained_alike() {
    OPTIMISED.explains_the_filed_examples_alike();
}

#[test]
fn the_filed_examples_are_charged_alike() {
    OPTIMISED.charges_the_filed_examples_alike();
}

#[test]
fn everything_near_the_filed_examples_agrees() {
    OPTIMISED.agrees_around_the_filed_examples();
}

#[test]
fn every_three_accesses_agree() {
    OPTIMISED.agrees_on_every_three_accesses();
}

#[test]
fn all_targets_are_told_apart() {
    OPTIMISED.tells_all_targets_apart();
}

#[test]
fn the_largest_plans_agree() {
    OPTIMISED.agrees_on_the_largest_plans();
}

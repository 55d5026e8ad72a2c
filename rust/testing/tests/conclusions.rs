//! What steps conclude, tested on the evaluated sets without the lemmas; and what is private, by its elements.
#![forbid(unsafe_code)]

use std::iter;

use mavisglen_testing::encode::{flag, node, DataSet, Plan, PIECE_WORDS};
use mavisglen_testing::filed::private_part;
use mavisglen_testing::generate::lemma::Miss;
use mavisglen_testing::generate::miss::lemma_near_miss;
use mavisglen_testing::generate::{data, Generator};
use mavisglen_testing::random::Random;
use mavisglen_testing::reference::evaluation::Evaluated;
use mavisglen_testing::reference::flaw::{Aspect, Flaw, Part};
use mavisglen_testing::reference::steps::Fact;
use mavisglen_testing::reference::Reference;
use mavisglen_testing::version::Version;

const SEED: u64 = 9;
const CASES: usize = 8_000;
/// Plans for each near miss of lemma 21, and data sets for each plan.
const PLANS: usize = 100;
const DATA_SETS: usize = 10;
/// Data sets for the private part.
const MAPS: usize = 3_000;

/// Whether what a step concludes is so.
fn holds(evaluated: &Evaluated, fact: Fact) -> bool {
    let pieces = || 0..evaluated.data.pieces;
    let holders = |node, element| pieces().filter(|&piece| evaluated.has(node, piece, element)).count();
    match fact {
        Fact::Contained(x, y) => pieces().all(|piece| {
            let mut members = evaluated.members(x, piece).into_iter().flatten();
            members.all(|element| evaluated.has(y, piece, element))
        }),
        Fact::Disjoint(x) => (0..evaluated.size(x)).all(|element| holders(x, element) <= 1),
        Fact::Complete(x) => (0..evaluated.size(x)).all(|element| holders(x, element) >= 1),
    }
}

/// Whether all is so that the steps of a plan conclude.
fn all_hold(evaluated: &Evaluated) -> bool {
    evaluated.plan.steps.iter().all(|&fact| holds(evaluated, fact))
}

#[test]
fn what_accepted_steps_conclude_holds() {
    let reference = Reference::default();
    let mut conclusions = 0;
    for case in Generator::new(SEED).take(CASES) {
        let accepted = reference.checked_plan(&case.plan);
        let Ok(evaluated) = accepted.and_then(|plan| reference.evaluated(plan, &case.data)) else { continue };
        assert!(all_hold(&evaluated), "{case:?}");
        conclusions += evaluated.plan.steps.len();
    }
    println!("{conclusions} conclusions hold");
    assert!(conclusions > CASES);
}

/// A few pieces of few elements, so that pieces meet.
fn small_data(random: &mut Random, plan: &Plan) -> DataSet {
    let pieces = random.within(2..=3) as u8;
    let sizes = plan.regions.iter().map(|_| random.within(2..=6) as u16).collect();
    data::filled(random, plan, pieces, sizes)
}

/// Near misses of lemma 21, each with its data sets.
fn near_misses() -> Vec<(Vec<u8>, Vec<Vec<u8>>)> {
    let mut random = Random::new(SEED);
    let of_lemma_21 = |miss: &Miss| !matches!(miss, Miss::Requirement { lemma: 1..=20, .. });
    let mut near_misses = Vec::new();
    for miss in Miss::all().into_iter().filter(of_lemma_21) {
        let tries = iter::repeat_with(|| lemma_near_miss(&mut random, miss));
        for plan in tries.flatten().take(PLANS).collect::<Vec<_>>() {
            let data_sets = (0..DATA_SETS).map(|_| small_data(&mut random, &plan).encode()).collect();
            near_misses.push((plan.encode(), data_sets));
        }
    }
    near_misses
}

/// Flaws of lemma 21 that conclude nothing false all the same: x is then empty, or disjoint because F or what is taken
/// from G is, or less is concluded.
const HARMLESS: [Flaw; 5] = [
    Flaw::PrivatePart(Part::Image, Aspect::First),
    Flaw::PrivatePart(Part::Private, Aspect::Order),
    Flaw::PrivateByDisjoint(Part::Image),
    Flaw::PrivateByDisjoint(Part::Others),
    Flaw::PrivateUnderTotalMapOnly,
];

#[test]
fn every_other_flaw_of_lemma_21_concludes_what_does_not_hold() {
    let near_misses = near_misses();
    for flaw in Flaw::PRIVATE_PART {
        let flawed = Reference::flawed(flaw);
        let is_wrong = |(plan, data_sets): &&(Vec<u8>, Vec<Vec<u8>>)| {
            let Ok(plan) = flawed.checked_plan(plan) else { return false };
            let evaluated = |data| flawed.evaluated(plan.clone(), data).expect("the data set fits");
            data_sets.iter().any(|data| !all_hold(&evaluated(data)))
        };
        let count = near_misses.iter().filter(is_wrong).count();
        println!("{flaw:?}: {count} of {}", near_misses.len());
        assert_eq!(count > 0, !HARMLESS.contains(&flaw), "{flaw:?}: {count}");
    }
}

const IMAGE: usize = 1;
const PRIVATE: usize = 5;

/// A supplied disjoint partition, its image under a map, and what is private of that.
fn plan_of_private_part(map: [u8; 3]) -> Plan {
    Plan {
        regions: vec![[1], [1]],
        maps: vec![map],
        supplied: vec![[0, flag::DISJOINT]],
        nodes: [&[[node::SUPPLIED, 0, 0, 0]][..], &private_part(0)].concat(),
        steps: vec![[3, 0, 0, 0, 0], [21, PRIVATE as u8, 0, 0, 0]],
        ..Plan::default()
    }
}

/// Tests that the private part's pieces have just those elements of the image's that no element outside the supplied
/// piece leads to, and that no two of them share one. Counts the private elements, and the others of the image.
fn test_private_part(plan: &Plan, data: &DataSet, words: &[u64]) -> [usize; 2] {
    let pieces = usize::from(data.pieces);
    let has = |node, piece, element| words[(node * pieces + piece) * PIECE_WORDS] >> element & 1 == 1;
    let mut counts = [0, 0];
    for element in 0..usize::from(data.sizes[usize::from(plan.maps[0][1])]) {
        let leads = |source: &usize| usize::from(data.maps[0][*source]) == element;
        let is_led_to_within = |piece: usize| {
            let supplied = &data.supplied[0][piece];
            (0..supplied.len()).filter(leads).all(|source| supplied[source])
        };
        for piece in (0..pieces).filter(|&piece| has(IMAGE, piece, element)) {
            counts[usize::from(!is_led_to_within(piece))] += 1;
        }
        let private = |piece: usize| has(IMAGE, piece, element) && is_led_to_within(piece);
        assert!(
            (0..pieces).all(|piece| has(PRIVATE, piece, element) == private(piece)),
            "{element} {data:?}"
        );
        assert!((0..pieces).filter(|&piece| private(piece)).count() <= 1, "{element} {data:?}");
    }
    counts
}

#[test]
fn private_is_what_no_element_outside_the_piece_leads_to() {
    let mut random = Random::new(SEED);
    let (mut private, mut shared) = (0, 0);
    for _ in 0..MAPS {
        let plan = plan_of_private_part([0, random.below(2) as u8, random.below(2) as u8]);
        let data = small_data(&mut random, &plan);
        for version in Version::ALL {
            let mut words = vec![!0; plan.nodes.len() * usize::from(data.pieces) * PIECE_WORDS];
            assert!((version.evaluate)(&plan.encode(), &data.encode(), &mut words).is_accepted());
            let counts = test_private_part(&plan, &data, &words);
            (private, shared) = (private + counts[0], shared + counts[1]);
        }
    }
    println!("{private} elements are private, {shared} are not");
    assert!(private > MAPS && shared > MAPS);
}

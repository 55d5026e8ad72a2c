//! The parallelizable rule against its meaning, what iterations touch; and the direct test of that must itself notice
//! what disturbs an iteration.
#![forbid(unsafe_code)]

use std::sync::OnceLock;

use mavisglen_testing::encode::{statement, DataSet, Plan, NONE};
use mavisglen_testing::generate::{Case, Generator};
use mavisglen_testing::meaning::Meaning;
use mavisglen_testing::reference::flaw::Flaw;
use mavisglen_testing::reference::undisturbed::test_loop;
use mavisglen_testing::reference::{self, Reference};

const SEED: u64 = 5;
const CASES: usize = 40_000;
/// What "often" means over the run.
const OFTEN: usize = 50;

/// The cases whose loops are read, whatever comes after.
fn run() -> &'static [(Case, Meaning)] {
    static RUN: OnceLock<Vec<(Case, Meaning)>> = OnceLock::new();
    let read = |case: Case| Meaning::of(&case.plan).map(|meaning| (case, meaning));
    RUN.get_or_init(|| Generator::new(SEED).take(CASES).filter_map(read).collect())
}

#[test]
fn a_loop_is_refused_where_its_iterations_disturb_each_other() {
    let mut refused = 0;
    for (case, meaning) in run() {
        let judgement = Reference::default().judge_loops(&meaning.plan);
        assert_eq!(judgement, meaning.judgement(), "{case:?}");
        refused += usize::from(judgement.is_err());
    }
    println!("{} plans read, {refused} of them refused for a loop", run().len());
    assert!(refused >= OFTEN);
}

#[test]
fn what_one_data_set_leaves_undisturbed_no_other_disturbs() {
    let test = |(case, meaning): &(Case, Meaning)| match meaning.test_over(&case.data) {
        Ok(loops) => loops,
        Err(disturbance) => panic!("{disturbance:?} {case:?}"),
    };
    let loops: usize = run().iter().map(test).sum();
    println!("{loops} loops are undisturbed over their own data");
    assert!(loops >= OFTEN);
}

/// Touches say which loops are refused, not when: flaws in that are not among these.
#[test]
fn every_flaw_of_the_rule_is_noticed_by_touches() {
    for flaw in Flaw::PARALLELIZABLE {
        let flawed = Reference::flawed(flaw);
        let misjudged =
            |(_, meaning): &&(Case, Meaning)| flawed.judge_loops(&meaning.plan) != meaning.judgement();
        let count = run().iter().filter(misjudged).count();
        println!("{flaw:?}: {count}");
        assert!(count >= OFTEN, "{flaw:?} is noticed too seldom: {count}");
    }
}

type Statement = [u8; 4];
/// An iteration and the symbol of an access.
type Named = (usize, usize);

const ALL_TO_FIRST: [u16; 3] = [0, 0, 0];

/// A loop over region 0 in which variable 1 points into the region and 2 into another, and these statements.
fn plan_of(statements: &[Statement]) -> Plan {
    let variables = [[statement::FOR, 0, 0, 0], [statement::CALL, 0, 0, 0], [statement::CALL, 1, 0, 0]];
    Plan {
        regions: vec![[2], [2]],
        maps: vec![[0, 0, 0], [0, 1, 0]],
        statements: [&variables, statements].concat(),
        ..Plan::default()
    }
}

/// Three elements in each region, and these entries of both maps.
fn data_of(entries: [u16; 3]) -> DataSet {
    DataSet { pieces: 1, sizes: vec![3; 2], maps: vec![entries.to_vec(); 2], supplied: vec![] }
}

fn read_plan_of(statements: &[Statement]) -> reference::plan::Plan {
    Reference::default().read_loops(&plan_of(statements).encode()).expect("the statements are right")
}

/// The two touches of which one disturbs the other, if any are.
fn disturbed(statements: &[Statement], entries: [u16; 3]) -> Option<[Named; 2]> {
    let plan = read_plan_of(statements);
    let data =
        Reference::default().read_data(&plan, &data_of(entries).encode(), 0).expect("the data set fits");
    let disturbance = plan.loops.iter().find_map(|current| test_loop(current, &data).err())?;
    Some([disturbance.one, disturbance.other].map(|touch| (touch.iteration, touch.access.symbol)))
}

fn is_refused(statements: &[Statement]) -> bool {
    Reference::default().judge_loops(&read_plan_of(statements)).is_err()
}

fn load(variable: u8, field: u8) -> Statement {
    [statement::LOAD, 0, variable, field]
}

fn call(variable: u8) -> Statement {
    [statement::CALL, 0, variable, 0]
}

fn copy(variable: u8) -> Statement {
    [statement::COPY, variable, 0, 0]
}

fn read(variable: u8, field: u8) -> Statement {
    [statement::READ, variable, field, 0]
}

fn write(variable: u8, field: u8) -> Statement {
    [statement::WRITE, variable, field, 0]
}

fn reduce(variable: u8, field: u8, operator: u8) -> Statement {
    [statement::REDUCE, variable, field, operator]
}

#[test]
fn whatever_disturbs_an_iteration_is_noticed() {
    let loops: [(&[Statement], [Named; 2]); 13] = [
        (&[write(1, 0)], [(0, 1), (1, 1)]),
        (&[write(2, 1)], [(0, 1), (1, 1)]),
        (&[load(0, 1), copy(3), write(4, 0)], [(0, 2), (1, 2)]),
        (&[write(0, 0), write(1, 0)], [(0, 1), (1, 2)]),
        (&[write(0, 0), reduce(1, 0, 0)], [(0, 1), (1, 2)]),
        (&[read(1, 0), write(0, 0)], [(0, 2), (1, 1)]),
        (&[load(1, 0), write(0, 0)], [(0, 2), (1, 1)]),
        (&[read(1, 0), reduce(0, 0, 0)], [(0, 2), (1, 1)]),
        (&[load(1, 0), reduce(0, 0, 0)], [(0, 2), (1, 1)]),
        (&[reduce(0, 0, 0), reduce(1, 0, 0)], [(0, 1), (1, 2)]),
        (&[reduce(1, 0, 0), reduce(1, 0, 1)], [(0, 1), (0, 2)]),
        (&[reduce(2, 0, 0), read(2, 0)], [(0, 1), (0, 2)]),
        (&[read(0, 0), reduce(1, 0, 0)], [(0, 2), (0, 1)]),
    ];
    for (statements, touches) in loops {
        assert_eq!(disturbed(statements, ALL_TO_FIRST), Some(touches), "{statements:?}");
        assert!(is_refused(statements), "{statements:?}");
    }
}

#[test]
fn what_disturbs_no_iteration_is_not_noticed() {
    let loops: [&[Statement]; 10] = [
        // Another field, another region, another loop.
        &[read(1, 1), load(1, 1), write(0, 0)],
        &[reduce(1, 0, 0), reduce(1, 1, 1), read(2, 1)],
        &[read(2, 0), write(0, 0)],
        &[reduce(2, 0, 0), write(0, 0)],
        &[read(1, 0), [statement::FOR, 0, 0, 0], write(0, 0)],
        // The iteration's own element.
        &[copy(0), write(3, 0), read(0, 0), load(3, 0), reduce(0, 0, 0), reduce(3, 0, 1)],
        // Reads alone, and reductions with one operator alone.
        &[read(0, 0), read(1, 0), load(1, 0)],
        &[reduce(1, 0, 3), copy(1), reduce(3, 0, 3)],
        // CALL and COPY touch nothing.
        &[write(0, 0), call(1), copy(1)],
        &[reduce(1, 0, 0), call(0), copy(0)],
    ];
    for statements in loops {
        for entries in [ALL_TO_FIRST, [1, 2, 0], [2, NONE, 2]] {
            assert_eq!(disturbed(statements, entries), None, "{statements:?} {entries:?}");
        }
        assert!(!is_refused(statements), "{statements:?}");
    }
}

/// It is said of touches: where pointers do not meet, a loop is undisturbed although the rule refuses it.
#[test]
fn pointers_that_do_not_meet_disturb_nothing() {
    let loops: [(&[Statement], [u16; 3]); 6] = [
        (&[write(1, 0)], [1, 2, 0]),
        (&[write(1, 0)], [NONE, 1, NONE]),
        (&[write(2, 0), read(2, 0)], [2, 0, NONE]),
        (&[write(0, 0), read(1, 0)], [0, 1, 2]),
        (&[reduce(0, 0, 0), read(1, 0)], [NONE, 1, NONE]),
        (&[write(1, 0), load(1, 0)], [2, NONE, 0]),
    ];
    for (statements, entries) in loops {
        assert_eq!(disturbed(statements, entries), None, "{statements:?}");
        assert!(disturbed(statements, ALL_TO_FIRST).is_some() && is_refused(statements), "{statements:?}");
    }
}

#[test]
fn a_reduction_through_a_pointer_is_disturbed_even_by_its_own_iteration() {
    let reduction = reduce(1, 0, 0);
    for other in [read(0, 0), load(0, 0), write(0, 0), reduce(0, 0, 0), reduce(1, 0, 1)] {
        for accesses in [[reduction, other], [other, reduction]] {
            assert!(disturbed(&accesses, [0, NONE, NONE]).is_some(), "{accesses:?}");
        }
    }
}

//! The filed examples, private parts, and loops judged by region and field, for every version there is.
#![forbid(unsafe_code)]

use mavisglen::{Answer, Refusal, LONGEST_CHAIN, MOST_WORDS};
use mavisglen_testing::encode::{flag, limit, node, statement, DataSet, Plan, NONE, PIECE_WORDS};
use mavisglen_testing::filed::{data_d, plan_a, plan_b, plan_with_private_part, private_part};
use mavisglen_testing::version::Version;

fn gives(plan: &[u8], answer: Answer) {
    for version in Version::ALL {
        assert_eq!((version.check)(plan), answer);
    }
}

/// The first word of each piece of an accepted plan's node.
fn first_words(plan: &Plan, data: &DataSet, node: usize) -> Vec<u64> {
    let pieces = usize::from(data.pieces);
    let mut found = Version::ALL.iter().map(|version| {
        let mut words = vec![!0; plan.nodes.len() * pieces * 8];
        assert_eq!((version.evaluate)(&plan.encode(), &data.encode(), &mut words).number(), 0);
        (0..pieces).map(|piece| words[(node * pieces + piece) * 8]).collect()
    });
    let first = found.next().expect("there is a version");
    assert!(found.all(|other| other == first));
    first
}

#[test]
fn plan_a_and_data_d_have_their_filed_bytes() {
    let plan = "01 0002 02 01 0003 00 01 01 0000 0010 00000000 01000000 04010000 06000100 \
                0008 01000000 05000000 0004 00 00 01 00 000F 0200000000 0500000000 0501010000";
    assert_eq!(plan_a().encode(), bytes(plan));
    let data = "01 0001 02 0004 0005 0003 000A 0000 0000 0002 0001 0002 0000";
    assert_eq!(data_d().encode(), bytes(data));
}

fn bytes(hexadecimal: &str) -> Vec<u8> {
    let digits: Vec<u32> = hexadecimal.chars().filter_map(|digit| digit.to_digit(16)).collect();
    digits.chunks(2).map(|pair| (pair[0] * 16 + pair[1]) as u8).collect()
}

#[test]
fn lengths_that_are_enough_are_those_of_the_largest_plan() {
    assert_eq!(MOST_WORDS, limit::NODES * limit::PIECES * PIECE_WORDS);
    assert_eq!(LONGEST_CHAIN, limit::NODES);
}

#[test]
fn accepted_plans_give_their_counts() {
    gives(&plan_a().encode(), Answer::Accepted { symbols: 4, nodes: 2, steps: 3 });
    gives(&plan_b().encode(), Answer::Accepted { symbols: 4, nodes: 3, steps: 4 });
}

#[test]
fn refused_plans_give_number_and_place() {
    gives(&[], Refusal::Truncated(0).into());
    let mut plan = plan_a();
    plan.steps.remove(0);
    gives(&plan.encode(), Refusal::UnmetNeed(0).into());
    let mut plan = plan_a();
    plan.statements[2][0] = statement::WRITE;
    gives(&plan.encode(), Refusal::NotParallelizable(0).into());
    let mut bytes = plan_a().encode();
    bytes.push(0);
    gives(&bytes, Refusal::TrailingBytes(63).into());
    let mut plan = plan_b();
    plan.maps[0][2] = 0;
    gives(&plan.encode(), Refusal::UnlicensedStep(1).into());
}

#[test]
fn evaluated_plans_give_their_sets() {
    assert_eq!(first_words(&plan_a(), &data_d(), 0), [0b00111, 0b11000]);
    assert_eq!(first_words(&plan_a(), &data_d(), 1), [0b101, 0b110]);
    assert_eq!(first_words(&plan_b(), &data_d(), 1), [0b01011, 0b10100]);
}

#[test]
fn equal_of_few_elements_leaves_pieces_empty() {
    let small = |size: u16| DataSet {
        pieces: 3,
        sizes: vec![size, 1],
        maps: vec![vec![0; usize::from(size)]],
        supplied: vec![],
    };
    assert_eq!(first_words(&plan_a(), &small(0), 0), [0, 0, 0]);
    assert_eq!(first_words(&plan_a(), &small(2), 0), [1, 2, 0]);
    assert_eq!(first_words(&plan_a(), &small(7), 0), [0b111, 0b11000, 0b1100000]);
}

/// One region with a map into itself and a supplied disjoint partition.
fn one_region(nodes: Vec<[u8; 4]>, steps: Vec<[u8; 5]>) -> Plan {
    Plan {
        regions: vec![[1]],
        maps: vec![[0, 0, 0]],
        supplied: vec![[0, flag::DISJOINT]],
        nodes,
        steps,
        ..Plan::default()
    }
}

const EQUAL_AND_SUPPLIED: [[u8; 4]; 2] = [[node::EQUAL, 0, 0, 0], [node::SUPPLIED, 0, 0, 0]];

/// Node 2 over the two, both proved disjoint, and a last step about it.
fn last_step_is_refused(record: [u8; 4], step: [u8; 5]) {
    let nodes = [&EQUAL_AND_SUPPLIED[..], &[record]].concat();
    let plan = one_region(nodes, vec![[1, 0, 0, 0, 0], [3, 1, 0, 0, 0], step]);
    gives(&plan.encode(), Refusal::UnlicensedStep(2).into());
}

#[test]
fn a_union_of_disjoint_operands_is_not_disjoint() {
    for premise in [0, 1] {
        last_step_is_refused([node::UNION, 0, 1, 0], [16, 2, 0, premise, 0]);
    }
}

#[test]
fn an_image_of_a_disjoint_operand_is_not_disjoint() {
    last_step_is_refused([node::IMAGE, 0, 0, 0], [18, 2, 0, 0, 0]);
}

#[test]
fn a_difference_is_not_disjoint_by_its_right_operand() {
    last_step_is_refused([node::DIFFERENCE, 0, 1, 0], [17, 2, 0, 1, 0]);
}

#[test]
fn a_preimage_under_a_partial_map_is_not_complete() {
    let nodes = vec![[node::EQUAL, 0, 0, 0], [node::PREIMAGE, 0, 0, 0]];
    let plan = one_region(nodes, vec![[2, 0, 0, 0, 0], [20, 1, 0, 0, 0]]);
    gives(&plan.encode(), Refusal::UnlicensedStep(1).into());
}

#[test]
fn a_private_part_is_evaluated() {
    let mut plan = plan_with_private_part();
    gives(&plan.encode(), Answer::Accepted { symbols: 4, nodes: 6, steps: 5 });
    // 0 and 1 lead to 0, 3 leads to 1; 2 and 4, of both pieces, lead to 2.
    let sets = [
        [0b00111, 0b11000],
        [0b101, 0b110],
        [0b10111, 0b11100],
        [0b10000, 0b00100],
        [0b100, 0b100],
        [0b001, 0b010],
    ];
    for (node, words) in sets.into_iter().enumerate() {
        assert_eq!(first_words(&plan, &data_d(), node), words, "node {node}");
    }
    // Of the pieces {0, 1}, {2, 3} and {4, 5} the first two lead to 0, the last two to 1, and only 4 leads to 2.
    let entries = vec![0, NONE, 0, 1, 2, 1];
    let partial = DataSet { pieces: 3, sizes: vec![6, 4], maps: vec![entries], supplied: vec![] };
    plan.maps[0][2] = 0;
    assert_eq!(first_words(&plan, &partial, 5), [0, 0, 0b100]);
}

/// A region with two maps into itself: node 1, supplied and disjoint, has its private part in nodes 2 to 6.
fn private_part_of_supplied(step: [u8; 5]) -> Plan {
    let nodes = [&EQUAL_AND_SUPPLIED[..], &private_part(1)].concat();
    let steps = vec![[1, 0, 0, 0, 0], [3, 1, 0, 0, 0], [4, 1, 0, 0, 0], [5, 1, 1, 0, 0], step];
    Plan { maps: vec![[0, 0, 0]; 2], supplied: vec![[0, 3]], ..one_region(nodes, steps) }
}

/// Nodes that are not what lemma 21 wants in their places.
const NOT_OF_A_PRIVATE_PART: [(usize, [u8; 4]); 21] = [
    // F: its kind, operand and map.
    (2, [node::PREIMAGE, 1, 0, 0]),
    (2, [node::UNION, 1, 0, 0]),
    (2, [node::IMAGE, 0, 0, 0]),
    (2, [node::IMAGE, 1, 1, 0]),
    // G: likewise.
    (3, [node::IMAGE, 2, 0, 0]),
    (3, [node::PREIMAGE, 0, 0, 0]),
    (3, [node::PREIMAGE, 1, 0, 0]),
    (3, [node::PREIMAGE, 2, 1, 0]),
    // G minus P: its kind, each operand, and their order.
    (4, [node::UNION, 3, 1, 0]),
    (4, [node::INTERSECTION, 3, 1, 0]),
    (4, [node::DIFFERENCE, 2, 1, 0]),
    (4, [node::DIFFERENCE, 3, 0, 0]),
    (4, [node::DIFFERENCE, 1, 3, 0]),
    // The image of that: its kind, operand and map.
    (5, [node::PREIMAGE, 4, 0, 0]),
    (5, [node::IMAGE, 3, 0, 0]),
    (5, [node::IMAGE, 4, 1, 0]),
    // F minus that image: its kind, each operand, and their order.
    (6, [node::UNION, 2, 5, 0]),
    (6, [node::INTERSECTION, 2, 5, 0]),
    (6, [node::DIFFERENCE, 3, 5, 0]),
    (6, [node::DIFFERENCE, 2, 4, 0]),
    (6, [node::DIFFERENCE, 5, 2, 0]),
];

#[test]
fn a_private_part_must_be_built_just_so() {
    let right = private_part_of_supplied([21, 6, 0, 1, 0]);
    gives(&right.encode(), Answer::Accepted { symbols: 0, nodes: 7, steps: 5 });
    for (number, record) in NOT_OF_A_PRIVATE_PART {
        let mut plan = right.clone();
        plan.nodes[number] = record;
        gives(&plan.encode(), Refusal::UnlicensedStep(4).into());
    }
    // x is a node that it is built of, or p is about another node or of another form.
    let parts = (0..6).map(|x| [21, x, 0, 1, 0]);
    let premises = [0, 2, 3].map(|p| [21, 6, 0, p, 0]);
    for step in parts.chain(premises) {
        gives(&private_part_of_supplied(step).encode(), Refusal::UnlicensedStep(4).into());
    }
}

#[test]
fn lemma_21_is_the_last_and_uses_neither_y_nor_q() {
    let invalid = [
        [0, 6, 0, 1, 0],
        [22, 6, 0, 1, 0],
        [21, 7, 0, 1, 0],
        [21, 6, 1, 1, 0],
        [21, 6, 0, 4, 0],
        [21, 6, 0, 1, 1],
    ];
    for step in invalid {
        gives(&private_part_of_supplied(step).encode(), Refusal::InvalidRecord(7 * 256 + 4).into());
    }
}

#[test]
fn completeness_is_not_judged_by_sizes() {
    let plan = Plan { supplied: vec![[0, flag::COMPLETE]], ..one_region(vec![], vec![]) };
    let overlap = vec![vec![true, true, false], vec![false, true, false]];
    let data = DataSet { pieces: 2, sizes: vec![3], maps: vec![vec![0, 1, 2]], supplied: vec![overlap] };
    for version in Version::ALL {
        let answer = (version.evaluate)(&plan.encode(), &data.encode(), &mut []);
        assert_eq!(answer, Refusal::InvalidPartition(0).into());
    }
}

#[test]
fn a_copy_of_the_loop_variable_is_centered() {
    let plan = Plan {
        statements: vec![[statement::FOR, 0, 0, 0], [statement::COPY, 0, 0, 0], [statement::WRITE, 1, 0, 0]],
        assignments: vec![[0], [0]],
        ..one_region(vec![[node::EQUAL, 0, 0, 0]], vec![[2, 0, 0, 0, 0], [5, 0, 0, 0, 0]])
    };
    gives(&plan.encode(), Answer::Accepted { symbols: 2, nodes: 1, steps: 2 });
}

/// 001's figure 1, second loop: for c in Cells: Cells[c].vel += g(Cells[c].acc, Cells[h(c)].acc).
fn figure_1_second_loop() -> Plan {
    const VEL: u8 = 0;
    const ACC: u8 = 1;
    Plan {
        regions: vec![[2]],
        maps: vec![[0, 0, 1]],
        statements: vec![
            [statement::FOR, 0, 0, 0],
            [statement::READ, 0, ACC, 0],
            [statement::CALL, 0, 0, 0],
            [statement::READ, 1, ACC, 0],
            [statement::REDUCE, 0, VEL, 0],
        ],
        nodes: vec![[node::EQUAL, 0, 0, 0], [node::IMAGE, 0, 0, 0]],
        assignments: vec![[0], [0], [1], [0]],
        steps: vec![[2, 0, 0, 0, 0], [5, 0, 0, 0, 0], [5, 1, 1, 0, 0]],
        ..Plan::default()
    }
}

#[test]
fn a_loop_may_read_one_field_and_reduce_another() {
    let mut plan = figure_1_second_loop();
    gives(&plan.encode(), Answer::Accepted { symbols: 4, nodes: 2, steps: 3 });
    plan.statements[4][2] = plan.statements[3][2];
    gives(&plan.encode(), Refusal::NotParallelizable(0).into());
}

/// A loop over region 0 with all that two accesses need: variable 1 points into the region, 2 into another.
fn loop_of_two(accesses: [[u8; 4]; 2]) -> Plan {
    let through = |access: [u8; 4]| if access[0] == statement::LOAD { access[2] } else { access[1] };
    let variables = [[statement::FOR, 0, 0, 0], [statement::CALL, 0, 0, 0], [statement::CALL, 1, 0, 0]];
    Plan {
        regions: vec![[3], [3]],
        maps: vec![[0, 0, 1], [0, 1, 1]],
        statements: [&variables[..], &accesses].concat(),
        nodes: vec![[node::EQUAL, 0, 0, 0], [node::IMAGE, 0, 0, 0], [node::IMAGE, 0, 1, 0]],
        assignments: vec![[0], [through(accesses[0])], [through(accesses[1])]],
        steps: vec![[2, 0, 0, 0, 0], [1, 0, 0, 0, 0], [5, 0, 0, 0, 0], [5, 1, 1, 0, 0], [5, 2, 2, 0, 0]],
        ..Plan::default()
    }
}

fn may_stand_together(accesses: [[u8; 4]; 2]) {
    gives(&loop_of_two(accesses).encode(), Answer::Accepted { symbols: 3, nodes: 3, steps: 5 });
}

fn may_not_stand_together(accesses: [[u8; 4]; 2]) {
    gives(&loop_of_two(accesses).encode(), Refusal::NotParallelizable(0).into());
}

#[test]
fn load_names_its_field_in_its_last_byte() {
    let load = [statement::LOAD, 0, 1, 2];
    may_stand_together([load, [statement::WRITE, 0, 0, 0]]);
    may_stand_together([load, [statement::WRITE, 0, 1, 0]]);
    may_not_stand_together([load, [statement::WRITE, 0, 2, 0]]);
}

#[test]
fn read_names_its_field_after_its_variable() {
    let read = [statement::READ, 1, 2, 0];
    may_stand_together([read, [statement::WRITE, 0, 0, 0]]);
    may_stand_together([read, [statement::WRITE, 0, 1, 0]]);
    may_not_stand_together([read, [statement::WRITE, 0, 2, 0]]);
}

#[test]
fn each_field_may_have_its_operator() {
    let reduce = |field, operator| [statement::REDUCE, 1, field, operator];
    may_stand_together([reduce(0, 1), reduce(1, 2)]);
    may_stand_together([reduce(1, 2), reduce(1, 2)]);
    may_not_stand_together([reduce(1, 1), reduce(1, 2)]);
}

#[test]
fn one_field_number_in_two_regions_is_no_conflict() {
    for [kind, operator] in [[statement::READ, 0], [statement::REDUCE, 3]] {
        let write = [statement::WRITE, 0, 1, 0];
        may_stand_together([[kind, 2, 1, operator], write]);
        may_not_stand_together([[kind, 1, 1, operator], write]);
    }
}

#[test]
fn a_write_must_be_centered_whatever_its_field() {
    may_not_stand_together([[statement::WRITE, 1, 0, 0], [statement::READ, 0, 1, 0]]);
}

#[test]
fn a_reduction_through_a_pointer_needs_disjointness_whatever_its_field() {
    let mut plan = loop_of_two([[statement::REDUCE, 1, 2, 0], [statement::WRITE, 0, 0, 0]]);
    plan.steps.remove(1);
    gives(&plan.encode(), Refusal::UnmetNeed(0).into());
}

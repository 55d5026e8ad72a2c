//! Explanations worked out by hand, of the filed examples and of every operator, for every version there is.
#![forbid(unsafe_code)]

use mavisglen::{Refusal, Written};
use mavisglen_testing::encode::{DataSet, Plan};
use mavisglen_testing::filed::{data_d, every_operator, plan_a, plan_b};
use mavisglen_testing::question::Question;
use mavisglen_testing::version::Version;

/// What a place holds before, which is no node and no element.
const OLD: u16 = 0xABCD;

/// Node, piece and element, then the pairs of the chain.
type Explanation<'a> = ([usize; 3], &'a [(u16, u16)]);

/// Every version gives this answer and leaves the slices of these lengths with these pairs in front.
fn explains(
    (plan, data): (&Plan, &DataSet),
    [node, piece, element]: [usize; 3],
    lent: [usize; 2],
    answer: Written,
    chain: &[(u16, u16)],
) {
    let mut expected = lent.map(|length| vec![OLD; length]);
    for (place, &(node, element)) in chain.iter().enumerate() {
        (expected[0][place], expected[1][place]) = (node, element);
    }
    for version in Version::ALL {
        let [mut nodes, mut elements] = lent.map(|length| vec![OLD; length]);
        let (plan, data) = (plan.encode(), data.encode());
        let question = Question { node, piece, element };
        let given = (version.explain)(&plan, &data, question, &mut nodes, &mut elements);
        assert_eq!(given, answer, "node {node}, piece {piece}, element {element}");
        assert_eq!([nodes, elements], expected, "node {node}, piece {piece}, element {element}");
    }
}

/// Just these elements are explained, by these chains; any other of a piece is not found there. Given are the sizes of
/// the nodes' regions.
fn explains_members(plan: &Plan, data: &DataSet, sizes: &[usize], chains: &[Explanation]) {
    for (node, &size) in sizes.iter().enumerate() {
        for number in 0..usize::from(data.pieces) * size {
            let asked = [node, number / size, number % size];
            let (answer, chain) = match chains.iter().find(|(explained, _)| *explained == asked) {
                Some((_, chain)) => (Written::Length(chain.len()), *chain),
                None => (Refusal::NotFound(4).into(), &[][..]),
            };
            explains((plan, data), asked, [4, 5], answer, chain);
        }
    }
}

#[test]
fn plan_a_is_explained() {
    let chains: [Explanation; 9] = [
        ([0, 0, 0], &[(0, 0)]),
        ([0, 0, 1], &[(0, 1)]),
        ([0, 0, 2], &[(0, 2)]),
        ([0, 1, 3], &[(0, 3)]),
        ([0, 1, 4], &[(0, 4)]),
        // 0 and 1 lead to 0.
        ([1, 0, 0], &[(1, 0), (0, 0)]),
        ([1, 0, 2], &[(1, 2), (0, 2)]),
        ([1, 1, 1], &[(1, 1), (0, 3)]),
        // 2 leads to 2 as well, but is not in the piece.
        ([1, 1, 2], &[(1, 2), (0, 4)]),
    ];
    explains_members(&plan_a(), &data_d(), &[5, 3], &chains);
}

#[test]
fn plan_b_is_explained() {
    let chains: [Explanation; 11] = [
        ([0, 0, 0], &[(0, 0)]),
        ([0, 0, 1], &[(0, 1)]),
        ([0, 1, 2], &[(0, 2)]),
        ([1, 0, 0], &[(1, 0), (0, 0)]),
        ([1, 0, 1], &[(1, 1), (0, 0)]),
        ([1, 0, 3], &[(1, 3), (0, 1)]),
        ([1, 1, 2], &[(1, 2), (0, 2)]),
        ([1, 1, 4], &[(1, 4), (0, 2)]),
        ([2, 0, 0], &[(2, 0), (1, 0), (0, 0)]),
        ([2, 0, 1], &[(2, 1), (1, 3), (0, 1)]),
        ([2, 1, 2], &[(2, 2), (1, 2), (0, 2)]),
    ];
    explains_members(&plan_b(), &data_d(), &[3, 5, 3], &chains);
}

#[test]
fn every_operator_is_explained() {
    let (plan, data) = every_operator();
    let explanations: [Explanation; 13] = [
        // A union goes to its first operand where both have the element, and where its first has.
        ([2, 0, 0], &[(2, 0), (0, 0)]),
        ([2, 0, 2], &[(2, 2), (0, 2)]),
        // And to its second where only that has.
        ([2, 0, 5], &[(2, 5), (1, 5)]),
        ([2, 1, 2], &[(2, 2), (1, 2)]),
        // An intersection goes to its first operand.
        ([3, 0, 3], &[(3, 3), (1, 3)]),
        ([3, 1, 2], &[(3, 2), (1, 2)]),
        // A difference to its left.
        ([4, 0, 5], &[(4, 5), (2, 5), (1, 5)]),
        ([4, 1, 2], &[(4, 2), (2, 2), (1, 2)]),
        // An image to the least that leads there: of 0, 1 and 2; of 3 and 5; of 2 alone in piece 1.
        ([5, 0, 1], &[(5, 1), (2, 0), (0, 0)]),
        ([5, 0, 4], &[(5, 4), (2, 3), (1, 3)]),
        ([5, 1, 1], &[(5, 1), (2, 2), (1, 2)]),
        // A preimage to the entry, and on from there.
        ([7, 0, 5], &[(7, 5), (6, 4), (5, 4), (2, 3), (1, 3)]),
        ([7, 1, 0], &[(7, 0), (6, 1), (5, 1), (2, 2), (1, 2)]),
    ];
    for (asked, chain) in explanations {
        let length = chain.len();
        explains((&plan, &data), asked, [length, length], Written::Length(length), chain);
        explains((&plan, &data), asked, [length + 2, length + 1], Written::Length(length), chain);
    }
    for asked in [[2, 0, 4], [3, 0, 2], [4, 0, 0], [4, 1, 4], [5, 0, 0], [7, 0, 4]] {
        explains((&plan, &data), asked, [9, 9], Refusal::NotFound(4).into(), &[]);
    }
}

#[test]
fn what_is_asked_for_and_not_there_is_named_by_its_lowest_place() {
    let (plan, data) = (plan_a(), data_d());
    let most = usize::MAX;
    let absent = [
        (1, vec![[2, 0, 0], [most, 0, 0], [2, 2, 5], [most; 3], [1 << 32, 1, 2]]),
        (2, vec![[1, 2, 0], [0, most, 0], [1, 2, 3], [0, 16, most], [1, 1 << 16, 2]]),
        // Region 0 has five elements, region 1 three.
        (3, vec![[0, 0, 5], [1, 0, 3], [1, 0, 4], [0, 1, 512], [1, 1, most], [1, 1, (1 << 16) + 2]]),
        (4, vec![[0, 0, 3], [0, 1, 0], [1, 0, 1], [1, 1, 0]]),
    ];
    for (place, questions) in absent {
        for asked in questions {
            // Before the slices, of whatever length, are looked at.
            for lent in [[4, 4], [0, 0], [1, 0]] {
                explains((&plan, &data), asked, lent, Refusal::NotFound(place).into(), &[]);
            }
        }
    }
}

#[test]
fn both_slices_must_have_room_for_the_chain() {
    let (plan, data) = (plan_b(), data_d());
    for lent in [[0, 0], [2, 3], [3, 2], [2, 2], [0, 48], [48, 0]] {
        explains((&plan, &data), [2, 0, 1], lent, Refusal::OutputTooSmall(3).into(), &[]);
    }
}

#[test]
fn plan_and_data_are_judged_before_what_is_asked() {
    let refused = Plan { steps: vec![], ..plan_a() };
    explains((&refused, &data_d()), [9, 9, 9], [0, 0], Refusal::UnmetNeed(0).into(), &[]);
    let misframed = DataSet { pieces: 0, ..data_d() };
    explains((&plan_a(), &misframed), [9, 9, 9], [0, 0], Refusal::InvalidData.into(), &[]);
    let dangling = DataSet { maps: vec![vec![0, 0, 2, 3, 2]], ..data_d() };
    explains((&plan_a(), &dangling), [9, 9, 9], [0, 0], Refusal::InvalidEntry(3).into(), &[]);
}

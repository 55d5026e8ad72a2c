//! Charges worked out by hand, of the filed examples, of every operator and of the largest sets, for every version
//! there is.
#![forbid(unsafe_code)]

use mavisglen::{Charge, Refusal, HIGHEST_PRICE};
use mavisglen_testing::encode::{limit, node, DataSet, Plan};
use mavisglen_testing::filed::{data_d, every_operator, plan_a, plan_b};
use mavisglen_testing::question::Transfer;
use mavisglen_testing::version::Version;

/// Every version gives this answer for these nodes, accessed and owned, at this price.
fn charges(
    (plan, data): (&Plan, &DataSet),
    [accessed, owned]: [usize; 2],
    price: u64,
    charge: impl Into<Charge>,
) {
    let (plan, data, charge) = (plan.encode(), data.encode(), charge.into());
    for version in Version::ALL {
        let given = (version.charge)(&plan, &data, Transfer { accessed, owned, price });
        assert_eq!(given, charge, "accessed {accessed}, owned {owned}, price {price}");
    }
}

fn due(count: u16, cents: u32, remainder: u16) -> Charge {
    Charge::Charged { count, cents, remainder }
}

#[test]
fn the_highest_price_is_that_of_the_paper() {
    assert_eq!([HIGHEST_PRICE, limit::PRICE], [1_000_000; 2]);
}

#[test]
fn plan_a_owns_all_that_it_accesses() {
    let (plan, data) = (plan_a(), data_d());
    for node in [0, 1] {
        charges((&plan, &data), [node, node], 1_000_000, due(0, 0, 0));
    }
    // Node 0 is of region 0, node 1 of region 1.
    charges((&plan, &data), [0, 1], 1, Refusal::InvalidCharge(2));
    charges((&plan, &data), [1, 0], 1, Refusal::InvalidCharge(2));
}

#[test]
fn plan_b_fetches_nothing_or_all() {
    // Node 2 is {0, 1} and {2}, as node 0 is; node 3, node 0 without node 2, is empty.
    let mut plan = plan_b();
    plan.nodes.push([node::DIFFERENCE, 0, 2, 0]);
    for nodes in [[0, 2], [2, 0], [3, 0], [3, 2]] {
        charges((&plan, &data_d()), nodes, 1000, due(0, 0, 0));
    }
    for nodes in [[0, 3], [2, 3]] {
        charges((&plan, &data_d()), nodes, 1000, due(3, 3, 0));
    }
}

#[test]
fn what_the_same_piece_lacks_is_counted_for_each_piece() {
    let (plan, data) = every_operator();
    let counts: [([usize; 2], u16); 13] = [
        // {1, 2} and {4, 5}.
        ([0, 1], 4),
        // {3, 5} and {2}: the other way round it is another count.
        ([1, 0], 3),
        ([2, 0], 3),
        ([6, 5], 3),
        // All is owned.
        ([0, 2], 0),
        ([1, 3], 0),
        ([4, 7], 0),
        ([5, 6], 0),
        // {1, 2} and {4, 5}: 4 and 5 are owned by neither piece, 2 by the other piece only.
        ([2, 1], 4),
        // {3, 5} and {0, 1, 2}: all of them are owned by the other piece.
        ([7, 0], 5),
        ([6, 0], 5),
        // Nothing and {4}.
        ([0, 7], 1),
        // {0, 2, 3, 5} twice, of six elements.
        ([7, 5], 8),
    ];
    for (nodes, count) in counts {
        charges((&plan, &data), nodes, 1000, due(count, count.into(), 0));
        charges((&plan, &data), nodes, 1, due(count, 0, count));
        charges((&plan, &data), nodes, 0, due(count, 0, 0));
    }
    for node in 0..plan.nodes.len() {
        charges((&plan, &data), [node, node], 1000, due(0, 0, 0));
    }
}

#[test]
fn the_remainder_is_exact() {
    let (plan, data) = every_operator();
    for (price, cents, remainder) in [
        (0, 0, 0),
        (1, 0, 3),
        (333, 0, 999),
        (334, 1, 2),
        (999, 2, 997),
        (1000, 3, 0),
        (1001, 3, 3),
        (999_999, 2999, 997),
        (1_000_000, 3000, 0),
    ] {
        charges((&plan, &data), [1, 0], price, due(3, cents, remainder));
    }
}

/// As many elements in as many pieces as there may be. All lead to the first, so that all lead where any piece leads.
fn largest() -> (Plan, DataSet) {
    let nodes = vec![
        [node::EQUAL, 0, 0, 0],      // 32 in each piece
        [node::IMAGE, 0, 0, 0],      // the first
        [node::PREIMAGE, 1, 0, 0],   // all in each piece
        [node::DIFFERENCE, 0, 0, 0], // none
    ];
    let data = DataSet { pieces: 16, sizes: vec![512], maps: vec![vec![0; 512]], supplied: vec![] };
    (Plan { regions: vec![[1]], maps: vec![[0, 0, 1]], nodes, ..Plan::default() }, data)
}

#[test]
fn the_largest_count_has_room_in_every_number() {
    let (plan, data) = largest();
    for (nodes, price, charge) in [
        ([2, 3], 1_000_000, due(8192, 8_192_000, 0)),
        ([2, 3], 999_999, due(8192, 8_191_991, 808)),
        ([2, 3], 999, due(8192, 8183, 808)),
        ([2, 3], 1, due(8192, 8, 192)),
        ([2, 0], 1_000_000, due(7680, 7_680_000, 0)),
        ([2, 1], 999_999, due(8176, 8_175_991, 824)),
        ([0, 3], 1001, due(512, 512, 512)),
        // All pieces but the first lack what the first has.
        ([1, 0], 1_000_000, due(15, 15_000, 0)),
        ([3, 2], 1_000_000, due(0, 0, 0)),
    ] {
        charges((&plan, &data), nodes, price, charge);
    }
}

#[test]
fn what_cannot_be_charged_is_named_by_its_lowest_place() {
    let (plan, data) = (plan_a(), data_d());
    let most = usize::MAX;
    let missing =
        [[2, 0], [0, 2], [2, 2], [most, 1], [1, most], [most; 2], [1 << 8, 0], [0, 1 << 16], [1 << 32, 1]];
    let too_high = [1_000_001, 1 << 32, 1 << 63, u64::MAX];
    for price in [0, 1, 1_000_000].into_iter().chain(too_high) {
        for nodes in missing {
            charges((&plan, &data), nodes, price, Refusal::InvalidCharge(1));
        }
        for nodes in [[0, 1], [1, 0]] {
            charges((&plan, &data), nodes, price, Refusal::InvalidCharge(2));
        }
    }
    for price in too_high {
        for nodes in [[0, 0], [1, 1]] {
            charges((&plan, &data), nodes, price, Refusal::InvalidCharge(3));
        }
    }
}

#[test]
fn plan_and_data_are_judged_before_what_is_charged() {
    let refused = Plan { steps: vec![], ..plan_a() };
    let misframed = DataSet { pieces: 0, ..data_d() };
    let dangling = DataSet { maps: vec![vec![0, 0, 2, 3, 2]], ..data_d() };
    let (supplying, supplied) = every_operator();
    let untrue = Plan { supplied: vec![[0, 1]], ..supplying };
    for (nodes, price) in [([9, 9], u64::MAX), ([0, 1], 1), ([0, 0], 1_000_001), ([0, 0], 1)] {
        charges((&refused, &data_d()), nodes, price, Refusal::UnmetNeed(0));
        charges((&plan_a(), &misframed), nodes, price, Refusal::InvalidData);
        charges((&plan_a(), &dangling), nodes, price, Refusal::InvalidEntry(3));
        // Both supplied pieces have element 3.
        charges((&untrue, &supplied), nodes, price, Refusal::InvalidPartition(0));
    }
}

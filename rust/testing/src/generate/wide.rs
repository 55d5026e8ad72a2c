//! Plans and data sets whose pieces have nearly every element, so that much is charged.
#![forbid(unsafe_code)]

use crate::encode::{limit, node, DataSet, Plan};
use crate::random::Random;

/// Equal pieces and their image, which are small; all that leads where a piece leads, and that without the one or the
/// other, which are large; and nothing at all. A union and an intersection of any.
pub fn wide_plan(random: &mut Random) -> Plan {
    let mut nodes = vec![
        [node::EQUAL, 0, 0, 0],
        [node::IMAGE, 0, 0, 0],
        [node::PREIMAGE, 1, 0, 0],
        [node::DIFFERENCE, 2, 0, 0],
        [node::DIFFERENCE, 2, 1, 0],
        [node::DIFFERENCE, 0, 2, 0],
    ];
    for kind in [node::UNION, node::INTERSECTION] {
        let [a, b] = [(); 2].map(|()| random.below(nodes.len()) as u8);
        nodes.push([kind, a, b, 0]);
    }
    Plan { regions: vec![[1]], maps: vec![[0, 0, 1]], nodes, ..Plan::default() }
}

/// Many pieces of many elements, as many as there may be often, all of which lead to few.
pub fn wide_data(random: &mut Random) -> DataSet {
    let mut some = |most: usize| if random.one_in(2) { most } else { random.within(most / 2..=most) };
    let (pieces, elements) = (some(limit::PIECES), some(limit::SIZE));
    let targets = random.pick(&[1, 1, 2, 40]);
    let entries = (0..elements).map(|_| random.below(targets) as u16).collect();
    DataSet { pieces: pieces as u8, sizes: vec![elements as u16], maps: vec![entries], supplied: vec![] }
}

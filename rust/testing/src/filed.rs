//! The filed examples, one like them of a private part, and one of every operator.
#![forbid(unsafe_code)]

use crate::encode::{node, statement, DataSet, Plan, NONE};

/// Plan A: a loop that reads through a pointer, over an equal partition.
pub fn plan_a() -> Plan {
    Plan {
        regions: vec![[2], [1]],
        maps: vec![[0, 1, 1]],
        supplied: vec![],
        statements: vec![
            [statement::FOR, 0, 0, 0],
            [statement::LOAD, 0, 0, 0],
            [statement::READ, 1, 0, 0],
            [statement::REDUCE, 0, 1, 0],
        ],
        nodes: vec![[node::EQUAL, 0, 0, 0], [node::IMAGE, 0, 0, 0]],
        assignments: vec![[0], [0], [1], [0]],
        steps: vec![[2, 0, 0, 0, 0], [5, 0, 0, 0, 0], [5, 1, 1, 0, 0]],
    }
}

/// Plan B: the same loop, over the preimage of an equal partition.
pub fn plan_b() -> Plan {
    Plan {
        nodes: vec![[node::EQUAL, 1, 0, 0], [node::PREIMAGE, 0, 0, 0], [node::IMAGE, 1, 0, 0]],
        assignments: vec![[1], [1], [0], [1]],
        steps: vec![[2, 0, 0, 0, 0], [20, 1, 0, 0, 0], [5, 1, 1, 0, 0], [14, 2, 0, 2, 0]],
        ..plan_a()
    }
}

/// Plan A, and the private part of its image: node 5, disjoint by its last step.
pub fn plan_with_private_part() -> Plan {
    let mut plan = plan_a();
    plan.nodes.truncate(1);
    plan.nodes.extend(private_part(0));
    plan.steps.extend([[1, 0, 0, 0, 0], [21, 5, 0, 3, 0]]);
    plan
}

/// The five nodes that follow P and are the private part of its image under map 0: the image F, its preimage G, G minus
/// P, the image of that, and F minus that image.
pub fn private_part(of: u8) -> [[u8; 4]; 5] {
    let [image, sources, others, shared] = [1, 2, 3, 4].map(|after| of + after);
    [
        [node::IMAGE, of, 0, 0],
        [node::PREIMAGE, image, 0, 0],
        [node::DIFFERENCE, sources, of, 0],
        [node::IMAGE, others, 0, 0],
        [node::DIFFERENCE, image, shared, 0],
    ]
}

/// All of these, each for data D.
pub fn plans() -> [Plan; 3] {
    [plan_a(), plan_b(), plan_with_private_part()]
}

/// Data D: five elements that point to three, in two pieces.
pub fn data_d() -> DataSet {
    DataSet { pieces: 2, sizes: vec![5, 3], maps: vec![vec![0, 0, 2, 1, 2]], supplied: vec![] }
}

/// A node of each operator. Six elements in two pieces; supplied are {0, 3, 5} and {2, 3}. The map leads 0, 1 and 2 to
/// 1 and 3 and 5 to 4.
pub fn every_operator() -> (Plan, DataSet) {
    let nodes = vec![
        [node::EQUAL, 0, 0, 0],        // {0, 1, 2}, {3, 4, 5}
        [node::SUPPLIED, 0, 0, 0],     // {0, 3, 5}, {2, 3}
        [node::UNION, 0, 1, 0],        // {0, 1, 2, 3, 5}, {2, 3, 4, 5}
        [node::INTERSECTION, 1, 2, 0], // {0, 3, 5}, {2, 3}
        [node::DIFFERENCE, 2, 0, 0],   // {3, 5}, {2}
        [node::IMAGE, 2, 0, 0],        // {1, 4}, {1, 4}
        [node::UNION, 4, 5, 0],        // {1, 3, 4, 5}, {1, 2, 4}
        [node::PREIMAGE, 6, 0, 0],     // {0, 1, 2, 3, 5}, {0, 1, 2, 3, 5}
    ];
    let has = |members: &[usize]| (0..6).map(|element| members.contains(&element)).collect();
    let data = DataSet {
        pieces: 2,
        sizes: vec![6],
        maps: vec![vec![1, 1, 1, 4, NONE, 4]],
        supplied: vec![vec![has(&[0, 3, 5]), has(&[2, 3])]],
    };
    let (maps, supplied) = (vec![[0, 0, 0]], vec![[0, 0]]);
    (Plan { regions: vec![[1]], maps, supplied, nodes, ..Plan::default() }, data)
}

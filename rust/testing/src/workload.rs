//! Plans and data sets of a chosen size, to measure with.
#![forbid(unsafe_code)]

use std::iter;

use mavisglen::Charge;

use crate::encode::{flag, limit, node, statement, DataSet, Plan};
use crate::filed;
use crate::generate::builder::Builder;
use crate::generate::data;
use crate::generate::lemma::LEMMAS;
use crate::generate::loops::Loop;
use crate::generate::program::Omission;
use crate::question::{Question, Transfer};
use crate::random::Random;
use crate::reference::Reference;

/// Which operators the nodes of a plan have.
#[derive(Clone, Copy, Debug, PartialEq, Eq)]
pub enum Mix {
    SetOperations,
    Images,
    Preimages,
    Supplied,
    Equal,
    AllInTurn,
}

impl Mix {
    pub const ALL: [Mix; 6] =
        [Mix::SetOperations, Mix::Images, Mix::Preimages, Mix::Supplied, Mix::Equal, Mix::AllInTurn];

    pub fn name(self) -> &'static str {
        match self {
            Mix::SetOperations => "set operations",
            Mix::Images => "images",
            Mix::Preimages => "preimages",
            Mix::Supplied => "supplied",
            Mix::Equal => "equal",
            Mix::AllInTurn => "all in turn",
        }
    }

    /// The kinds of its nodes, in turn.
    fn kinds(self) -> &'static [u8] {
        match self {
            Mix::SetOperations => &[node::UNION, node::INTERSECTION, node::DIFFERENCE],
            Mix::Images => &[node::IMAGE],
            Mix::Preimages => &[node::PREIMAGE],
            Mix::Supplied => &[node::SUPPLIED],
            Mix::Equal => &[node::EQUAL],
            Mix::AllInTurn => &[
                node::UNION,
                node::IMAGE,
                node::INTERSECTION,
                node::PREIMAGE,
                node::DIFFERENCE,
                node::SUPPLIED,
                node::EQUAL,
            ],
        }
    }
}

/// A plan with its data set, as bytes.
pub struct Workload {
    pub name: String,
    pub plan: Vec<u8>,
    pub data: Vec<u8>,
    /// Words that evaluation writes.
    pub words: usize,
}

impl Workload {
    pub fn new(name: String, plan: &Plan, data: &DataSet) -> Workload {
        let words = plan.nodes.len() * usize::from(data.pieces) * 8;
        Workload { name, plan: plan.encode(), data: data.encode(), words }
    }

    /// A member of the last node that has any, one with the longest chain.
    pub fn deepest_question(&self) -> Asked {
        let reference = Reference::default();
        let plan = reference.checked_plan(&self.plan).expect("a workload's plan is accepted");
        let evaluated = reference.evaluated(plan, &self.data).expect("a workload's data set fits");
        let asked_in = |node: usize, piece: usize| {
            let members = evaluated.members(node, piece).into_iter().flatten();
            members.map(move |element| Question { node, piece, element })
        };
        let with_length = |question| Asked { question, length: reference.chain(&evaluated, question).len() };
        let deepest_in = |node: usize| {
            let questions = (0..evaluated.data.pieces).flat_map(|piece| asked_in(node, piece));
            questions.map(with_length).max_by_key(|asked| asked.length)
        };
        let deepest = (0..evaluated.plan.nodes.len()).rev().find_map(deepest_in);
        deepest.expect("some node of a workload has members")
    }

    /// The last two nodes of one region, the later accessed and the other owned, at the highest price; the last node
    /// against itself where no two are of one region.
    pub fn last_transfer(&self) -> Billed {
        let reference = Reference::default();
        let plan = reference.checked_plan(&self.plan).expect("a workload's plan is accepted");
        let region = |node: usize| plan.nodes[node].region;
        let before = |node: usize| (0..node).rev().find(|&other| region(other) == region(node));
        let last = plan.nodes.len() - 1;
        let found = (0..=last).rev().find_map(|node| before(node).map(|other| (node, other)));
        let (accessed, owned) = found.unwrap_or((last, last));
        let transfer = Transfer { accessed, owned, price: limit::PRICE };
        Billed { transfer, charge: reference.charge(&self.plan, &self.data, transfer) }
    }
}

/// What is asked about a workload, and the length of the chain that explains it.
#[derive(Clone, Copy, Debug)]
pub struct Asked {
    pub question: Question,
    pub length: usize,
}

/// What is charged for in a workload, and the charge.
#[derive(Clone, Copy, Debug)]
pub struct Billed {
    pub transfer: Transfer,
    pub charge: Charge,
}

/// The filed plan A over the filed data D.
pub fn filed_example() -> Workload {
    Workload::new("plan A over data D".to_string(), &filed::plan_a(), &filed::data_d())
}

/// A plan of one mix. A supplied or an equal node is listed but once for
/// each partition or region, so those mixes stop at 8 and 16 nodes.
pub fn mixed(mix: Mix, nodes: usize, pieces: usize, elements: usize) -> Workload {
    let mut random = Random::new(11);
    let mut builder = Builder::new(&mut random, tables(mix));
    builder.most_nodes = nodes;
    let plan = mixed_plan(&mut builder, mix);
    let sizes = vec![elements as u16; plan.regions.len()];
    let data = data::filled(&mut random, &plan, pieces as u8, sizes);
    let name = format!("{}: {} nodes, {pieces} pieces, {elements} elements", mix.name(), plan.nodes.len());
    Workload::new(name, &plan, &data)
}

/// As many maps and supplied partitions as there may be, all of region 0,
/// or only those that the mix has a use for; the other regions are for
/// equal nodes only.
fn tables(mix: Mix) -> Plan {
    let maps = if matches!(mix, Mix::Images | Mix::Preimages | Mix::AllInTurn) { limit::MAPS } else { 0 };
    let supplied = match mix {
        Mix::Supplied | Mix::AllInTurn => limit::SUPPLIED,
        Mix::SetOperations | Mix::Images | Mix::Preimages => 2,
        Mix::Equal => 0,
    };
    Plan {
        regions: vec![[8]; limit::REGIONS],
        maps: (0..maps as u8).map(|map| [0, 0, map % 2]).collect(),
        supplied: (0..supplied as u8).map(|number| [0, number % 2 * flag::DISJOINT]).collect(),
        ..Plan::default()
    }
}

/// One loop that reads what it owns, then nodes of the mix.
fn mixed_plan(builder: &mut Builder, mix: Mix) -> Plan {
    let current = Loop::open(builder.random, &mut builder.plan, 0);
    builder.assign(&current, 0, Omission::Nothing);
    for number in 0..20 * limit::NODES {
        let kind = mix.kinds()[number % mix.kinds().len()];
        add_node(builder, mix, kind);
    }
    std::mem::take(&mut builder.plan)
}

/// A node of a kind over random operands. The first three nodes, an equal
/// and two supplied ones, are what the others are built from: images of
/// images would lose elements.
fn add_node(builder: &mut Builder, mix: Mix, kind: u8) {
    let earlier = builder.plan.nodes.len();
    let of = builder.random.below(earlier.min(if mix == Mix::AllInTurn { 12 } else { 3 })) as u8;
    let operand = builder.random.below(earlier) as u8;
    let turn = earlier as u8;
    match kind {
        node::SUPPLIED => builder.node(kind, turn % limit::SUPPLIED as u8, 0),
        node::EQUAL => builder.node(kind, turn % limit::REGIONS as u8, 0),
        _ if earlier < 3 => builder.node(node::SUPPLIED, turn - 1, 0),
        node::IMAGE | node::PREIMAGE => {
            let map = builder.random.below(limit::MAPS) as u8;
            builder.node(kind, of, map)
        }
        _ => builder.node(kind, operand, of),
    };
}

/// The plan with most to check: 64 statements, 48 nodes, 128 steps, of every lemma some.
pub fn largest_check() -> Workload {
    let mut random = Random::new(13);
    let supplied = (0..limit::SUPPLIED as u8).map(|number| [0, number % 4]).collect();
    let mut builder = Builder::new(&mut random, Plan { supplied, ..tables(Mix::AllInTurn) });
    builder.most_nodes = 40;
    builder.most_steps = 100;
    // The last lemma takes most nodes. In a region without maps or supplied partitions there may be no step.
    for lemma in (1..=LEMMAS).rev() {
        (0..10 * limit::REGIONS).find_map(|_| builder.instance(lemma, 0));
    }
    fill(&mut builder);
    (builder.most_nodes, builder.most_steps) = (limit::NODES, limit::STEPS);
    for _ in 0..limit::STATEMENTS / 8 {
        let current = long_loop(&mut builder);
        builder.assign(&current, 0, Omission::Nothing).expect("there is room for what eight loops need");
    }
    fill(&mut builder);
    let plan = std::mem::take(&mut builder.plan);
    let data = data::filled(&mut random, &plan, 4, vec![64; plan.regions.len()]);
    let (statements, nodes, steps) = (plan.statements.len(), plan.nodes.len(), plan.steps.len());
    Workload::new(
        format!("largest to check: {statements} statements, {nodes} nodes, {steps} steps"),
        &plan,
        &data,
    )
}

/// One loop, accepted only because it is judged by field: half of its region's fields are read through pointers, the
/// other half reduced. Whoever compares accesses two by two finds no pair to stop at.
pub fn longest_loop(statements: usize) -> Workload {
    let mut random = Random::new(17);
    let tables = Plan { regions: vec![[limit::FIELDS as u8]], maps: vec![[0, 0, 1]; 4], ..Plan::default() };
    let mut builder = Builder::new(&mut random, tables);
    let plan = &mut builder.plan;
    let mut current = Loop::open(builder.random, plan, 0);
    let pointers = plan.maps.len();
    (0..pointers).for_each(|map| current.load(plan, map as u8, 0, map as u8));
    while plan.statements.len() < statements {
        let turn = plan.statements.len();
        let field = turn % limit::FIELDS;
        let kind = if field < limit::FIELDS / 2 { statement::READ } else { statement::REDUCE };
        current.push_access(plan, 1 + turn / limit::FIELDS % pointers, [kind, field as u8, 0]);
    }
    builder.assign(&current, 0, Omission::Nothing).expect("there is room for what one loop needs");
    let plan = std::mem::take(&mut builder.plan);
    let data = data::filled(&mut random, &plan, 4, vec![64]);
    let fields = limit::FIELDS;
    Workload::new(format!("one loop: {statements} statements, {fields} fields"), &plan, &data)
}

/// A node for each pair of the longest chain: all operators in turn, each over the node before. The map leads each
/// element to the next, so that the last of a piece moves out of it and is held by the right of every union alone.
pub fn longest_chain() -> Workload {
    let (pieces, elements) = (limit::PIECES, limit::SIZE as u16);
    let over = |latest: u8| match latest % 5 {
        0 => [node::IMAGE, latest, 0, 0],
        1 => [node::UNION, 0, latest, 0],
        2 => [node::INTERSECTION, latest, latest - 1, 0],
        3 => [node::DIFFERENCE, latest, 0, 0],
        _ => [node::PREIMAGE, latest, 0, 0],
    };
    let plan = Plan {
        regions: vec![[1]],
        maps: vec![[0, 0, 1]],
        nodes: iter::once([node::EQUAL, 0, 0, 0]).chain((0..limit::NODES as u8 - 1).map(over)).collect(),
        ..Plan::default()
    };
    let next = (0..elements).map(|element| (element + 1) % elements).collect();
    let data = DataSet { pieces: pieces as u8, sizes: vec![elements], maps: vec![next], supplied: vec![] };
    let name = format!("one over the other: {} nodes, {pieces} pieces, {elements} elements", limit::NODES);
    Workload::new(name, &plan, &data)
}

/// A loop of eight statements that reads through pointers.
fn long_loop(builder: &mut Builder) -> Loop {
    let plan = &mut builder.plan;
    let mut current = Loop::open(builder.random, plan, 0);
    current.load(plan, 1, 0, 7);
    current.call(plan, 3, 1);
    current.copy(plan, 2);
    for variable in [0, 1, 2, 3] {
        current.push_access(plan, variable, [statement::READ, 0, 0]);
    }
    current
}

/// Random steps by every lemma, and random nodes, until there is no room.
fn fill(builder: &mut Builder) {
    for lemma in (1..=LEMMAS).cycle().take(2000) {
        builder.instance(lemma, 2);
        builder.some_node(0, 2);
    }
}

#[cfg(test)]
mod tests {
    use super::*;
    use crate::reference;
    use crate::tally::tally;

    #[test]
    fn every_workload_is_accepted() {
        let mut workloads: Vec<Workload> =
            Mix::ALL.iter().map(|&mix| mixed(mix, limit::NODES, 3, 70)).collect();
        workloads.extend([filed_example(), largest_check(), longest_chain()]);
        workloads.extend([8, limit::STATEMENTS].map(longest_loop));
        for workload in workloads {
            let mut words = vec![0; workload.words];
            let answer = reference::evaluate(&workload.plan, &workload.data, &mut words);
            assert!(answer.is_accepted(), "{}: {answer:?}", workload.name);
            let Billed { transfer, charge } = workload.last_transfer();
            assert_eq!(charge.number(), 0, "{}: {transfer:?}", workload.name);
            println!("{}: {answer:?}, {transfer:?}, {charge:?}", workload.name);
        }
    }

    #[test]
    fn the_largest_check_has_every_lemma() {
        let plan = Plan::decode(&largest_check().plan).expect("a workload's plan is well framed");
        let lemmas = tally(plan.steps.into_iter().map(|step| step[0]));
        println!("{lemmas:?}");
        assert!(lemmas.into_keys().eq(1..=LEMMAS));
    }

    #[test]
    fn the_longest_chain_has_every_node() {
        assert_eq!(longest_chain().deepest_question().length, limit::NODES);
    }
}

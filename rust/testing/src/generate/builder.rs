//! A plan under construction, its node regions and free places known.
#![forbid(unsafe_code)]

use crate::encode::{limit, node, Plan};
use crate::random::Random;

/// The form of what a step concludes.
#[derive(Clone, Copy, Debug, PartialEq, Eq)]
pub enum Form {
    Contained,
    Disjoint,
    Complete,
}

/// The form that a lemma concludes.
pub fn form(lemma: u8) -> Form {
    match lemma {
        1 | 3 | 15..=18 | 21 => Form::Disjoint,
        2 | 4 | 19 | 20 => Form::Complete,
        _ => Form::Contained,
    }
}

/// Adding a record gives none when its section is full or its operands'
/// regions disagree; what was added before stays.
pub struct Builder<'r> {
    pub random: &'r mut Random,
    pub plan: Plan,
    /// Region of each node.
    pub regions: Vec<u8>,
    /// No more nodes and steps than these.
    pub most_nodes: usize,
    pub most_steps: usize,
}

impl<'r> Builder<'r> {
    pub fn new(random: &'r mut Random, plan: Plan) -> Builder<'r> {
        Builder { random, plan, regions: Vec::new(), most_nodes: limit::NODES, most_steps: limit::STEPS }
    }

    /// The node of an expression: the one listed, or a new one.
    pub fn node(&mut self, kind: u8, a: u8, b: u8) -> Option<u8> {
        let record = [kind, a, b, 0];
        if let Some(listed) = self.plan.nodes.iter().position(|&node| node == record) {
            return Some(listed as u8);
        }
        let region = self.region_of(kind, a, b)?;
        if self.plan.nodes.len() >= self.most_nodes {
            return None;
        }
        self.plan.nodes.push(record);
        self.regions.push(region);
        Some(self.plan.nodes.len() as u8 - 1)
    }

    fn region_of(&self, kind: u8, a: u8, b: u8) -> Option<u8> {
        let operand = |number: u8| self.regions.get(usize::from(number)).copied();
        let map = |number: u8| self.plan.maps.get(usize::from(number)).copied();
        match kind {
            node::SUPPLIED => self.plan.supplied.get(usize::from(a)).map(|supplied| supplied[0]),
            node::EQUAL => (usize::from(a) < self.plan.regions.len()).then_some(a),
            node::UNION | node::INTERSECTION | node::DIFFERENCE => {
                operand(a).filter(|_| operand(a) == operand(b))
            }
            node::IMAGE => map(b).filter(|map| Some(map[0]) == operand(a)).map(|map| map[1]),
            node::PREIMAGE => map(b).filter(|map| Some(map[1]) == operand(a)).map(|map| map[0]),
            _ => None,
        }
    }

    /// Adds a step, or finds the same one.
    pub fn step(&mut self, lemma: u8, x: u8, y: u8, p: u8, q: u8) -> Option<u8> {
        let record = [lemma, x, y, p, q];
        if let Some(listed) = self.plan.steps.iter().position(|&step| step == record) {
            return Some(listed as u8);
        }
        if self.plan.steps.len() >= self.most_steps {
            return None;
        }
        self.plan.steps.push(record);
        Some(self.plan.steps.len() as u8 - 1)
    }

    /// How many nodes and steps there are, to come back to.
    pub fn mark(&self) -> [usize; 2] {
        [self.plan.nodes.len(), self.plan.steps.len()]
    }

    /// Takes back the nodes and steps added since the mark.
    pub fn return_to(&mut self, [nodes, steps]: [usize; 2]) {
        self.plan.nodes.truncate(nodes);
        self.regions.truncate(nodes);
        self.plan.steps.truncate(steps);
    }

    pub fn record(&self, node: u8) -> [u8; 4] {
        self.plan.nodes[usize::from(node)]
    }

    /// The nodes that a node is directly built of.
    pub fn operands(&self, node: u8) -> Vec<u8> {
        match self.record(node) {
            [node::SUPPLIED | node::EQUAL, ..] => vec![],
            [node::IMAGE | node::PREIMAGE, of, ..] => vec![of],
            [_, a, b, _] => vec![a, b],
        }
    }

    pub fn region(&self, node: u8) -> u8 {
        self.regions[usize::from(node)]
    }

    /// A listed node of a region.
    pub fn listed(&mut self, region: u8) -> Option<u8> {
        let regions = &self.regions;
        self.random.find(regions.len(), |node| regions[node] == region).map(|node| node as u8)
    }

    /// A map whose source, or target, is a region.
    pub fn map_from(&mut self, region: u8) -> Option<u8> {
        let maps = &self.plan.maps;
        self.random.find(maps.len(), |map| maps[map][0] == region).map(|map| map as u8)
    }

    pub fn map_to(&mut self, region: u8) -> Option<u8> {
        let maps = &self.plan.maps;
        self.random.find(maps.len(), |map| maps[map][1] == region).map(|map| map as u8)
    }

    /// A supplied partition of a region with at least these flags.
    pub fn supplied(&mut self, region: u8, flags: u8) -> Option<u8> {
        let supplied = &self.plan.supplied;
        let fits = |number: usize| supplied[number][0] == region && supplied[number][1] & flags == flags;
        self.random.find(supplied.len(), fits).map(|number| number as u8)
    }

    /// Some node of a region, listed or new, up to `depth` operators deep.
    pub fn some_node(&mut self, region: u8, depth: usize) -> Option<u8> {
        if depth == 0 || self.random.one_in(3) {
            return match self.listed(region) {
                Some(listed) => Some(listed),
                None => self.node(node::EQUAL, region, 0),
            };
        }
        match self.random.below(8) {
            0 => self.node(node::EQUAL, region, 0),
            1 => self.supplied(region, 0).and_then(|number| self.node(node::SUPPLIED, number, 0)),
            2 | 3 => {
                let map = self.map_to(region)?;
                let source = self.plan.maps[usize::from(map)][0];
                let of = self.some_node(source, depth - 1)?;
                self.node(node::IMAGE, of, map)
            }
            4 | 5 => {
                let map = self.map_from(region)?;
                let target = self.plan.maps[usize::from(map)][1];
                let of = self.some_node(target, depth - 1)?;
                self.node(node::PREIMAGE, of, map)
            }
            _ => self.some_set_operation(region, depth - 1),
        }
    }

    pub fn some_set_operation(&mut self, region: u8, depth: usize) -> Option<u8> {
        let kind = self.random.pick(&[node::UNION, node::INTERSECTION, node::DIFFERENCE]);
        let (a, b) = (self.some_node(region, depth)?, self.some_node(region, depth)?);
        self.node(kind, a, b)
    }

    /// `a op b` or `b op a`.
    pub fn either_way(&mut self, kind: u8, a: u8, b: u8) -> Option<u8> {
        if self.random.one_in(2) {
            self.node(kind, a, b)
        } else {
            self.node(kind, b, a)
        }
    }
}

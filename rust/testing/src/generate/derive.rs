//! Derivations: nodes built together with the lemma steps that prove what
//! is needed of them.
#![forbid(unsafe_code)]

use super::builder::{form, Builder, Form};
use crate::encode::{flag, node};

/// A node with the step that proves something of it.
pub type Proved = (u8, u8);

impl Builder<'_> {
    /// Some y with a step for "x is contained in y".
    pub fn superset(&mut self, x: u8, depth: usize) -> Option<Proved> {
        if depth == 0 || self.random.one_in(4) {
            return self.contain_by(5, x, 0);
        }
        let lemmas: &[u8] = match self.record(x)[0] {
            node::UNION => &[6, 7, 8, 10, 8],
            node::INTERSECTION => &[6, 7, 9, 10, 9],
            node::DIFFERENCE => &[6, 7, 10, 11, 11],
            node::IMAGE => &[6, 7, 10, 12, 12, 14, 14],
            node::PREIMAGE => &[6, 7, 10, 13, 13],
            _ => &[6, 7, 10],
        };
        let lemma = self.random.pick(lemmas);
        self.contain_by(lemma, x, depth - 1).or_else(|| self.contain_by(5, x, 0))
    }

    /// The same, the last step by this lemma; none if x has not its shape.
    pub fn contain_by(&mut self, lemma: u8, x: u8, depth: usize) -> Option<Proved> {
        let [kind, a, b, _] = self.record(x);
        match (lemma, kind) {
            (5, _) => self.proved(5, x, x, 0, 0),
            (6, _) => {
                let (middle, p) = self.superset(x, depth)?;
                let (y, q) = self.superset(middle, depth)?;
                self.proved(6, x, y, p, q)
            }
            (7, _) => {
                let other = self.some_node(self.region(x), depth)?;
                let y = self.either_way(node::UNION, x, other)?;
                self.proved(7, x, y, 0, 0)
            }
            (8, node::UNION) => self.contain_union(x, a, b, depth),
            (9, node::INTERSECTION) => {
                let y = self.random.pick(&[a, b]);
                self.proved(9, x, y, 0, 0)
            }
            (10, _) => {
                let (left, p) = self.superset(x, depth)?;
                let (right, q) = self.superset(x, depth)?;
                let y = self.node(node::INTERSECTION, left, right)?;
                self.proved(10, x, y, p, q)
            }
            (11, node::DIFFERENCE) => self.proved(11, x, a, 0, 0),
            (12, node::IMAGE) | (13, node::PREIMAGE) => {
                let (wider, p) = self.superset(a, depth)?;
                let y = self.node(kind, wider, b)?;
                self.proved(lemma, x, y, p, 0)
            }
            (14, node::IMAGE) => self.contain_image(x, a, b, depth),
            _ => None,
        }
    }

    fn proved(&mut self, lemma: u8, x: u8, y: u8, p: u8, q: u8) -> Option<Proved> {
        self.step(lemma, x, y, p, q).map(|step| (y, step))
    }

    /// Lemma 8: a union of supersets of both operands, reached by 6 and 7.
    fn contain_union(&mut self, x: u8, a: u8, b: u8, depth: usize) -> Option<Proved> {
        let (wider_a, in_wider_a) = self.superset(a, depth)?;
        let (wider_b, in_wider_b) = self.superset(b, depth)?;
        let y = self.either_way(node::UNION, wider_a, wider_b)?;
        let p = self.step(7, wider_a, y, 0, 0)?;
        let p = self.step(6, a, y, in_wider_a, p)?;
        let q = self.step(7, wider_b, y, 0, 0)?;
        let q = self.step(6, b, y, in_wider_b, q)?;
        self.proved(8, x, y, p, q)
    }

    /// Lemma 14: x is the image of a, and a superset of a is a preimage
    /// under the same map.
    fn contain_image(&mut self, x: u8, a: u8, map: u8, depth: usize) -> Option<Proved> {
        let is_preimage = |record: [u8; 4]| record[0] == node::PREIMAGE && record[2] == map;
        let (wider, p) = self.superset(a, depth)?;
        let (preimage, p) =
            if is_preimage(self.record(wider)) { (wider, p) } else { self.contain_by(5, a, 0)? };
        let record = self.record(preimage);
        if !is_preimage(record) {
            return None;
        }
        self.proved(14, x, record[1], p, 0)
    }

    /// A complete node of a region.
    pub fn complete(&mut self, region: u8, depth: usize) -> Option<Proved> {
        let lemma = if depth == 0 { 2 } else { self.random.pick(&[2, 4, 4, 19, 20, 20]) };
        self.complete_by(lemma, region, depth.saturating_sub(1)).or_else(|| self.complete_by(2, region, 0))
    }

    pub fn complete_by(&mut self, lemma: u8, region: u8, depth: usize) -> Option<Proved> {
        match lemma {
            2 => self.base(2, node::EQUAL, region),
            4 => {
                let number = self.supplied(region, flag::COMPLETE)?;
                self.base(4, node::SUPPLIED, number)
            }
            19 => {
                let (y, p) = self.complete(region, depth)?;
                let (x, q) = self.superset(y, depth.max(1))?;
                self.step(19, x, y, p, q).map(|step| (x, step))
            }
            20 => {
                let map = self.total_map_from(region)?;
                let (of, p) = self.complete(self.plan.maps[usize::from(map)][1], depth)?;
                let x = self.node(node::PREIMAGE, of, map)?;
                self.step(20, x, 0, p, 0).map(|step| (x, step))
            }
            _ => None,
        }
    }

    /// Lemmas 1 to 4, for an equal or a supplied node.
    fn base(&mut self, lemma: u8, kind: u8, of: u8) -> Option<Proved> {
        let x = self.node(kind, of, 0)?;
        self.step(lemma, x, 0, 0, 0).map(|step| (x, step))
    }

    fn total_map_from(&mut self, region: u8) -> Option<u8> {
        let maps = &self.plan.maps;
        let fits = |map: usize| maps[map][0] == region && maps[map][2] == 1;
        self.random.find(maps.len(), fits).map(|map| map as u8)
    }

    /// A disjoint node of a region.
    pub fn disjoint(&mut self, region: u8, depth: usize) -> Option<Proved> {
        let lemma = if depth == 0 { 1 } else { self.random.pick(&[1, 3, 15, 16, 17, 18, 21]) };
        self.disjoint_by(lemma, region, depth.saturating_sub(1)).or_else(|| self.disjoint_by(1, region, 0))
    }

    pub fn disjoint_by(&mut self, lemma: u8, region: u8, depth: usize) -> Option<Proved> {
        match lemma {
            1 => self.base(1, node::EQUAL, region),
            3 => {
                let number = self.supplied(region, flag::DISJOINT)?;
                self.base(3, node::SUPPLIED, number)
            }
            15 => {
                let (y, p) = self.disjoint(region, depth)?;
                let (x, q) = self.subset(y, depth)?;
                self.step(15, x, y, p, q).map(|step| (x, step))
            }
            16 | 17 => {
                let (of, p) = self.disjoint(region, depth)?;
                let other = self.some_node(region, depth)?;
                let x = match lemma {
                    16 => self.either_way(node::INTERSECTION, of, other)?,
                    _ => self.node(node::DIFFERENCE, of, other)?,
                };
                self.step(lemma, x, 0, p, 0).map(|step| (x, step))
            }
            18 => {
                let map = self.map_from(region)?;
                self.disjoint_preimage(map, depth)
            }
            21 => {
                let map = self.map_to(region)?;
                let (of, p) = self.disjoint(self.plan.maps[usize::from(map)][0], depth)?;
                let x = self.private_part(of, map)?.private;
                self.step(21, x, 0, p, 0).map(|step| (x, step))
            }
            _ => None,
        }
    }

    /// Lemma 18: a preimage of a disjoint node under a map.
    pub fn disjoint_preimage(&mut self, map: u8, depth: usize) -> Option<Proved> {
        let (of, p) = self.disjoint(self.plan.maps[usize::from(map)][1], depth)?;
        let x = self.node(node::PREIMAGE, of, map)?;
        self.step(18, x, 0, p, 0).map(|step| (x, step))
    }

    /// Some x with a step for "x is contained in y".
    fn subset(&mut self, y: u8, depth: usize) -> Option<Proved> {
        let other = self.some_node(self.region(y), depth)?;
        let (lemma, x) = match self.random.below(3) {
            0 => (5, y),
            1 => (9, self.either_way(node::INTERSECTION, y, other)?),
            _ => (11, self.node(node::DIFFERENCE, y, other)?),
        };
        self.step(lemma, x, y, 0, 0).map(|step| (x, step))
    }

    /// A node proved complete and disjoint, for loops that reduce through a
    /// pointer.
    pub fn complete_and_disjoint(&mut self, region: u8, depth: usize) -> Option<u8> {
        let choice = if depth == 0 { 0 } else { self.random.below(5) };
        match choice {
            1 => self.supplied_both(region),
            2 | 3 => self.preimage_both(region, depth - 1),
            4 => self.intersection_both(region, depth - 1),
            _ => None,
        }
        .or_else(|| self.equal_both(region))
    }

    fn equal_both(&mut self, region: u8) -> Option<u8> {
        let (x, _) = self.base(1, node::EQUAL, region)?;
        self.base(2, node::EQUAL, region)?;
        Some(x)
    }

    fn supplied_both(&mut self, region: u8) -> Option<u8> {
        let number = self.supplied(region, flag::DISJOINT | flag::COMPLETE)?;
        let (x, _) = self.base(3, node::SUPPLIED, number)?;
        self.base(4, node::SUPPLIED, number)?;
        Some(x)
    }

    /// Lemmas 18 and 20, over a total map.
    fn preimage_both(&mut self, region: u8, depth: usize) -> Option<u8> {
        let map = self.total_map_from(region)?;
        let of = self.complete_and_disjoint(self.plan.maps[usize::from(map)][1], depth)?;
        let x = self.node(node::PREIMAGE, of, map)?;
        let (disjoint, complete) = (self.find_step(Form::Disjoint, of)?, self.find_step(Form::Complete, of)?);
        self.step(18, x, 0, disjoint, 0)?;
        self.step(20, x, 0, complete, 0)?;
        Some(x)
    }

    /// A node intersected with a superset of it: complete by 19 over 10,
    /// disjoint by 16, or by 15 over 9.
    fn intersection_both(&mut self, region: u8, depth: usize) -> Option<u8> {
        let y = self.complete_and_disjoint(region, depth)?;
        let (wider, in_wider) = self.superset(y, depth)?;
        let x = self.node(node::INTERSECTION, y, wider)?;
        let (_, in_itself) = self.contain_by(5, y, 0)?;
        let in_x = self.step(10, y, x, in_itself, in_wider)?;
        let (disjoint, complete) = (self.find_step(Form::Disjoint, y)?, self.find_step(Form::Complete, y)?);
        self.step(19, x, y, complete, in_x)?;
        if self.random.one_in(2) {
            self.step(16, x, 0, disjoint, 0)?;
        } else {
            let in_y = self.step(9, x, y, 0, 0)?;
            self.step(15, x, y, disjoint, in_y)?;
        }
        Some(x)
    }

    /// A listed step of a form about a node.
    pub fn find_step(&self, wanted: Form, x: u8) -> Option<u8> {
        let concludes = |step: &[u8; 5]| form(step[0]) == wanted && step[1] == x;
        self.plan.steps.iter().position(concludes).map(|step| step as u8)
    }

    /// A step by a given lemma, with whatever it needs, in some region.
    pub fn instance(&mut self, lemma: u8, depth: usize) -> Option<u8> {
        let region = self.random.below(self.plan.regions.len()) as u8;
        let (_, step) = match form(lemma) {
            Form::Disjoint => self.disjoint_by(lemma, region, depth)?,
            Form::Complete => self.complete_by(lemma, region, depth)?,
            Form::Contained => {
                let x = self.node_for(lemma, region, depth)?;
                self.contain_by(lemma, x, depth)?
            }
        };
        Some(step)
    }

    /// A node of the shape that a containment lemma wants of x.
    fn node_for(&mut self, lemma: u8, region: u8, depth: usize) -> Option<u8> {
        let kind = match lemma {
            8 => node::UNION,
            9 => node::INTERSECTION,
            11 => node::DIFFERENCE,
            12 | 14 => node::IMAGE,
            13 => node::PREIMAGE,
            _ => return self.some_node(region, depth),
        };
        let map = self.random.below(self.plan.maps.len().max(1)) as u8;
        let (a, b) = match kind {
            node::IMAGE if lemma == 14 => (self.some_preimage(map, depth)?, map),
            node::IMAGE => (self.some_node(self.plan.maps.get(usize::from(map))?[0], depth)?, map),
            node::PREIMAGE => (self.some_node(self.plan.maps.get(usize::from(map))?[1], depth)?, map),
            _ => (self.some_node(region, depth)?, self.some_node(region, depth)?),
        };
        self.node(kind, a, b)
    }

    fn some_preimage(&mut self, map: u8, depth: usize) -> Option<u8> {
        let target = self.plan.maps.get(usize::from(map))?[1];
        let of = self.some_node(target, depth)?;
        self.node(node::PREIMAGE, of, map)
    }
}

//! What each lemma requires of a step, requirement by requirement, and
//! steps that break exactly one.
#![forbid(unsafe_code)]

use std::collections::BTreeSet;

use super::builder::{form, Builder, Form};
use super::private_part::Mistake;
use crate::encode::{flag, node, Plan};
use crate::random::Random;

/// Number of lemmas.
pub const LEMMAS: u8 = 21;

pub fn some_lemma(random: &mut Random) -> u8 {
    random.within(1..=usize::from(LEMMAS)) as u8
}

/// Whether a lemma uses y, p and q.
pub fn uses(lemma: u8) -> [bool; 3] {
    [
        matches!(lemma, 5..=15 | 19),
        matches!(lemma, 6 | 8 | 10 | 12..=21),
        matches!(lemma, 6 | 8 | 10 | 15 | 19),
    ]
}

/// How many requirements a lemma has.
pub fn requirement_count(lemma: u8) -> usize {
    match lemma {
        1 | 2 | 5 => 1,
        3 | 4 | 7 | 9 | 11 | 15..=19 => 2,
        6 | 8 | 10 | 20 => 3,
        21 => 12,
        _ => 4,
    }
}

/// What is wrong with a step that is nearly by its lemma.
#[derive(Clone, Copy, Debug, PartialEq, Eq, PartialOrd, Ord)]
pub enum Miss {
    /// One requirement of the lemma, by its number, and no other.
    Requirement { lemma: u8, number: usize },
    /// What is easily taken for a private part, or for its premise.
    PrivatePart(Mistake),
}

impl Miss {
    pub fn all() -> Vec<Miss> {
        let of = |lemma| (0..requirement_count(lemma)).map(move |number| Miss::Requirement { lemma, number });
        (1..=LEMMAS).flat_map(of).chain(Mistake::ALL.map(Miss::PrivatePart)).collect()
    }
}

/// The form and the nodes of what a step concludes.
type Fact = (Form, u8, u8);

/// Each requirement of the step's lemma: met or not. Operands are read off
/// the records whatever their kinds, so a wrong kind is one broken
/// requirement, not several.
pub fn requirements(plan: &Plan, step: [u8; 5]) -> Vec<bool> {
    let [lemma, x, y, p, q] = step;
    let [x_kind, xa, xb, _] = record(plan, x);
    let [y_kind, ya, yb, _] = record(plan, y);
    let (p, q) = (conclusion(plan, p), conclusion(plan, q));
    let contained = |a, b| Some((Form::Contained, a, b));
    let disjoint = |fact: Option<Fact>, of| fact.is_some_and(|fact| (fact.0, fact.1) == (Form::Disjoint, of));
    let complete = |fact: Option<Fact>, of| fact.is_some_and(|fact| (fact.0, fact.1) == (Form::Complete, of));
    let supplied =
        |wanted| plan.supplied.get(usize::from(xa)).is_some_and(|supplied| supplied[1] & wanted != 0);
    match lemma {
        1 | 2 => vec![x_kind == node::EQUAL],
        3 => vec![x_kind == node::SUPPLIED, supplied(flag::DISJOINT)],
        4 => vec![x_kind == node::SUPPLIED, supplied(flag::COMPLETE)],
        5 => vec![x == y],
        6 => {
            let from_x = p.filter(|&(form, a, _)| form == Form::Contained && a == x);
            let to_y = q.filter(|&(form, _, b)| form == Form::Contained && b == y);
            let meet = p.map(|fact| fact.2) == q.map(|fact| fact.1);
            vec![from_x.is_some(), to_y.is_some(), meet]
        }
        7 => vec![y_kind == node::UNION, x == ya || x == yb],
        8 => vec![x_kind == node::UNION, p == contained(xa, y), q == contained(xb, y)],
        9 => vec![x_kind == node::INTERSECTION, y == xa || y == xb],
        10 => vec![y_kind == node::INTERSECTION, p == contained(x, ya), q == contained(x, yb)],
        11 => vec![x_kind == node::DIFFERENCE, y == xa],
        12 => vec![x_kind == node::IMAGE, y_kind == node::IMAGE, xb == yb, p == contained(xa, ya)],
        13 => vec![x_kind == node::PREIMAGE, y_kind == node::PREIMAGE, xb == yb, p == contained(xa, ya)],
        14 => {
            let from_a = p.filter(|&(form, a, _)| form == Form::Contained && a == xa);
            let [z_kind, za, zb, _] = p.map_or([255; 4], |fact| record(plan, fact.2));
            vec![x_kind == node::IMAGE, from_a.is_some(), z_kind == node::PREIMAGE && za == y, zb == xb]
        }
        15 => vec![disjoint(p, y), q == contained(x, y)],
        16 => vec![x_kind == node::INTERSECTION, disjoint(p, xa) || disjoint(p, xb)],
        17 => vec![x_kind == node::DIFFERENCE, disjoint(p, xa)],
        18 => vec![x_kind == node::PREIMAGE, disjoint(p, xa)],
        19 => vec![complete(p, y), q == contained(y, x)],
        20 => {
            let total = plan.maps.get(usize::from(xb)).is_some_and(|map| map[2] == 1);
            vec![x_kind == node::PREIMAGE, total, complete(p, xa)]
        }
        21 => private_part_requirements(plan, x, p),
        _ => vec![false],
    }
}

/// Lemma 21. Where P or f is named three times, that which is named twice is meant, so that one wrong name is one broken
/// requirement.
fn private_part_requirements(plan: &Plan, x: u8, p: Option<Fact>) -> Vec<bool> {
    let [x_kind, image, shared, _] = record(plan, x);
    let [shared_kind, others, shared_map, _] = record(plan, shared);
    let [others_kind, sources, others_of, _] = record(plan, others);
    let [image_kind, image_of, image_map, _] = record(plan, image);
    let [sources_kind, sources_of, sources_map, _] = record(plan, sources);
    let proved_of = p.filter(|fact| fact.0 == Form::Disjoint).map(|fact| fact.1);
    let of = if image_of == others_of { Some(image_of) } else { proved_of };
    let map = if image_map == sources_map { image_map } else { shared_map };
    vec![
        x_kind == node::DIFFERENCE,
        shared_kind == node::IMAGE,
        shared_map == map,
        others_kind == node::DIFFERENCE,
        Some(others_of) == of,
        image_kind == node::IMAGE,
        Some(image_of) == of,
        image_map == map,
        sources_kind == node::PREIMAGE,
        sources_of == image,
        sources_map == map,
        proved_of == of,
    ]
}

/// The only requirement that a step breaks, if it breaks just one.
pub fn only_broken(plan: &Plan, step: [u8; 5]) -> Option<usize> {
    let requirements = requirements(plan, step);
    let mut broken = (0..requirements.len()).filter(|&number| !requirements[number]);
    broken.next().filter(|_| broken.next().is_none())
}

fn record(plan: &Plan, node: u8) -> [u8; 4] {
    plan.nodes.get(usize::from(node)).copied().unwrap_or([255; 4])
}

fn conclusion(plan: &Plan, step: u8) -> Option<Fact> {
    plan.steps.get(usize::from(step)).map(|&[lemma, x, y, _, _]| (form(lemma), x, y))
}

impl Builder<'_> {
    /// Appends a step that is nearly by its lemma.
    pub fn near_miss(&mut self, miss: Miss) -> Option<()> {
        let [lemma, x, y, p, q] = match miss {
            Miss::Requirement { lemma, number } => self.breaking_step(lemma, number)?,
            Miss::PrivatePart(mistake) => self.mistaken_step(mistake)?,
        };
        self.step(lemma, x, y, p, q).map(drop)
    }

    /// A step that breaks just the given requirement of a lemma.
    fn breaking_step(&mut self, lemma: u8, requirement: usize) -> Option<[u8; 5]> {
        for _ in 0..24 {
            let start = self.mark();
            if let Some(valid) = self.instance(lemma, 2) {
                let valid = self.plan.steps[usize::from(valid)];
                let altered = (0..12).find_map(|_| self.breaking_alteration(valid, requirement));
                if altered.is_some() {
                    return altered;
                }
            }
            self.return_to(start);
        }
        None
    }

    /// One try to alter a step so; what it adds in vain is taken back.
    fn breaking_alteration(&mut self, valid: [u8; 5], requirement: usize) -> Option<[u8; 5]> {
        let start = self.mark();
        let altered = self.altered_step(valid);
        let breaking = altered.filter(|&altered| only_broken(&self.plan, altered) == Some(requirement));
        if breaking.is_none() {
            self.return_to(start);
        }
        breaking
    }

    /// The step with one of its used numbers exchanged.
    fn altered_step(&mut self, step: [u8; 5]) -> Option<[u8; 5]> {
        let [uses_y, uses_p, uses_q] = uses(step[0]);
        let used: Vec<usize> = [(1, true), (2, uses_y), (3, uses_p), (4, uses_q)]
            .into_iter()
            .filter_map(|(place, used)| used.then_some(place))
            .collect();
        let place = self.random.pick(&used);
        let mut altered = step;
        altered[place] = match place {
            // Lemma 21 looks not at x alone.
            1 if step[0] == 21 => self.with_altered_part(step[1])?,
            _ if self.random.one_in(2) => self.about_operand(step, place)?,
            1 | 2 => self.other_node(step[place])?,
            _ => self.other_step(step[place])?,
        };
        Some(altered)
    }

    /// An operand of x, or a step about one of the form that was cited: the
    /// wrong operand is the likeliest mistake.
    fn about_operand(&mut self, step: [u8; 5], place: usize) -> Option<u8> {
        let operands = self.operands(step[1]);
        if operands.is_empty() {
            return None;
        }
        let operand = self.random.pick(&operands);
        if place <= 2 {
            return Some(operand);
        }
        let [cited, ..] = self.plan.steps[usize::from(step[place])];
        match form(cited) {
            Form::Contained => self.superset(operand, 1).map(|(_, step)| step),
            form => self.find_step(form, operand).or_else(|| self.base_step(form, operand)),
        }
    }

    /// A step by one of the lemmas 1 to 4, if the node has that shape.
    fn base_step(&mut self, form: Form, x: u8) -> Option<u8> {
        let lemmas = if form == Form::Disjoint { [1, 3] } else { [2, 4] };
        let follows = |lemma: &u8| requirements(&self.plan, [*lemma, x, 0, 0, 0]).into_iter().all(|met| met);
        let lemma = lemmas.into_iter().find(follows)?;
        self.step(lemma, x, 0, 0, 0)
    }

    /// Another node of the region: any, or one that differs in one byte.
    fn other_node(&mut self, node: u8) -> Option<u8> {
        if self.random.one_in(4) {
            return self.some_node(self.region(node), 1);
        }
        self.altered_node(node)
    }

    /// A node that differs in one byte of a record that it is built of, or of its own.
    fn with_altered_part(&mut self, node: u8) -> Option<u8> {
        let parts = self.parts(node);
        let part = self.random.pick(&parts);
        let altered = self.altered_node(part)?;
        self.rebuilt(node, &parts, part, altered)
    }

    /// All that a node is built of, operands first and the node itself last.
    fn parts(&self, node: u8) -> Vec<u8> {
        let mut parts = BTreeSet::from([node]);
        for number in (0..=node).rev() {
            if parts.contains(&number) {
                parts.extend(self.operands(number));
            }
        }
        parts.into_iter().collect()
    }

    /// A node of these parts, built with another node in place of one of them.
    fn rebuilt(&mut self, node: u8, parts: &[u8], part: u8, other: u8) -> Option<u8> {
        let mut now: Vec<u8> = (0..=node).collect();
        now[usize::from(part)] = other;
        for &number in parts.iter().filter(|&&number| number > part) {
            let [kind, a, b, _] = self.record(number);
            let of = |operand: u8| now[usize::from(operand)];
            now[usize::from(number)] = match kind {
                node::SUPPLIED | node::EQUAL => number,
                node::IMAGE | node::PREIMAGE => self.node(kind, of(a), b)?,
                _ => self.node(kind, of(a), of(b))?,
            };
        }
        now.pop()
    }

    /// A node whose record differs in one byte.
    fn altered_node(&mut self, node: u8) -> Option<u8> {
        let [mut kind, mut a, mut b, _] = self.record(node);
        match self.random.below(3) {
            0 => kind = self.random.below(7) as u8,
            1 => a = self.random.below(self.plan.nodes.len().max(8)) as u8,
            _ if kind >= node::IMAGE => b = self.random.below(self.plan.maps.len()) as u8,
            _ => b = self.random.below(self.plan.nodes.len()) as u8,
        }
        if kind <= node::EQUAL {
            b = 0;
        }
        self.node(kind, a, b)
    }

    /// Another step: any, or one about the same x or the same y.
    fn other_step(&mut self, step: u8) -> Option<u8> {
        let [lemma, x, y, _, _] = self.plan.steps[usize::from(step)];
        match self.random.below(4) {
            0 => Some(self.random.below(self.plan.steps.len()) as u8),
            1 if form(lemma) == Form::Contained => self.contain_by(5, y, 0).map(|(_, step)| step),
            1 | 2 => self.superset(x, 2).map(|(_, step)| step),
            _ => self.same_x_step(x),
        }
    }

    fn same_x_step(&mut self, x: u8) -> Option<u8> {
        let steps = &self.plan.steps;
        self.random.find(steps.len(), |step| steps[step][1] == x).map(|step| step as u8)
    }
}

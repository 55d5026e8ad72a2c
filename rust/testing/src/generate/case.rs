//! Cases: a plan, a data set and the length of the slice lent for it.
#![forbid(unsafe_code)]

use super::lemma::Miss;
use super::{conflict, data, limits, miss, program};
use crate::encode::{Plan, PIECE_WORDS};
use crate::random::Random;
use crate::reference::flaw::Limit;

/// What a case was made to be; its answer is judged elsewhere.
#[derive(Clone, Copy, Debug, PartialEq, Eq)]
pub enum Origin {
    /// An accepted plan.
    Accepted,
    /// An accepted plan with one more step, which is nearly by its lemma.
    Lemma(Miss),
    /// An accepted plan with a record changed.
    Altered,
    /// A plan that may lack image nodes or steps it needs.
    Incomplete,
    /// A plan right but for a loop that is not parallelizable.
    Conflicting,
    /// An accepted plan with a loop like that, its accesses set apart by region or by field.
    Apart,
    /// A plan with several things wrong.
    Compound,
    /// Bytes changed anywhere.
    Damaged,
    /// As much of something as the limit admits.
    AtLimit(Limit),
    /// One more than that.
    PastLimit(Limit),
}

#[derive(Clone, Debug)]
pub struct Case {
    pub origin: Origin,
    pub plan: Vec<u8>,
    pub data: Vec<u8>,
    /// Old contents of the slice lent.
    pub words: Vec<u64>,
}

/// An endless row of cases, the same for the same seed.
#[derive(Clone, Debug)]
pub struct Generator {
    random: Random,
    /// Every near miss of a lemma, taken in turn.
    misses: Vec<Miss>,
    next_miss: usize,
    next_limit: usize,
}

impl Generator {
    pub fn new(seed: u64) -> Generator {
        Generator { random: Random::new(seed), misses: Miss::all(), next_miss: 0, next_limit: 0 }
    }

    fn next_case(&mut self) -> Case {
        match self.random.below(20) {
            0..=5 => self.accepted(),
            6 => {
                let plan = conflict::apart_plan(&mut self.random);
                self.with_some_data(Origin::Apart, &plan)
            }
            7..=10 => self.lemma_near_miss(),
            11..=14 => {
                let plan = miss::altered_plan(&mut self.random);
                self.with_some_data(Origin::Altered, &plan)
            }
            15 => {
                let plan = program::incomplete_plan(&mut self.random);
                self.with_some_data(Origin::Incomplete, &plan)
            }
            16 => {
                let plan = conflict::conflicting_plan(&mut self.random);
                self.with_some_data(Origin::Conflicting, &plan)
            }
            17 => self.damaged(),
            18 => self.compound(),
            _ => self.limit(),
        }
    }

    fn accepted(&mut self) -> Case {
        let plan = program::accepted_plan(&mut self.random);
        self.with_some_data(Origin::Accepted, &plan)
    }

    fn lemma_near_miss(&mut self) -> Case {
        let miss = self.misses[self.next_miss];
        self.next_miss = (self.next_miss + 1) % self.misses.len();
        loop {
            if let Some(plan) = miss::lemma_near_miss(&mut self.random, miss) {
                return self.with_some_data(Origin::Lemma(miss), &plan);
            }
        }
    }

    fn damaged(&mut self) -> Case {
        let plan = program::accepted_plan(&mut self.random);
        let case = self.with_some_data(Origin::Damaged, &plan);
        Case { plan: miss::damaged_plan(&mut self.random, &plan), ..case }
    }

    fn compound(&mut self) -> Case {
        let plan = miss::compound_plan(&mut self.random);
        let case = self.with_some_data(Origin::Compound, &plan);
        if self.random.one_in(3) {
            return Case { plan: miss::damaged_plan(&mut self.random, &plan), ..case };
        }
        case
    }

    /// The limits in turn, at each and one past it.
    fn limit(&mut self) -> Case {
        let limit = Limit::ALL[self.next_limit / 2];
        let past = self.next_limit % 2;
        self.next_limit = (self.next_limit + 1) % (2 * Limit::ALL.len());
        let origin = if past == 1 { Origin::PastLimit(limit) } else { Origin::AtLimit(limit) };
        let count = limit.value() + past;
        let plan = limits::plan_with(&mut self.random, limit, count);
        let data = limits::data_with(&mut self.random, &plan, limit, count).encode();
        self.with_words(origin, &plan, data)
    }

    fn with_some_data(&mut self, origin: Origin, plan: &Plan) -> Case {
        let random = &mut self.random;
        // An altered plan may name regions that are not there.
        let known = |region: &u8| usize::from(*region) < plan.regions.len();
        let named = plan.maps.iter().all(|map| map[..2].iter().all(known))
            && plan.supplied.iter().all(|supplied| known(&supplied[0]));
        let data = match random.below(10) {
            _ if !named => Vec::new(),
            0..=5 => data::fitting(random, plan).encode(),
            6..=8 => data::nearly_fitting(random, plan),
            _ => data::damaged(random, plan),
        };
        self.with_words(origin, plan, data)
    }

    /// Lends just enough words, more, or fewer.
    fn with_words(&mut self, origin: Origin, plan: &Plan, data: Vec<u8>) -> Case {
        let random = &mut self.random;
        let pieces = data.get(3).copied().map_or(0, usize::from).min(20);
        let needed = plan.nodes.len() * pieces * PIECE_WORDS;
        let lent = match random.below(8) {
            0 => needed.saturating_sub(1),
            1 => random.within(0..=needed),
            2 | 3 => needed + random.within(1..=20),
            _ => needed,
        };
        let words = random.words(lent);
        Case { origin, plan: plan.encode(), data, words }
    }
}

impl Iterator for Generator {
    type Item = Case;

    fn next(&mut self) -> Option<Case> {
        Some(self.next_case())
    }
}

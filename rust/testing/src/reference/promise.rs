//! The third demand, tested directly: what the iterations touch against the
//! final words and each other, with no use of lemmas, needs, the evaluator's
//! sets or the parallelizable rule.
#![forbid(unsafe_code)]

use super::data::DataSet;
use super::plan::{Access, Loop, Origin, Plan};
use super::undisturbed::{test_touches, Disturbance};
use super::Reference;
use crate::encode::PIECE_WORDS;

/// One access touches one element in one iteration of its loop.
#[derive(Clone, Copy, Debug, PartialEq, Eq)]
pub struct Touch {
    pub iteration: usize,
    pub access: Access,
    pub element: usize,
}

/// How what acceptance promises can be broken.
#[derive(Clone, Copy, Debug, PartialEq, Eq)]
pub enum Broken {
    /// The bytes are not of an accepted plan with a fitting data set.
    NotAccepted,
    /// An iteration of the loop with this FOR is found in no piece.
    LostIteration { symbol: usize, iteration: usize },
    /// The loop reduces through a pointer, yet two pieces hold an iteration.
    RepeatedIteration { symbol: usize, iteration: usize },
    /// A piece holds the iteration, but its subregion lacks the element.
    MissingElement { touch: Touch, piece: usize },
    /// An iteration touches what another has to itself.
    Disturbed(Disturbance),
}

/// Everything the loop's iterations touch, from the data set's entries alone.
pub fn touches(current: &Loop, data: &DataSet) -> Vec<Touch> {
    let mut touches = Vec::new();
    for iteration in 0..data.sizes[current.region()] {
        let elements = elements(current, data, iteration);
        for &access in &current.accesses {
            if let Some(element) = elements[access.variable] {
                touches.push(Touch { iteration, access, element });
            }
        }
    }
    touches
}

/// Each variable's element in one iteration; none, and what follows from
/// none, is none.
fn elements(current: &Loop, data: &DataSet, iteration: usize) -> Vec<Option<usize>> {
    let mut elements: Vec<Option<usize>> = Vec::new();
    for variable in &current.variables {
        elements.push(match variable.origin {
            Origin::Iteration => Some(iteration),
            Origin::Entry { map, of } => elements[of].and_then(|element| data.maps[map][element]),
            Origin::Copy { of } => elements[of],
        });
    }
    elements
}

/// Tests the final words of an accepted evaluation against the touches.
pub fn test_promise(plan: &[u8], data: &[u8], words: &[u64]) -> Result<(), Broken> {
    Reference::default().test_promise(plan, data, words)
}

impl Reference {
    /// The same for what a flawed copy accepts.
    pub fn test_promise(&self, plan: &[u8], data: &[u8], words: &[u64]) -> Result<(), Broken> {
        let plan = self.checked_plan(plan).map_err(|_| Broken::NotAccepted)?;
        let data = self.read_data(&plan, data, words.len()).map_err(|_| Broken::NotAccepted)?;
        let outcome = Outcome { plan: &plan, data: &data, words };
        plan.loops.iter().try_for_each(|current| outcome.test_loop(current))
    }
}

/// Final words with the plan and data that say how to read them.
struct Outcome<'a> {
    plan: &'a Plan,
    data: &'a DataSet,
    words: &'a [u64],
}

impl Outcome<'_> {
    /// Whether a symbol's subregion in a piece has an element.
    fn has(&self, symbol: usize, piece: usize, element: usize) -> bool {
        let start = (self.plan.assignments[symbol] * self.data.pieces + piece) * PIECE_WORDS;
        let below_size = element < self.data.sizes[self.plan.symbols[symbol]];
        below_size && self.words[start + element / 64] >> (element % 64) & 1 == 1
    }

    fn holders(&self, symbol: usize, iteration: usize) -> impl Iterator<Item = usize> + '_ {
        (0..self.data.pieces).filter(move |&piece| self.has(symbol, piece, iteration))
    }

    fn test_loop(&self, current: &Loop) -> Result<(), Broken> {
        let symbol = current.symbol;
        for iteration in 0..self.data.sizes[current.region()] {
            match self.holders(symbol, iteration).count() {
                0 => return Err(Broken::LostIteration { symbol, iteration }),
                1 => {}
                _ if current.reduces_through_pointer() => {
                    return Err(Broken::RepeatedIteration { symbol, iteration })
                }
                _ => {}
            }
        }
        let touches = touches(current, self.data);
        touches.iter().try_for_each(|&touch| self.test_touch(current, touch))?;
        test_touches(current, touches).map_err(Broken::Disturbed)
    }

    /// Every piece that holds the iteration has what it touches.
    fn test_touch(&self, current: &Loop, touch: Touch) -> Result<(), Broken> {
        let lacks = |&piece: &usize| !self.has(touch.access.symbol, piece, touch.element);
        match self.holders(current.symbol, touch.iteration).find(lacks) {
            Some(piece) => Err(Broken::MissingElement { touch, piece }),
            None => Ok(()),
        }
    }
}

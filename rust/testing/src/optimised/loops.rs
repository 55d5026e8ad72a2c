//! Statements: one pass that judges them, one that settles the needs.
#![forbid(unsafe_code)]

use mavisglen::Refusal;

use super::plan::{contains, invalid, mismatch, Plan};
use super::steps::{complete, contained, disjoint, Facts};
use crate::encode::{limit, node, statement};

/// What the statements say: symbols, and loops that reduce by a pointer.
pub struct Loops {
    pub symbols: usize,
    pub symbol_regions: [u8; limit::STATEMENTS],
    /// One bit for each FOR whose loop has an uncentered REDUCE.
    needs_disjoint: u64,
}

/// How the parallelizable rule sees an access, as a bit of a byte: an uncentered REDUCE by its operator, 0 to 3, or
/// one of these.
mod class {
    pub const CENTERED_READ: u8 = 4;
    pub const UNCENTERED_READ: u8 = 5;
    pub const CENTERED_CHANGE: u8 = 6;
    pub const UNCENTERED_WRITE: u8 = 7;

    /// The classes that each class may not share a target with; an uncentered WRITE is refused by its own.
    pub const CONFLICTS: [u8; 8] = [
        0b1111_1110,
        0b1111_1101,
        0b1111_1011,
        0b1111_0111,
        0b1000_1111,
        0b1100_1111,
        0b1010_1111,
        0b1111_1111,
    ];
}

/// What an access does.
#[derive(Clone, Copy)]
enum Effect {
    Read,
    Write,
    Reduce { operator: u8 },
}

/// Fields of all regions: what the parallelizable rule is about.
const TARGETS: usize = limit::REGIONS * limit::FIELDS;

/// The open loop: its variables, and what it does with each field.
struct Open {
    record: usize,
    variables: usize,
    regions: [u8; limit::VARIABLES],
    /// One bit for each centered variable.
    centered: u32,
    /// The classes of the accesses so far, by region and field.
    classes: [u8; TARGETS],
    conflicts: bool,
    reduces_through_pointer: bool,
}

impl Open {
    fn new(record: usize, region: u8) -> Open {
        let mut regions = [0; limit::VARIABLES];
        regions[0] = region;
        Open {
            record,
            variables: 1,
            regions,
            centered: 1,
            classes: [0; TARGETS],
            conflicts: false,
            reduces_through_pointer: false,
        }
    }

    /// The region of a variable, if there is such a variable.
    #[inline]
    fn region(&self, variable: u8) -> Option<u8> {
        (usize::from(variable) < self.variables)
            .then(|| self.regions[usize::from(variable) % limit::VARIABLES])
    }

    #[inline]
    fn define(&mut self, region: u8, centered: bool) {
        self.regions[self.variables % limit::VARIABLES] = region;
        self.centered |= u32::from(centered) << self.variables;
        self.variables += 1;
    }

    #[inline]
    fn is_centered(&self, variable: u8) -> bool {
        self.centered >> variable & 1 == 1
    }

    /// An access of a class, compared with all before it of the same region and field at once.
    #[inline]
    fn access(&mut self, region: u8, field: u8, class: u8) {
        let target = usize::from(region) * limit::FIELDS + usize::from(field);
        let classes = &mut self.classes[target % TARGETS];
        *classes |= 1 << class;
        self.conflicts |= *classes & class::CONFLICTS[usize::from(class) % 8] != 0;
        self.reduces_through_pointer |= class < class::CENTERED_READ;
    }

    /// The class of an access through a variable.
    #[inline]
    fn class(&self, effect: Effect, variable: u8) -> u8 {
        match (effect, self.is_centered(variable)) {
            (Effect::Read, false) => class::UNCENTERED_READ,
            (Effect::Read, true) => class::CENTERED_READ,
            (Effect::Write, false) => class::UNCENTERED_WRITE,
            (Effect::Write, true) => class::CENTERED_CHANGE,
            (Effect::Reduce { operator }, false) => operator,
            (Effect::Reduce { .. }, true) => class::CENTERED_CHANGE,
        }
    }
}

pub fn read(plan: &Plan) -> Result<Loops, Refusal> {
    let mut loops = Loops { symbols: 0, symbol_regions: [0; limit::STATEMENTS], needs_disjoint: 0 };
    let mut first_conflict = None;
    let mut open: Option<Open> = None;
    for (number, &bytes) in plan.statements.iter().enumerate() {
        let record = Record { number, bytes };
        if bytes[0] == statement::FOR {
            if let Some(open) = &open {
                close(open, &mut loops, &mut first_conflict);
            }
            open = Some(read_for(plan, record, &mut loops)?);
        } else {
            let open = open.as_mut().ok_or(record.invalid())?;
            read_statement(plan, open, record, &mut loops)?;
        }
    }
    if let Some(open) = &open {
        close(open, &mut loops, &mut first_conflict);
    }
    first_conflict.map_or(Ok(loops), |record| Err(Refusal::NotParallelizable(record as u64)))
}

/// The first loop that is not parallelizable is kept until all statements are read.
#[inline]
fn close(open: &Open, loops: &mut Loops, first_conflict: &mut Option<usize>) {
    if first_conflict.is_none() && open.conflicts {
        *first_conflict = Some(open.record);
    }
    loops.needs_disjoint |= u64::from(open.reduces_through_pointer) << open.record;
}

impl Loops {
    #[inline]
    fn add_symbol(&mut self, region: u8) {
        self.symbol_regions[self.symbols] = region;
        self.symbols += 1;
    }
}

/// A record of section 4 and its number.
#[derive(Clone, Copy)]
struct Record {
    number: usize,
    bytes: [u8; 4],
}

impl Record {
    #[inline]
    fn invalid(self) -> Refusal {
        invalid(4, self.number)
    }
}

fn read_for(plan: &Plan, record: Record, loops: &mut Loops) -> Result<Open, Refusal> {
    let [_, region, b, c] = record.bytes;
    if usize::from(region) >= plan.regions.len() || b != 0 || c != 0 {
        return Err(record.invalid());
    }
    loops.add_symbol(region);
    Ok(Open::new(record.number, region))
}

#[inline]
fn read_statement(plan: &Plan, open: &mut Open, record: Record, loops: &mut Loops) -> Result<(), Refusal> {
    let [kind, a, b, c] = record.bytes;
    match kind {
        statement::LOAD => read_entry(plan, open, record, loops, true),
        statement::CALL => read_entry(plan, open, record, loops, false),
        statement::COPY => {
            let region = open.region(a).ok_or(record.invalid())?;
            if open.variables == limit::VARIABLES || b != 0 || c != 0 {
                return Err(record.invalid());
            }
            open.define(region, open.is_centered(a));
            Ok(())
        }
        statement::READ => read_access(plan, open, record, loops, Effect::Read, 0),
        statement::WRITE => read_access(plan, open, record, loops, Effect::Write, 0),
        statement::REDUCE => read_access(plan, open, record, loops, Effect::Reduce { operator: c }, 3),
        _ => Err(record.invalid()),
    }
}

/// READ, WRITE and REDUCE, and the greatest last byte that each may have.
#[inline]
fn read_access(
    plan: &Plan,
    open: &mut Open,
    record: Record,
    loops: &mut Loops,
    effect: Effect,
    last: u8,
) -> Result<(), Refusal> {
    let [_, a, b, c] = record.bytes;
    let region = open.region(a).ok_or(record.invalid())?;
    if b >= plan.regions[usize::from(region)] || c > last {
        return Err(record.invalid());
    }
    open.access(region, b, open.class(effect, a));
    loops.add_symbol(region);
    Ok(())
}

/// LOAD, which reads its variable's region, and CALL.
#[inline]
fn read_entry(
    plan: &Plan,
    open: &mut Open,
    record: Record,
    loops: &mut Loops,
    loads: bool,
) -> Result<(), Refusal> {
    let [_, a, b, c] = record.bytes;
    let region = open.region(b).ok_or(record.invalid())?;
    let &[source, target, _] = plan.maps.get(usize::from(a)).ok_or(record.invalid())?;
    let last = if loads { plan.regions[usize::from(region)] - 1 } else { 0 };
    if open.variables == limit::VARIABLES || c > last {
        return Err(record.invalid());
    }
    if region != source {
        return Err(mismatch(4, record.number));
    }
    if loads {
        open.access(region, c, open.class(Effect::Read, b));
        loops.add_symbol(region);
    }
    open.define(target, false);
    Ok(())
}

/// No node has this number, so no fact is about it.
const UNLISTED: u8 = 255;

/// Follows each variable's bound through the statements, known to be valid.
pub fn settle_needs(plan: &Plan, loops: &Loops, facts: &Facts) -> Result<(), Refusal> {
    let mut bounds = [UNLISTED; limit::VARIABLES];
    let (mut variables, mut symbol) = (0, 0);
    for (record, &[kind, a, b, _]) in plan.statements.iter().enumerate() {
        let met = match kind {
            statement::FOR => {
                let owner = plan.assignments[symbol];
                (bounds[0], variables) = (owner, 1);
                let needs_disjoint = loops.needs_disjoint >> record & 1 == 1;
                facts.have(complete(owner)) && (!needs_disjoint || facts.have(disjoint(owner)))
            }
            statement::LOAD | statement::CALL => {
                let bound = bounds[usize::from(b) % limit::VARIABLES];
                bounds[variables % limit::VARIABLES] = image(plan, bound, a);
                variables += 1;
                kind == statement::CALL || facts.have(contained(bound, plan.assignments[symbol]))
            }
            statement::COPY => {
                bounds[variables % limit::VARIABLES] = bounds[usize::from(a) % limit::VARIABLES];
                variables += 1;
                true
            }
            statement::READ | statement::WRITE | statement::REDUCE => {
                facts.have(contained(bounds[usize::from(a) % limit::VARIABLES], plan.assignments[symbol]))
            }
            // Unknown, and refused before.
            _ => true,
        };
        if !met {
            return Err(Refusal::UnmetNeed(symbol as u64));
        }
        symbol += usize::from(kind != statement::CALL && kind != statement::COPY);
    }
    Ok(())
}

/// The listed image of a bound under a map.
#[inline]
fn image(plan: &Plan, bound: u8, map: u8) -> u8 {
    let wanted = [node::IMAGE, bound, map, 0];
    plan.nodes.iter().position(|&record| record == wanted).map_or(UNLISTED, |node| node as u8)
}

impl Facts {
    #[inline]
    fn have(&self, fact: u32) -> bool {
        contains(&self.packed[..self.count], fact)
    }
}

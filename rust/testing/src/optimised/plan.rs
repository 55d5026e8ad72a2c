//! Sections and nodes of a plan, in fixed arrays.
#![forbid(unsafe_code)]

use mavisglen::{Answer, Refusal};

use super::loops::{self, Loops};
use super::{steps, take_section};
use crate::encode::{limit, node, EDITION};

/// The records of a plan in place, and what is known of its nodes.
pub struct Plan<'a> {
    pub regions: &'a [u8],
    pub maps: &'a [[u8; 3]],
    pub supplied: &'a [[u8; 2]],
    pub statements: &'a [[u8; 4]],
    pub nodes: &'a [[u8; 4]],
    pub assignments: &'a [u8],
    pub steps: &'a [[u8; 5]],
    /// Region of each node.
    pub node_regions: [u8; limit::NODES],
}

#[inline]
pub fn invalid(section: u64, record: usize) -> Refusal {
    Refusal::InvalidRecord(section * 256 + record as u64)
}

#[inline]
pub fn mismatch(section: u64, record: usize) -> Refusal {
    Refusal::RegionMismatch(section * 256 + record as u64)
}

/// Reads and judges a whole plan.
pub fn read(bytes: &[u8]) -> Result<Plan<'_>, Refusal> {
    let mut plan = split(bytes)?;
    read_tables(&plan)?;
    let loops = loops::read(&plan)?;
    read_nodes(&mut plan)?;
    read_assignments(&plan, &loops)?;
    let facts = steps::read(&plan)?;
    loops::settle_needs(&plan, &loops, &facts)?;
    Ok(plan)
}

impl Plan<'_> {
    pub fn counts(&self) -> Answer {
        Answer::Accepted {
            symbols: self.assignments.len() as u8,
            nodes: self.nodes.len() as u8,
            steps: self.steps.len() as u8,
        }
    }
}

fn split(bytes: &[u8]) -> Result<Plan<'_>, Refusal> {
    let (&edition, mut rest) = bytes.split_first().ok_or(Refusal::Truncated(0))?;
    if edition != EDITION {
        return Err(Refusal::UnknownEdition);
    }
    let regions = take::<1>(&mut rest, 1, limit::REGIONS)?;
    if regions.is_empty() {
        return Err(Refusal::InvalidLength(1));
    }
    let plan = Plan {
        regions: regions.as_flattened(),
        maps: take(&mut rest, 2, limit::MAPS)?,
        supplied: take(&mut rest, 3, limit::SUPPLIED)?,
        statements: take(&mut rest, 4, limit::STATEMENTS)?,
        nodes: take(&mut rest, 5, limit::NODES)?,
        assignments: take::<1>(&mut rest, 6, limit::ASSIGNMENTS)?.as_flattened(),
        steps: take(&mut rest, 7, limit::STEPS)?,
        node_regions: [0; limit::NODES],
    };
    if !rest.is_empty() {
        return Err(Refusal::TrailingBytes((bytes.len() - rest.len()) as u64));
    }
    Ok(plan)
}

/// Takes a section of whole records, at most so many, off the front.
#[inline]
fn take<'a, const WIDTH: usize>(
    rest: &mut &'a [u8],
    section: u64,
    most: usize,
) -> Result<&'a [[u8; WIDTH]], Refusal> {
    let (body, after) = take_section(rest).ok_or(Refusal::Truncated(section))?;
    let (records, part) = body.as_chunks();
    if !part.is_empty() || records.len() > most {
        return Err(Refusal::InvalidLength(section));
    }
    *rest = after;
    Ok(records)
}

/// Regions, maps and supplied partitions.
fn read_tables(plan: &Plan) -> Result<(), Refusal> {
    let regions = plan.regions.len();
    let bad_region = plan.regions.iter().position(|fields| fields.wrapping_sub(1) >= limit::FIELDS as u8);
    if let Some(record) = bad_region {
        return Err(invalid(1, record));
    }
    let known = |region: u8| usize::from(region) < regions;
    let bad_map =
        plan.maps.iter().position(|&[source, target, total]| !known(source) || !known(target) || total > 1);
    if let Some(record) = bad_map {
        return Err(invalid(2, record));
    }
    let bad_supplied = plan.supplied.iter().position(|&[region, flags]| !known(region) || flags > 3);
    bad_supplied.map_or(Ok(()), |record| Err(invalid(3, record)))
}

fn read_nodes(plan: &mut Plan) -> Result<(), Refusal> {
    let mut packed = [0u32; limit::NODES];
    for (record, &bytes) in plan.nodes.iter().enumerate() {
        let region = node_region(plan, record, bytes)?;
        packed[record] = u32::from_le_bytes(bytes);
        if contains(&packed[..record], packed[record]) {
            return Err(Refusal::DuplicateNode(record as u64));
        }
        plan.node_regions[record] = region;
    }
    Ok(())
}

#[inline]
fn node_region(plan: &Plan, record: usize, [kind, a, b, last]: [u8; 4]) -> Result<u8, Refusal> {
    let earlier = |number: u8| {
        if usize::from(number) < record {
            Some(plan.node_regions[usize::from(number)])
        } else {
            None
        }
    };
    let map = |number: u8| plan.maps.get(usize::from(number)).copied();
    let (region, agrees) = match kind {
        node::SUPPLIED => {
            (plan.supplied.get(usize::from(a)).map(|supplied| supplied[0]).filter(|_| b == 0), true)
        }
        node::EQUAL => ((usize::from(a) < plan.regions.len() && b == 0).then_some(a), true),
        node::UNION..=node::DIFFERENCE => (earlier(a).and(earlier(b)), earlier(a) == earlier(b)),
        node::IMAGE => match (earlier(a), map(b)) {
            (Some(of), Some([source, target, _])) => (Some(target), of == source),
            _ => (None, true),
        },
        node::PREIMAGE => match (earlier(a), map(b)) {
            (Some(of), Some([source, target, _])) => (Some(source), of == target),
            _ => (None, true),
        },
        _ => (None, true),
    };
    match region {
        Some(region) if last == 0 && agrees => Ok(region),
        Some(_) if last == 0 => Err(mismatch(5, record)),
        _ => Err(invalid(5, record)),
    }
}

fn read_assignments(plan: &Plan, loops: &Loops) -> Result<(), Refusal> {
    if plan.assignments.len() != loops.symbols {
        return Err(Refusal::AssignmentCount(loops.symbols as u64));
    }
    for (record, (&assigned, &region)) in plan.assignments.iter().zip(&loops.symbol_regions).enumerate() {
        if usize::from(assigned) >= plan.nodes.len() {
            return Err(invalid(6, record));
        }
        if plan.node_regions[usize::from(assigned)] != region {
            return Err(mismatch(6, record));
        }
    }
    Ok(())
}

/// Searched eight at a time, which the compiler turns into vectors.
#[inline]
pub fn contains(values: &[u32], wanted: u32) -> bool {
    let (eights, rest) = values.as_chunks::<8>();
    let in_eight = |eight: &[u32; 8]| eight.iter().fold(false, |found, &value| found | (value == wanted));
    eights.iter().any(in_eight) || rest.contains(&wanted)
}

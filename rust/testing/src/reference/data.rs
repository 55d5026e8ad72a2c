//! Reading a data set for an accepted plan: Misframed, Dangling, Untrue.
#![forbid(unsafe_code)]

use std::collections::BTreeSet;

use mavisglen::Refusal;

use super::flaw::{Flaw, Limit};
use super::plan::{Map, Plan, Supplied};
use super::sections::{records, take_section};
use super::{require, Reference};

pub type Set = BTreeSet<usize>;

/// A data set that fits its plan.
#[derive(Clone, Debug)]
pub struct DataSet {
    pub pieces: usize,
    /// Size of each region.
    pub sizes: Vec<usize>,
    /// Entries of each map; none where it points nowhere.
    pub maps: Vec<Vec<Option<usize>>>,
    /// Each supplied partition, piece by piece.
    pub supplied: Vec<Vec<Set>>,
}

/// A data set cut into its parts, their values not yet judged.
struct Frame<'a> {
    pieces: usize,
    sizes: Vec<usize>,
    /// Entries of each map.
    maps: Vec<Vec<usize>>,
    /// Bytes of each piece of each supplied partition.
    supplied: Vec<Vec<&'a [u8]>>,
}

const NONE: usize = 65535;

impl Reference {
    /// The slice's length matters to a flaw only.
    pub fn read_data(&self, plan: &Plan, bytes: &[u8], lent: usize) -> Result<DataSet, Refusal> {
        let frame = self.cut_data(plan, bytes).ok_or(Refusal::InvalidData)?;
        if self.has(Flaw::SliceJudgedBeforeEntries) {
            self.judge_slice(plan, frame.pieces, lent)?;
        }
        if self.has(Flaw::PartitionsJudgedBeforeEntries) {
            self.read_partitions(plan, &frame)?;
        }
        let maps = self.read_entries(plan, &frame)?;
        let supplied = self.read_partitions(plan, &frame)?;
        Ok(DataSet { pieces: frame.pieces, sizes: frame.sizes, maps, supplied })
    }

    /// None is Misframed: edition, lengths, N or sizes wrong, or bytes left.
    fn cut_data<'a>(&self, plan: &Plan, bytes: &'a [u8]) -> Option<Frame<'a>> {
        let (&edition, rest) = bytes.split_first()?;
        let (first, rest) = take_section(rest)?;
        let (second, rest) = take_section(rest)?;
        let (third, rest) = take_section(rest)?;
        let (fourth, rest) = take_section(rest)?;
        let framed = (edition == 1 || self.has(Flaw::DataEditionIgnored))
            && (rest.is_empty() || self.has(Flaw::DataTrailingBytesAdmitted));
        let pieces = self.read_pieces(first)?;
        let sizes = self.read_sizes(plan, second)?;
        let maps = cut_maps(plan, &sizes, third)?;
        let supplied = cut_partitions(plan, pieces, &sizes, fourth)?;
        framed.then_some(Frame { pieces, sizes, maps, supplied })
    }

    /// Section 1: N in one byte, 1 to 16.
    fn read_pieces(&self, body: &[u8]) -> Option<usize> {
        let &[byte] = body else { return None };
        let pieces = usize::from(byte);
        let enough = pieces >= 1 || self.has(Flaw::NoPiecesAdmitted);
        (enough && pieces <= self.most(Limit::Pieces)).then_some(pieces)
    }

    /// Section 2: one size for each region, 0 to 512.
    fn read_sizes(&self, plan: &Plan, body: &[u8]) -> Option<Vec<usize>> {
        let sizes = numbers(body)?;
        let counted = sizes.len() == plan.regions.len();
        (counted && sizes.iter().all(|&size| size <= self.most(Limit::Size))).then_some(sizes)
    }

    /// Dangling, by map and element.
    fn read_entries(&self, plan: &Plan, frame: &Frame) -> Result<Vec<Vec<Option<usize>>>, Refusal> {
        let mut maps = Vec::new();
        for (number, (map, entries)) in plan.maps.iter().zip(&frame.maps).enumerate() {
            for (element, &entry) in entries.iter().enumerate() {
                let valid = self.entry_is_valid(map, frame.sizes[map.target], entry);
                require(valid, Refusal::InvalidEntry((number * 512 + element) as u64))?;
            }
            maps.push(entries.iter().map(|&entry| (entry != NONE).then_some(entry)).collect());
        }
        Ok(maps)
    }

    /// None is for partial maps only; else an element of the target.
    fn entry_is_valid(&self, map: &Map, target_size: usize, entry: usize) -> bool {
        if entry == NONE {
            return (!map.total || self.has(Flaw::NoneAdmittedInTotalMap))
                && !self.has(Flaw::NoneRefusedInPartialMap);
        }
        entry < target_size || (entry == target_size && self.has(Flaw::EntryMayEqualSize))
    }

    /// Untrue, by supplied partition.
    fn read_partitions(&self, plan: &Plan, frame: &Frame) -> Result<Vec<Vec<Set>>, Refusal> {
        let mut partitions = Vec::new();
        for (number, (declared, pieces)) in plan.supplied.iter().zip(&frame.supplied).enumerate() {
            let size = frame.sizes[declared.region];
            let sets: Vec<Set> = pieces.iter().map(|bytes| self.members(bytes)).collect();
            let padded =
                sets.iter().flatten().all(|&element| element < size) || self.has(Flaw::PadBitsIgnored);
            let kept = self.keeps_its_flags(declared, size, &sets);
            require(padded && kept, Refusal::InvalidPartition(number as u64))?;
            partitions.push(sets);
        }
        Ok(partitions)
    }

    /// Disjoint: no element in two pieces. Complete: each in some piece.
    fn keeps_its_flags(&self, declared: &Supplied, size: usize, pieces: &[Set]) -> bool {
        let holders = |element: usize| pieces.iter().filter(|piece| piece.contains(&element)).count();
        let disjoint = (0..size).all(|element| holders(element) <= 1) || self.has(Flaw::DisjointUnjudged);
        let complete = if self.has(Flaw::CompleteBySizes) {
            pieces.iter().map(Set::len).sum::<usize>() >= size
        } else {
            (0..size).all(|element| holders(element) >= 1) || self.has(Flaw::CompleteUnjudged)
        };
        (disjoint || !declared.disjoint) && (complete || !declared.complete)
    }

    /// The elements whose bit is 1, from element 0, highest bit first.
    fn members(&self, bytes: &[u8]) -> Set {
        let bit =
            |element: usize| if self.has(Flaw::SuppliedBitsReversed) { element % 8 } else { 7 - element % 8 };
        (0..bytes.len() * 8).filter(|&element| bytes[element / 8] >> bit(element) & 1 == 1).collect()
    }
}

/// Section 3: the maps in order, an entry for each source element.
fn cut_maps(plan: &Plan, sizes: &[usize], body: &[u8]) -> Option<Vec<Vec<usize>>> {
    let mut entries = numbers(body)?.into_iter();
    let mut maps = Vec::new();
    for map in &plan.maps {
        let cut: Vec<usize> = entries.by_ref().take(sizes[map.source]).collect();
        if cut.len() < sizes[map.source] {
            return None;
        }
        maps.push(cut);
    }
    entries.next().is_none().then_some(maps)
}

/// Section 4: the supplied partitions in order, piece by piece, each piece
/// in (n + 7) div 8 bytes.
fn cut_partitions<'a>(
    plan: &Plan,
    pieces: usize,
    sizes: &[usize],
    body: &'a [u8],
) -> Option<Vec<Vec<&'a [u8]>>> {
    let mut rest = body;
    let mut partitions = Vec::new();
    for supplied in &plan.supplied {
        let mut partition = Vec::new();
        for _ in 0..pieces {
            let (piece, after) = rest.split_at_checked(sizes[supplied.region].div_ceil(8))?;
            partition.push(piece);
            rest = after;
        }
        partitions.push(partition);
    }
    rest.is_empty().then_some(partitions)
}

/// Two-byte numbers; none if a byte is left over.
fn numbers(body: &[u8]) -> Option<Vec<usize>> {
    body.len().is_multiple_of(2).then(|| records(body).map(|(_, [high, low])| high * 256 + low).collect())
}

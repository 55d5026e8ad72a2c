//! Data sets and evaluation, eight words to a piece.
#![forbid(unsafe_code)]

use std::cmp::Ordering;

use mavisglen::Refusal;

use super::plan::Plan;
use super::take_section;
use crate::encode::{flag, limit, node, EDITION, NONE, PIECE_WORDS};

pub type Piece = [u64; PIECE_WORDS];

/// A data set in place; entries are two bytes each.
pub struct Data<'a> {
    pub pieces: usize,
    sizes: &'a [[u8; 2]],
    pub maps: [&'a [[u8; 2]]; limit::MAPS],
    supplied: [&'a [u8]; limit::SUPPLIED],
}

impl Data<'_> {
    #[inline]
    pub fn size(&self, region: u8) -> usize {
        usize::from(u16::from_be_bytes(self.sizes[usize::from(region)]))
    }
}

/// Judges the data set.
#[inline(always)]
pub fn read<'a>(plan: &Plan, bytes: &'a [u8]) -> Result<Data<'a>, Refusal> {
    let data = cut(plan, bytes).ok_or(Refusal::InvalidData)?;
    judge_entries(plan, &data)?;
    judge_partitions(plan, &data)?;
    Ok(data)
}

/// Judges the data set and the slice and writes every node.
pub fn fill(plan: &Plan, bytes: &[u8], words: &mut [u64]) -> Result<(), Refusal> {
    let data = read(plan, bytes)?;
    let needed = plan.nodes.len() * data.pieces * PIECE_WORDS;
    let Some(words) = words.get_mut(..needed) else { return Err(Refusal::OutputTooSmall(needed as u64)) };
    let (pieces, _) = words.as_chunks_mut();
    for (number, &record) in plan.nodes.iter().enumerate() {
        let (done, rest) = pieces.split_at_mut(number * data.pieces);
        fill_node(plan, &data, record, plan.node_regions[number], done, &mut rest[..data.pieces]);
    }
    Ok(())
}

fn cut<'a>(plan: &Plan, bytes: &'a [u8]) -> Option<Data<'a>> {
    let (&edition, rest) = bytes.split_first()?;
    let (first, rest) = take_section(rest)?;
    let (second, rest) = take_section(rest)?;
    let (third, rest) = take_section(rest)?;
    let (fourth, rest) = take_section(rest)?;
    let (sizes, half_size) = second.as_chunks();
    let (entries, half_entry) = third.as_chunks();
    let framed = edition == EDITION && rest.is_empty() && half_size.is_empty() && half_entry.is_empty();
    let &[pieces] = first else { return None };
    let counted = sizes.len() == plan.regions.len() && (1..=limit::PIECES).contains(&usize::from(pieces));
    let small = sizes.iter().all(|&size| usize::from(u16::from_be_bytes(size)) <= limit::SIZE);
    if !(framed && counted && small) {
        return None;
    }
    let mut data = Data {
        pieces: usize::from(pieces),
        sizes,
        maps: [&[]; limit::MAPS],
        supplied: [&[]; limit::SUPPLIED],
    };
    cut_maps(plan, &mut data, entries)?;
    cut_partitions(plan, &mut data, fourth)?;
    Some(data)
}

fn cut_maps<'a>(plan: &Plan, data: &mut Data<'a>, mut entries: &'a [[u8; 2]]) -> Option<()> {
    for (number, &[source, ..]) in plan.maps.iter().enumerate() {
        (data.maps[number], entries) = entries.split_at_checked(data.size(source))?;
    }
    entries.is_empty().then_some(())
}

fn cut_partitions<'a>(plan: &Plan, data: &mut Data<'a>, mut bytes: &'a [u8]) -> Option<()> {
    for (number, &[region, _]) in plan.supplied.iter().enumerate() {
        let length = data.size(region).div_ceil(8) * data.pieces;
        (data.supplied[number], bytes) = bytes.split_at_checked(length)?;
    }
    bytes.is_empty().then_some(())
}

/// One pass without branches tells whether any entry is wrong; only then is
/// the first one looked for.
fn judge_entries(plan: &Plan, data: &Data) -> Result<(), Refusal> {
    for (number, (&[_, target, total], entries)) in plan.maps.iter().zip(data.maps).enumerate() {
        let size = data.size(target) as u16;
        let wrong = |entry: [u8; 2]| {
            let entry = u16::from_be_bytes(entry);
            (entry >= size) & ((total == 1) | (entry != NONE))
        };
        if entries.iter().fold(false, |found, &entry| found | wrong(entry)) {
            let element = entries.iter().position(|&entry| wrong(entry)).unwrap_or(0);
            return Err(Refusal::InvalidEntry((number * limit::SIZE + element) as u64));
        }
    }
    Ok(())
}

fn judge_partitions(plan: &Plan, data: &Data) -> Result<(), Refusal> {
    for (number, &[region, flags]) in plan.supplied.iter().enumerate() {
        let full = below(data.size(region));
        let (mut seen, mut wrong) = ([0; PIECE_WORDS], 0);
        for piece in 0..data.pieces {
            let piece = supplied_piece(data, number, region, piece);
            for word in 0..PIECE_WORDS {
                let shared = if flags & flag::DISJOINT != 0 { seen[word] & piece[word] } else { 0 };
                wrong |= shared | (piece[word] & !full[word]);
                seen[word] |= piece[word];
            }
        }
        if wrong != 0 || (flags & flag::COMPLETE != 0 && seen != full) {
            return Err(Refusal::InvalidPartition(number as u64));
        }
    }
    Ok(())
}

/// The elements below a number.
#[inline]
pub fn below(end: usize) -> Piece {
    let (full, partial) = (end / 64, (1 << (end % 64)) - 1);
    std::array::from_fn(|word| match word.cmp(&full) {
        Ordering::Less => !0,
        Ordering::Equal => partial,
        Ordering::Greater => 0,
    })
}

/// Bytes with the highest bit first, turned into words with the lowest first.
#[inline]
pub fn supplied_piece(data: &Data, number: usize, region: u8, piece: usize) -> Piece {
    let length = data.size(region).div_ceil(8);
    let bytes = &data.supplied[number][piece * length..(piece + 1) * length];
    let mut words = [0; PIECE_WORDS];
    let (whole, part) = bytes.as_chunks();
    for (word, &eight) in words.iter_mut().zip(whole) {
        *word = u64::from_be_bytes(eight).reverse_bits();
    }
    if !part.is_empty() {
        let mut eight = [0; 8];
        eight[..part.len()].copy_from_slice(part);
        words[whole.len() % PIECE_WORDS] = u64::from_be_bytes(eight).reverse_bits();
    }
    words
}

/// All pieces of a node, from those of the nodes before it.
#[inline]
pub fn fill_node(
    plan: &Plan,
    data: &Data,
    [kind, a, b, _]: [u8; 4],
    region: u8,
    done: &[Piece],
    out: &mut [Piece],
) {
    let pieces = data.pieces;
    let of = |node: u8| &done[usize::from(node) * pieces..][..pieces];
    match kind {
        node::SUPPLIED => {
            for (piece, out) in out.iter_mut().enumerate() {
                *out = supplied_piece(data, usize::from(a), plan.supplied[usize::from(a)][0], piece);
            }
        }
        node::EQUAL => fill_equal(data.size(region), out),
        node::UNION => combine(of(a), of(b), out, |a, b| a | b),
        node::INTERSECTION => combine(of(a), of(b), out, |a, b| a & b),
        node::DIFFERENCE => combine(of(a), of(b), out, |a, b| a & !b),
        node::IMAGE => {
            let entries = data.maps[usize::from(b)];
            of(a).iter().zip(out).for_each(|(of, out)| *out = image(entries, of));
        }
        _ => fill_preimage(data.maps[usize::from(b)], of(a), out),
    }
}

/// Each piece is what lies below its end and not below its start.
#[inline]
fn fill_equal(size: usize, out: &mut [Piece]) {
    let (quotient, remainder) = (size / out.len(), size % out.len());
    let (mut end, mut before) = (0, [0; PIECE_WORDS]);
    for (piece, out) in out.iter_mut().enumerate() {
        end += quotient + usize::from(piece < remainder);
        let upto = below(end);
        *out = std::array::from_fn(|word| upto[word] & !before[word]);
        before = upto;
    }
}

#[inline]
fn combine(a: &[Piece], b: &[Piece], out: &mut [Piece], operator: impl Fn(u64, u64) -> u64) {
    for ((a, b), out) in a.iter().zip(b).zip(out) {
        *out = std::array::from_fn(|word| operator(a[word], b[word]));
    }
}

/// Entries are below 512 or none; none falls into a word that is not kept.
const SPARE_WORDS: usize = 16;

#[inline]
pub fn image(entries: &[[u8; 2]], of: &Piece) -> Piece {
    let mut words = [0u64; SPARE_WORDS];
    for (&word, entries) in of.iter().zip(entries.chunks(64)) {
        let mut bits = word;
        while bits != 0 {
            let element = bits.trailing_zeros() as usize;
            bits &= bits - 1;
            let Some(&entry) = entries.get(element) else { break };
            let entry = u16::from_be_bytes(entry);
            words[usize::from(entry >> 6) % SPARE_WORDS] |= 1 << (entry % 64);
        }
    }
    std::array::from_fn(|word| words[word])
}

/// Entries are decoded once for all pieces of a node.
#[inline]
pub fn fill_preimage(entries: &[[u8; 2]], of: &[Piece], out: &mut [Piece]) {
    let mut decoded = [NONE; limit::SIZE];
    let decoded = &mut decoded[..entries.len()];
    decoded.iter_mut().zip(entries).for_each(|(decoded, &entry)| *decoded = u16::from_be_bytes(entry));
    of.iter().zip(out).for_each(|(of, out)| *out = preimage(decoded, of));
}

#[inline]
fn preimage(entries: &[u16], of: &Piece) -> Piece {
    let mut set = [0u64; SPARE_WORDS];
    set[..PIECE_WORDS].copy_from_slice(of);
    let test = |entry: u16| set[usize::from(entry >> 6) % SPARE_WORDS] >> (entry % 64) & 1;
    let gather =
        |entries: &[u16]| (0..).zip(entries).fold(0, |bits, (bit, &entry)| bits | test(entry) << bit);
    let mut words = [0; PIECE_WORDS];
    // Blocks of a known length are unrolled, shifts by constants.
    let (blocks, rest) = entries.as_chunks::<64>();
    words.iter_mut().zip(blocks).for_each(|(word, block)| *word = gather(block));
    if !rest.is_empty() {
        words[blocks.len() % PIECE_WORDS] = gather(rest);
    }
    words
}

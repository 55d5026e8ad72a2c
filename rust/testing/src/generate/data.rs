//! Data sets for the records of a plan: fitting, nearly fitting, damaged.
#![forbid(unsafe_code)]

use crate::encode::{flag, limit, DataSet, Plan, NONE};
use crate::random::Random;

/// A data set that fits the plan.
pub fn fitting(random: &mut Random, plan: &Plan) -> DataSet {
    let pieces = match random.below(8) {
        0 => limit::PIECES,
        1 => random.within(1..=limit::PIECES),
        _ => random.within(1..=4),
    };
    let largest = random.pick(&[2, 5, 9, 9, 17, 17, 40, 70, 130, limit::SIZE]);
    let sizes = plan.regions.iter().map(|_| some_size(random, largest)).collect();
    filled(random, plan, pieces as u8, sizes)
}

/// A data set that fits every plan of right regions, maps and supplied partitions: two elements in each region, every
/// entry the first of them, and one piece that has both.
pub fn all_to_first(plan: &Plan) -> DataSet {
    DataSet {
        pieces: 1,
        sizes: vec![2; plan.regions.len()],
        maps: vec![vec![0; 2]; plan.maps.len()],
        supplied: vec![vec![vec![true; 2]]; plan.supplied.len()],
    }
}

/// Often the largest itself or a whole number of words or bytes.
fn some_size(random: &mut Random, largest: usize) -> u16 {
    let size = match random.below(8) {
        0 => largest,
        1 => largest / 8 * 8,
        2 => largest / 64 * 64,
        _ => random.within(0..=largest),
    };
    size as u16
}

/// A fitting data set of these pieces and, nearly, these sizes: a total map
/// from a region with elements needs an element to point to.
pub fn filled(random: &mut Random, plan: &Plan, pieces: u8, mut sizes: Vec<u16>) -> DataSet {
    while let Some(target) = empty_target(plan, &sizes) {
        sizes[target] = 1;
    }
    let size = |region: u8| usize::from(sizes[usize::from(region)]);
    let maps = plan
        .maps
        .iter()
        .map(|&[source, target, total]| {
            (0..size(source)).map(|_| some_entry(random, size(target), total == 1)).collect()
        })
        .collect();
    let supplied = plan
        .supplied
        .iter()
        .map(|&[region, flags]| some_partition(random, usize::from(pieces), size(region), flags))
        .collect();
    DataSet { pieces, sizes, maps, supplied }
}

fn empty_target(plan: &Plan, sizes: &[u16]) -> Option<usize> {
    let lacks =
        |map: &&[u8; 3]| map[2] == 1 && sizes[usize::from(map[0])] > 0 && sizes[usize::from(map[1])] == 0;
    plan.maps.iter().find(lacks).map(|map| usize::from(map[1]))
}

fn some_entry(random: &mut Random, target_size: usize, total: bool) -> u16 {
    if target_size == 0 || (!total && random.one_in(4)) {
        return NONE;
    }
    random.below(target_size) as u16
}

/// Pieces that keep the flags; elsewhere anything.
fn some_partition(random: &mut Random, pieces: usize, size: usize, flags: u8) -> Vec<Vec<bool>> {
    let mut partition = vec![vec![false; size]; pieces];
    let mut put = |element: usize, piece: usize| partition[piece][element] = true;
    for element in 0..size {
        if flags & flag::COMPLETE != 0 || random.one_in(2) {
            put(element, random.below(pieces));
        }
        if flags & flag::DISJOINT == 0 && random.one_in(3) {
            put(element, random.below(pieces));
        }
    }
    partition
}

/// The bytes of a data set with one thing wrong, two at times.
pub fn nearly_fitting(random: &mut Random, plan: &Plan) -> Vec<u8> {
    let mut data = fitting(random, plan);
    let faults = if random.one_in(4) { 2 } else { 1 };
    for _ in 0..faults {
        match random.below(8) {
            0 => spoil_pieces(random, &mut data),
            1 => spoil_size(random, &mut data),
            2..=4 => spoil_entry(random, plan, &mut data),
            _ => spoil_partition(random, plan, &mut data),
        }
    }
    let mut bytes = data.encode();
    if random.one_in(8) {
        spoil_frame(random, &mut bytes);
    }
    bytes
}

/// A wrong number of pieces, the partitions cut or filled up to it or not.
fn spoil_pieces(random: &mut Random, data: &mut DataSet) {
    data.pieces = random.pick(&[0, 17, 255, data.pieces.wrapping_add(1)]);
    if data.pieces <= 17 && random.one_in(2) {
        let fill = |partition: &mut Vec<Vec<bool>>| {
            let size = partition.first().map_or(0, Vec::len);
            partition.resize(usize::from(data.pieces), vec![false; size]);
        };
        data.supplied.iter_mut().for_each(fill);
    }
}

fn spoil_size(random: &mut Random, data: &mut DataSet) {
    if data.sizes.is_empty() {
        return;
    }
    let region = random.below(data.sizes.len());
    let size = data.sizes[region];
    data.sizes[region] = random.pick(&[size.wrapping_add(1), size.wrapping_sub(1), 513, 65535]);
}

/// An entry at its target's size or beyond, or none in any map.
fn spoil_entry(random: &mut Random, plan: &Plan, data: &mut DataSet) {
    let Some(map) = random.find(data.maps.len(), |map| !data.maps[map].is_empty()) else { return };
    let element = random.below(data.maps[map].len());
    let size = data.sizes[usize::from(plan.maps[map][1])];
    data.maps[map][element] = random.pick(&[size, size, size.wrapping_add(1), 65534, NONE, NONE]);
}

/// An element lost, repeated, or both; or a pad bit.
fn spoil_partition(random: &mut Random, plan: &Plan, data: &mut DataSet) {
    if plan.supplied.is_empty() {
        return;
    }
    let partition = random.below(plan.supplied.len());
    let pieces = &mut data.supplied[partition];
    if pieces.is_empty() {
        return;
    }
    // A piece that has its pad bits already is the longer one.
    let size = pieces.iter().map(Vec::len).min().unwrap_or(0);
    let choice = random.below(4);
    if choice == 3 {
        return set_pad_bit(random, pieces);
    }
    if size > 0 && choice != 0 {
        let lost = random.below(size);
        pieces.iter_mut().for_each(|piece| piece[lost] = false);
    }
    if size > 0 && choice != 1 {
        let repeated = random.below(size);
        let twice = [random.below(pieces.len()), random.below(pieces.len())];
        twice.into_iter().for_each(|piece| pieces[piece][repeated] = true);
    }
}

fn set_pad_bit(random: &mut Random, pieces: &mut [Vec<bool>]) {
    let number = random.below(pieces.len());
    let piece = &mut pieces[number];
    let (size, padded) = (piece.len(), piece.len().next_multiple_of(8));
    if size < padded {
        piece.resize(padded, false);
        piece[random.within(size..=padded - 1)] = true;
    }
}

/// A wrong edition, a byte too many or too few, or a length changed.
fn spoil_frame(random: &mut Random, bytes: &mut Vec<u8>) {
    match random.below(5) {
        0 => bytes[0] = random.pick(&[0, 2, 255]),
        1 => bytes.push(random.byte()),
        2 => bytes.truncate(random.below(bytes.len())),
        3 => bytes.truncate(bytes.len() - 1),
        _ => bytes[2] = random.pick(&[0, 2]),
    }
}

/// The bytes of a fitting data set, damaged anywhere.
pub fn damaged(random: &mut Random, plan: &Plan) -> Vec<u8> {
    let mut bytes = fitting(random, plan).encode();
    match random.below(4) {
        0 => spoil_frame(random, &mut bytes),
        1 => bytes.clear(),
        _ => {
            let place = random.below(bytes.len());
            bytes[place] = random.byte();
        }
    }
    bytes
}

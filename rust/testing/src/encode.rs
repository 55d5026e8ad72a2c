//! Plans and data sets as records, and their bytes. Nothing is judged here:
//! any values can be written, right or wrong.
#![forbid(unsafe_code)]

/// First byte of a plan and of a data set.
pub const EDITION: u8 = 1;
/// The entry of a map that points nowhere.
pub const NONE: u16 = 65535;
/// Words that one piece of one node takes.
pub const PIECE_WORDS: usize = 8;

/// Kinds of statements.
pub mod statement {
    pub const FOR: u8 = 0;
    pub const LOAD: u8 = 1;
    pub const CALL: u8 = 2;
    pub const COPY: u8 = 3;
    pub const READ: u8 = 4;
    pub const WRITE: u8 = 5;
    pub const REDUCE: u8 = 6;
}

/// Kinds of expressions.
pub mod node {
    pub const SUPPLIED: u8 = 0;
    pub const EQUAL: u8 = 1;
    pub const UNION: u8 = 2;
    pub const INTERSECTION: u8 = 3;
    pub const DIFFERENCE: u8 = 4;
    pub const IMAGE: u8 = 5;
    pub const PREIMAGE: u8 = 6;
}

/// Flags of supplied partitions.
pub mod flag {
    pub const DISJOINT: u8 = 1;
    pub const COMPLETE: u8 = 2;
}

/// Most records, or the greatest value, of each kind.
pub mod limit {
    pub const REGIONS: usize = 16;
    pub const FIELDS: usize = 8;
    pub const MAPS: usize = 16;
    pub const SUPPLIED: usize = 8;
    pub const STATEMENTS: usize = 64;
    pub const VARIABLES: usize = 16;
    pub const NODES: usize = 48;
    pub const ASSIGNMENTS: usize = 64;
    pub const STEPS: usize = 128;
    pub const PIECES: usize = 16;
    pub const SIZE: usize = 512;
    /// In cents per thousand elements.
    pub const PRICE: u64 = 1_000_000;
}

/// The records of a plan, section by section.
#[derive(Clone, Debug, Default, PartialEq, Eq)]
pub struct Plan {
    /// Number of fields.
    pub regions: Vec<[u8; 1]>,
    /// Source region, target region, 1 if total.
    pub maps: Vec<[u8; 3]>,
    /// Region, flags.
    pub supplied: Vec<[u8; 2]>,
    /// Kind and three operands.
    pub statements: Vec<[u8; 4]>,
    /// Kind, two operands, 0.
    pub nodes: Vec<[u8; 4]>,
    /// One node for each symbol.
    pub assignments: Vec<[u8; 1]>,
    /// Lemma, x, y, p, q.
    pub steps: Vec<[u8; 5]>,
}

impl Plan {
    pub fn encode(&self) -> Vec<u8> {
        let mut bytes = vec![EDITION];
        push_section(&mut bytes, self.regions.as_flattened());
        push_section(&mut bytes, self.maps.as_flattened());
        push_section(&mut bytes, self.supplied.as_flattened());
        push_section(&mut bytes, self.statements.as_flattened());
        push_section(&mut bytes, self.nodes.as_flattened());
        push_section(&mut bytes, self.assignments.as_flattened());
        push_section(&mut bytes, self.steps.as_flattened());
        bytes
    }

    /// The records of well-framed bytes, their values not judged.
    pub fn decode(bytes: &[u8]) -> Option<Plan> {
        let mut rest = bytes.get(1..)?;
        let plan = Plan {
            regions: pop_section(&mut rest)?,
            maps: pop_section(&mut rest)?,
            supplied: pop_section(&mut rest)?,
            statements: pop_section(&mut rest)?,
            nodes: pop_section(&mut rest)?,
            assignments: pop_section(&mut rest)?,
            steps: pop_section(&mut rest)?,
        };
        rest.is_empty().then_some(plan)
    }
}

/// A data set for a plan of as many regions, maps and supplied partitions.
#[derive(Clone, Debug, Default, PartialEq, Eq)]
pub struct DataSet {
    pub pieces: u8,
    /// Size of each region.
    pub sizes: Vec<u16>,
    /// Entries of each map, one for each source element.
    pub maps: Vec<Vec<u16>>,
    /// Each supplied partition's pieces, each by its elements' membership.
    pub supplied: Vec<Vec<Vec<bool>>>,
}

impl DataSet {
    pub fn encode(&self) -> Vec<u8> {
        let mut bytes = vec![EDITION];
        push_section(&mut bytes, &[self.pieces]);
        push_section(&mut bytes, &big_endian(&self.sizes));
        push_section(&mut bytes, &big_endian(&self.maps.concat()));
        let partitions: Vec<u8> =
            self.supplied.iter().flatten().flat_map(|piece| pack_piece(piece)).collect();
        push_section(&mut bytes, &partitions);
        bytes
    }
}

/// Appends a section: its length in two bytes, then its body.
pub fn push_section(bytes: &mut Vec<u8>, body: &[u8]) {
    let length = u16::try_from(body.len()).expect("a section is shorter than 65536 bytes");
    bytes.extend(length.to_be_bytes());
    bytes.extend(body);
}

/// Takes a section of whole records off the front.
fn pop_section<const WIDTH: usize>(rest: &mut &[u8]) -> Option<Vec<[u8; WIDTH]>> {
    let (&length, after) = rest.split_first_chunk()?;
    let (body, after) = after.split_at_checked(usize::from(u16::from_be_bytes(length)))?;
    *rest = after;
    let (records, part) = body.as_chunks();
    part.is_empty().then(|| records.to_vec())
}

fn big_endian(numbers: &[u16]) -> Vec<u8> {
    numbers.iter().flat_map(|number| number.to_be_bytes()).collect()
}

/// Eight elements to a byte, the first in the highest bit, pad bits 0.
fn pack_piece(members: &[bool]) -> Vec<u8> {
    let pack = |eight: &[bool]| (0..).zip(eight).map(|(bit, &member)| u8::from(member) << (7 - bit)).sum();
    members.chunks(8).map(pack).collect()
}

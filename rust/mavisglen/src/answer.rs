//! The answers of the library's functions, and their packing into 64 bits.
#![forbid(unsafe_code)]

use std::error::Error;
use std::fmt::{self, Display, Formatter};

use crate::HIGHEST_PRICE;

/// The enum of refusals, their numbers and places both ways, and their texts, from one table:
/// `number => Name(place): "text", ..;`, or without `(place)` where the place is 0.
macro_rules! refusals {
    ($($(#[$doc:meta])* $number:literal => $name:ident $(($place:ident))?: $text:literal $(, $words:expr)*;)*) => {
        /// Why a plan, a data set, a question or what is lent is refused; each with its number and the paper's word.
        /// Displayed, a refusal says its number, its meaning and its place.
        ///
        /// Sections are counted from 1, everything else from 0. Symbols are the FORs and accesses in the order
        /// of the statements.
        #[derive(Clone, Copy, Debug, PartialEq, Eq, PartialOrd, Ord, Hash)]
        pub enum Refusal {
            $($(#[$doc])* $name $((place!($place)))?,)*
        }

        impl Refusal {
            /// The numbers that are given, in order.
            pub const NUMBERS: &'static [u8] = &[$($number),*];

            fn number_and_place(self) -> (u8, u64) {
                match self {
                    $(Refusal::$name $(($place))? => ($number, 0 $(+ $place)?),)*
                }
            }

            /// The refusal of a number at a place, if the two go together.
            pub fn from_parts(number: u8, place: u64) -> Option<Refusal> {
                let refusal = match number {
                    $($number => Refusal::$name $(({ let $place = place; $place }))?,)*
                    _ => return None,
                };
                (refusal.place() == place).then_some(refusal)
            }
        }

        impl Display for Refusal {
            fn fmt(&self, formatter: &mut Formatter) -> fmt::Result {
                match *self {
                    $(Refusal::$name $(($place))? => {
                        write!(formatter, concat!("refused ", $number, ": ", $text) $(, $words)*)
                    })*
                }
            }
        }
    };
}

/// The type of a place, whatever it is called.
macro_rules! place {
    ($place:ident) => {
        u64
    };
}

refusals! {
    /// 1 Short: the plan ends before this section does; 0 if it is empty.
    1 => Truncated(section): "truncated plan, {}", early_end_in_words(section);
    /// 2 Edition: the plan's first byte is not 1.
    2 => UnknownEdition: "unknown edition, the plan's first byte is not 1";
    /// 3 Long: bytes follow the plan's last section, from this offset.
    3 => TrailingBytes(offset): "trailing bytes after {}, from offset {}", section_in_words(7), offset;
    /// 4 Measure: this section is not whole records, or too many or too few.
    4 => InvalidLength(section):
        "invalid length, {} is not whole records, or too many or too few", section_in_words(section);
    /// 5 Stray: a value out of range, at section × 256 + record.
    5 => InvalidRecord(place): "invalid record, {}", record_in_words(place / 256, place % 256);
    /// 6 Mismatch: regions disagree, at section × 256 + record.
    6 => RegionMismatch(place): "regions disagree, {}", record_in_words(place / 256, place % 256);
    /// 7 Twin: this node equals an earlier one.
    7 => DuplicateNode(record): "duplicate node, {} equals an earlier one", record_in_words(5, record);
    /// 8 Tangled: the loop opened by this statement is not parallelizable.
    8 => NotParallelizable(record): "loop not parallelizable, its FOR is {}", record_in_words(4, record);
    /// 9 Uneven: assignments are not one for each of so many symbols.
    9 => AssignmentCount(symbols):
        "wrong number of assignments, {} must have one for each symbol, {} in all", section_in_words(6), symbols;
    /// 10 Unlicensed: this step does not follow by its lemma.
    10 => UnlicensedStep(step): "unlicensed step, {} does not follow by its lemma", record_in_words(7, step);
    /// 11 Unmet: no step concludes what this symbol needs.
    11 => UnmetNeed(symbol): "unmet need, no step concludes what symbol {} needs", symbol;
    /// 12 Misframed: the data set is empty, or its edition, lengths, pieces or sizes are wrong.
    12 => InvalidData: "invalid data set, it is empty or its edition, lengths, pieces or sizes are wrong";
    /// 13 Dangling: a map's entry is out of range, at map × 512 + element.
    13 => InvalidEntry(place): "invalid entry in the data set, map {}, element {}", place / 512, place % 512;
    /// 14 Untrue: this supplied partition breaks its flags or has a bit past its last element.
    14 => InvalidPartition(number):
        "invalid supplied partition, partition {} breaks its flags or has a bit past its last element", number;
    /// 15 Narrow: fewer words, or fewer places in a slice, are lent than this many.
    15 => OutputTooSmall(length): "too little room is lent, a length of {} is needed", length;
    /// 16 Absent: the node (1), piece (2) or element (3) does not exist, or the element is not in the piece (4).
    16 => NotFound(what): "not found, {}", absence_in_words(what);
    /// 17 Unpriced: a node does not exist (1), the two differ in region (2), or the price is too high (3).
    17 => InvalidCharge(what): "cannot be charged, {}", obstacle_in_words(what);
}

/// The names of a plan's sections, from section 1 on.
const SECTION_NAMES: [&str; 7] =
    ["regions", "maps", "supplied partitions", "statements", "nodes", "assignments", "steps"];

/// A section's number and, if it has one, its name.
fn section_in_words(section: u64) -> String {
    match (1..).zip(SECTION_NAMES).find(|&(number, _)| number == section) {
        Some((number, name)) => format!("section {number} ({name})"),
        None => format!("section {section}"),
    }
}

fn record_in_words(section: u64, record: u64) -> String {
    format!("{}, record {record}", section_in_words(section))
}

/// Where a truncated plan ends.
fn early_end_in_words(section: u64) -> String {
    match section {
        0 => "it has no bytes".to_string(),
        _ => format!("it ends before {} does", section_in_words(section)),
    }
}

/// What is asked for and not found.
fn absence_in_words(what: u64) -> String {
    match what {
        1 => "the node does not exist".to_string(),
        2 => "the piece does not exist".to_string(),
        3 => "the element does not exist".to_string(),
        4 => "the element is not in the piece".to_string(),
        _ => format!("what place {what} stands for"),
    }
}

/// What stands against a charge.
fn obstacle_in_words(what: u64) -> String {
    match what {
        1 => "a node does not exist".to_string(),
        2 => "the two nodes are of different regions".to_string(),
        3 => format!("the price is above {HIGHEST_PRICE}"),
        _ => format!("what place {what} stands for"),
    }
}

impl Error for Refusal {}

impl Refusal {
    /// The number the format gives this refusal, 1 to 17.
    pub fn number(self) -> u8 {
        self.number_and_place().0
    }

    /// The place that goes with the number, as the format counts it; 0 if there is none.
    pub fn place(self) -> u64 {
        self.number_and_place().1
    }

    /// Packed as in every answer: the number in the low 8 bits, the place above them.
    fn pack(self) -> u64 {
        self.place() << 8 | u64::from(self.number())
    }

    fn unpack(packed: u64) -> Option<Refusal> {
        let [number, ..] = packed.to_le_bytes();
        Refusal::from_parts(number, packed >> 8)
    }
}

/// What a check or an evaluation says.
#[derive(Clone, Copy, Debug, PartialEq, Eq)]
pub enum Answer {
    /// The plan is accepted and, if it was evaluated, the words hold its subregions.
    Accepted {
        /// How many FORs and accesses the plan has.
        symbols: u8,
        /// How many nodes it has.
        nodes: u8,
        /// How many lemma steps it has.
        steps: u8,
    },
    /// Refused, and nothing that was lent is changed.
    Refused(Refusal),
}

impl Answer {
    /// The packed answer: number in the low 8 bits, above them the place or,
    /// for number 0, the three counts in 8 bits each.
    pub fn pack(self) -> u64 {
        match self {
            Answer::Accepted { symbols, nodes, steps } => {
                u64::from_le_bytes([0, symbols, nodes, steps, 0, 0, 0, 0])
            }
            Answer::Refused(refusal) => refusal.pack(),
        }
    }

    /// The answer a packed value stands for; none if it stands for none.
    pub fn unpack(packed: u64) -> Option<Answer> {
        match packed.to_le_bytes() {
            [0, symbols, nodes, steps, 0, 0, 0, 0] => Some(Answer::Accepted { symbols, nodes, steps }),
            _ => Refusal::unpack(packed).map(Answer::Refused),
        }
    }

    /// Whether it is an acceptance.
    pub fn is_accepted(self) -> bool {
        matches!(self, Answer::Accepted { .. })
    }

    /// 0 for acceptance, else the refusal's number.
    pub fn number(self) -> u8 {
        match self {
            Answer::Accepted { .. } => 0,
            Answer::Refused(refusal) => refusal.number(),
        }
    }
}

impl From<Refusal> for Answer {
    fn from(refusal: Refusal) -> Answer {
        Answer::Refused(refusal)
    }
}

/// What a function says that writes as much as there is to write.
#[derive(Clone, Copy, Debug, PartialEq, Eq)]
pub enum Written {
    /// Done: so much of what was lent is written, and the rest kept.
    Length(usize),
    /// Refused, and nothing that was lent is changed.
    Refused(Refusal),
}

impl Written {
    /// The packed answer: number in the low 8 bits, above them the place or,
    /// for number 0, the length.
    pub fn pack(self) -> u64 {
        match self {
            Written::Length(length) => (length as u64) << 8,
            Written::Refused(refusal) => refusal.pack(),
        }
    }

    /// The answer a packed value stands for; none if it stands for none.
    pub fn unpack(packed: u64) -> Option<Written> {
        match packed.to_le_bytes() {
            [0, ..] => usize::try_from(packed >> 8).ok().map(Written::Length),
            _ => Refusal::unpack(packed).map(Written::Refused),
        }
    }

    /// The length of what is written; none if it is refused.
    pub fn length(self) -> Option<usize> {
        match self {
            Written::Length(length) => Some(length),
            Written::Refused(_) => None,
        }
    }

    /// 0 for a length, else the refusal's number.
    pub fn number(self) -> u8 {
        match self {
            Written::Length(_) => 0,
            Written::Refused(refusal) => refusal.number(),
        }
    }
}

impl From<Refusal> for Written {
    fn from(refusal: Refusal) -> Written {
        Written::Refused(refusal)
    }
}

/// What a charge for a transfer says.
#[derive(Clone, Copy, Debug, PartialEq, Eq)]
pub enum Charge {
    /// What is to be fetched, and what it costs: count × price is cents × 1,000 + remainder.
    Charged {
        /// How many elements the accessed pieces have that the same owned pieces lack, over all pieces.
        count: u16,
        /// Whole cents, below 2 to the power of 24.
        cents: u32,
        /// What is left, in thousandths of a cent.
        remainder: u16,
    },
    /// Refused, and nothing is charged.
    Refused(Refusal),
}

impl Charge {
    /// The packed answer: number in the low 8 bits, above them the place or, for number 0, the count in 16 bits,
    /// the cents in 24 and the remainder in 16.
    pub fn pack(self) -> u64 {
        match self {
            Charge::Charged { count, cents, remainder } => {
                u64::from(count) << 8 | u64::from(cents) << 24 | u64::from(remainder) << 48
            }
            Charge::Refused(refusal) => refusal.pack(),
        }
    }

    /// The answer a packed value stands for; none if it stands for none.
    pub fn unpack(packed: u64) -> Option<Charge> {
        match packed.to_le_bytes() {
            [0, a, b, c, d, e, f, g] => Some(Charge::Charged {
                count: u16::from_le_bytes([a, b]),
                cents: u32::from_le_bytes([c, d, e, 0]),
                remainder: u16::from_le_bytes([f, g]),
            }),
            _ => Refusal::unpack(packed).map(Charge::Refused),
        }
    }

    /// 0 for a charge, else the refusal's number.
    pub fn number(self) -> u8 {
        match self {
            Charge::Charged { .. } => 0,
            Charge::Refused(refusal) => refusal.number(),
        }
    }
}

impl From<Refusal> for Charge {
    fn from(refusal: Refusal) -> Charge {
        Charge::Refused(refusal)
    }
}

#[cfg(test)]
mod tests {
    use super::*;

    #[test]
    fn every_answer_survives_packing() {
        let accepted = Answer::Accepted { symbols: 64, nodes: 48, steps: 128 };
        assert_eq!(accepted.pack(), 64 << 8 | 48 << 16 | 128 << 24);
        assert_eq!(Answer::unpack(accepted.pack()), Some(accepted));
        for &number in Refusal::NUMBERS {
            for place in [0, 1, 7, 2047, 8191] {
                let Some(refusal) = Refusal::from_parts(number, place) else { continue };
                let packed = place << 8 | u64::from(number);
                let packs = [
                    Answer::from(refusal).pack(),
                    Written::from(refusal).pack(),
                    Charge::from(refusal).pack(),
                ];
                assert_eq!(packs, [packed; 3]);
                assert_eq!(Answer::unpack(packed), Some(Answer::Refused(refusal)));
                assert_eq!(Written::unpack(packed), Some(Written::Refused(refusal)));
                assert_eq!(Charge::unpack(packed), Some(Charge::Refused(refusal)));
            }
        }
    }

    #[test]
    fn every_length_survives_packing() {
        for length in [0, 1, 48, 6144, (1 << 56) - 1] {
            let written = Written::Length(length);
            assert_eq!(written.pack(), (length as u64) << 8);
            assert_eq!(Written::unpack(written.pack()), Some(written));
            assert_eq!((written.length(), written.number()), (Some(length), 0));
        }
        let refused = Written::from(Refusal::NotFound(4));
        assert_eq!((refused.length(), refused.number()), (None, 16));
    }

    #[test]
    fn every_charge_survives_packing() {
        for (count, cents, remainder) in [
            (0, 0, 0),
            (1, 2, 3),
            (8192, 8_192_000, 0),
            (8191, 8_190_991, 809),
            (u16::MAX, (1 << 24) - 1, u16::MAX),
        ] {
            let due = Charge::Charged { count, cents, remainder };
            let packed = u64::from(count) << 8 | u64::from(cents) << 24 | u64::from(remainder) << 48;
            assert_eq!((due.pack(), Charge::unpack(packed), due.number()), (packed, Some(due), 0));
        }
        assert_eq!(Charge::from(Refusal::InvalidCharge(3)).number(), 17);
    }

    #[test]
    fn refusals_are_numbered_from_1_without_a_gap() {
        assert!(Refusal::NUMBERS.iter().copied().eq(1..=Refusal::NUMBERS.len() as u8));
        assert_eq!(Refusal::NUMBERS.len(), 17);
        assert!(Refusal::NUMBERS.iter().all(|&number| Refusal::from_parts(number, 0).is_some()));
    }

    #[test]
    fn values_that_stand_for_nothing_are_not_read() {
        let beyond = Refusal::NUMBERS.len() as u64 + 1;
        for packed in [beyond, 254, 255, 2 | 1 << 8, 12 | 1 << 8] {
            let read = (Answer::unpack(packed), Written::unpack(packed), Charge::unpack(packed));
            assert_eq!(read, (None, None, None), "{packed:#x}");
        }
        // Of three counts of a plan, but not of a length or a charge.
        for packed in [1 << 32, 1 << 63] {
            assert_eq!(Answer::unpack(packed), None, "{packed:#x}");
        }
    }

    #[test]
    fn every_refusal_has_its_text() {
        let texts = [
            (Refusal::Truncated(4), "truncated plan, it ends before section 4 (statements) does"),
            (Refusal::UnknownEdition, "unknown edition, the plan's first byte is not 1"),
            (Refusal::TrailingBytes(63), "trailing bytes after section 7 (steps), from offset 63"),
            (
                Refusal::InvalidLength(3),
                "invalid length, section 3 (supplied partitions) is not whole records, or too many or too few",
            ),
            (Refusal::InvalidRecord(4 * 256 + 2), "invalid record, section 4 (statements), record 2"),
            (Refusal::RegionMismatch(6 * 256 + 63), "regions disagree, section 6 (assignments), record 63"),
            (
                Refusal::DuplicateNode(47),
                "duplicate node, section 5 (nodes), record 47 equals an earlier one",
            ),
            (
                Refusal::NotParallelizable(8),
                "loop not parallelizable, its FOR is section 4 (statements), record 8",
            ),
            (
                Refusal::AssignmentCount(4),
                "wrong number of assignments, section 6 (assignments) must have one for each symbol, 4 in all",
            ),
            (
                Refusal::UnlicensedStep(127),
                "unlicensed step, section 7 (steps), record 127 does not follow by its lemma",
            ),
            (Refusal::UnmetNeed(1), "unmet need, no step concludes what symbol 1 needs"),
            (
                Refusal::InvalidData,
                "invalid data set, it is empty or its edition, lengths, pieces or sizes are wrong",
            ),
            (Refusal::InvalidEntry(15 * 512 + 511), "invalid entry in the data set, map 15, element 511"),
            (
                Refusal::InvalidPartition(7),
                "invalid supplied partition, partition 7 breaks its flags or has a bit past its last element",
            ),
            (Refusal::OutputTooSmall(32), "too little room is lent, a length of 32 is needed"),
            (Refusal::NotFound(1), "not found, the node does not exist"),
            (Refusal::InvalidCharge(1), "cannot be charged, a node does not exist"),
        ];
        assert!(texts.iter().map(|(refusal, _)| refusal.number()).eq(Refusal::NUMBERS.iter().copied()));
        for (refusal, text) in texts {
            assert_eq!(refusal.to_string(), format!("refused {}: {text}", refusal.number()));
        }
    }

    #[test]
    fn places_at_the_edges_have_a_text() {
        assert_eq!(Refusal::Truncated(0).to_string(), "refused 1: truncated plan, it has no bytes");
        let first = Refusal::InvalidRecord(256).to_string();
        assert_eq!(first, "refused 5: invalid record, section 1 (regions), record 0");
        let last = Refusal::InvalidRecord(7 * 256 + 127).to_string();
        assert_eq!(last, "refused 5: invalid record, section 7 (steps), record 127");
        // No such section: the library gives no such place, but a caller can make one.
        let beyond = Refusal::InvalidRecord(8 * 256).to_string();
        assert_eq!(beyond, "refused 5: invalid record, section 8, record 0");
        assert!(Refusal::InvalidEntry(512).to_string().ends_with("map 1, element 0"));
        for (what, text) in [
            (2, "the piece does not exist"),
            (3, "the element does not exist"),
            (4, "the element is not in the piece"),
            (5, "what place 5 stands for"),
        ] {
            assert_eq!(Refusal::NotFound(what).to_string(), format!("refused 16: not found, {text}"));
        }
        for (what, text) in [
            (2, "the two nodes are of different regions"),
            (3, "the price is above 1000000"),
            (4, "what place 4 stands for"),
        ] {
            let refused = format!("refused 17: cannot be charged, {text}");
            assert_eq!(Refusal::InvalidCharge(what).to_string(), refused);
        }
    }

    #[test]
    fn a_refusal_is_an_error() {
        let error: Box<dyn Error> = Refusal::OutputTooSmall(8).into();
        assert_eq!(error.to_string(), "refused 15: too little room is lent, a length of 8 is needed");
    }
}

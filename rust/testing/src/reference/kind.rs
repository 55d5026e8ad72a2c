//! What a statement is, decided by one case for each kind and nowhere else.
#![forbid(unsafe_code)]

use super::flaw::Flaw;
use super::plan::Effect;
use super::Reference;

/// The paper's kinds of statements, and every other byte as a case of its own.
#[derive(Clone, Copy, Debug, PartialEq, Eq)]
pub enum Kind {
    For,
    Load,
    Call,
    Copy,
    Read,
    Write,
    Reduce,
    Unknown,
}

impl Kind {
    pub fn of(byte: usize) -> Kind {
        match byte {
            0 => Kind::For,
            1 => Kind::Load,
            2 => Kind::Call,
            3 => Kind::Copy,
            4 => Kind::Read,
            5 => Kind::Write,
            6 => Kind::Reduce,
            7.. => Kind::Unknown,
        }
    }

    /// FOR alone opens a loop.
    pub fn opens(self) -> bool {
        match self {
            Kind::For => true,
            Kind::Load => false,
            Kind::Call => false,
            Kind::Copy => false,
            Kind::Read => false,
            Kind::Write => false,
            Kind::Reduce => false,
            Kind::Unknown => false,
        }
    }

    /// LOAD, CALL and COPY alone define the loop's next variable.
    pub fn defines(self) -> bool {
        match self {
            Kind::For => false,
            Kind::Load => true,
            Kind::Call => true,
            Kind::Copy => true,
            Kind::Read => false,
            Kind::Write => false,
            Kind::Reduce => false,
            Kind::Unknown => false,
        }
    }

    /// LOAD and READ read, WRITE writes, REDUCE reduces with the operator given; the others are no accesses.
    pub fn effect(self, operator: u8) -> Option<Effect> {
        match self {
            Kind::For => None,
            Kind::Load => Some(Effect::Read),
            Kind::Call => None,
            Kind::Copy => None,
            Kind::Read => Some(Effect::Read),
            Kind::Write => Some(Effect::Write),
            Kind::Reduce => Some(Effect::Reduce { operator }),
            Kind::Unknown => None,
        }
    }
}

/// The same, flaws regarded.
impl Reference {
    pub(super) fn kind_of(&self, byte: usize) -> Kind {
        match (self.flaw, Kind::of(byte)) {
            (Some(Flaw::UnknownIs(kind)), Kind::Unknown) => kind,
            (Some(Flaw::KindCutTo { bits }), _) => Kind::of(byte % (1 << bits)),
            (_, kind) => kind,
        }
    }

    pub(super) fn defines(&self, kind: Kind) -> bool {
        match self.flaw {
            Some(Flaw::Defines(wrong)) if wrong == kind => true,
            Some(Flaw::DefinesNothing(wrong)) if wrong == kind => false,
            _ => kind.defines(),
        }
    }

    pub(super) fn effect(&self, kind: Kind, operator: u8) -> Option<Effect> {
        match self.flaw {
            Some(Flaw::Reads(wrong)) if wrong == kind => Some(Effect::Read),
            Some(Flaw::Writes(wrong)) if wrong == kind => Some(Effect::Write),
            Some(Flaw::Reduces(wrong)) if wrong == kind => Some(Effect::Reduce { operator }),
            Some(Flaw::AccessesNothing(wrong)) if wrong == kind => None,
            _ => kind.effect(operator),
        }
    }
}

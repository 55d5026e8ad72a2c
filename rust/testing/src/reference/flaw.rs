//! Deliberate flaws of the reference. Tests that would not notice one of
//! them prove little, so each must be noticed.
#![forbid(unsafe_code)]

use super::kind::Kind;
use crate::encode::limit;

/// A limit of the format.
#[derive(Clone, Copy, Debug, PartialEq, Eq)]
pub enum Limit {
    Regions,
    Fields,
    Maps,
    Supplied,
    Statements,
    Variables,
    Nodes,
    Assignments,
    Steps,
    Pieces,
    Size,
}

impl Limit {
    pub const ALL: [Limit; 11] = [
        Limit::Regions,
        Limit::Fields,
        Limit::Maps,
        Limit::Supplied,
        Limit::Statements,
        Limit::Variables,
        Limit::Nodes,
        Limit::Assignments,
        Limit::Steps,
        Limit::Pieces,
        Limit::Size,
    ];

    pub fn value(self) -> usize {
        match self {
            Limit::Regions => limit::REGIONS,
            Limit::Fields => limit::FIELDS,
            Limit::Maps => limit::MAPS,
            Limit::Supplied => limit::SUPPLIED,
            Limit::Statements => limit::STATEMENTS,
            Limit::Variables => limit::VARIABLES,
            Limit::Nodes => limit::NODES,
            Limit::Assignments => limit::ASSIGNMENTS,
            Limit::Steps => limit::STEPS,
            Limit::Pieces => limit::PIECES,
            Limit::Size => limit::SIZE,
        }
    }
}

/// A node of lemma 21's F minus the image under f of (G minus P).
#[derive(Clone, Copy, Debug, PartialEq, Eq)]
pub enum Part {
    /// F, the image of P.
    Image,
    /// G, all that leads into F.
    Sources,
    /// G minus P.
    Others,
    /// The image of G minus P.
    Shared,
    /// The whole of it.
    Private,
}

/// Something about a node: its kind, its operands or its map, or the order of its operands.
#[derive(Clone, Copy, Debug, PartialEq, Eq)]
pub enum Aspect {
    Kind,
    First,
    Second,
    Order,
}

/// One rule of the reference broken.
#[derive(Clone, Copy, Debug, PartialEq, Eq)]
pub enum Flaw {
    // Any limit, one lower or one higher.
    Lower(Limit),
    Higher(Limit),

    // Sections.
    AnyEdition,
    TrailingBytesAdmitted,
    NoRegionAdmitted,
    PartRecordsAdmitted,
    LengthJudgedBeforeTruncation,
    TruncationJudgedFirst,

    // Records.
    UnusedBytesIgnored,
    LoadFieldUnjudged,
    LoadFieldJudgedInTarget,
    LoadMismatchJudgedFirst,
    OperatorUnjudged,
    CallRegionUnjudged,
    ImageRegionUnjudged,
    PreimageLikeImage,
    SetRegionsUnjudged,
    DuplicatesAdmitted,
    AssignmentRegionUnjudged,
    MissingAssignmentsAdmitted,
    StepMayCiteItself,
    AllStepsReadFirst,
    CountJudgedBeforeNodes,

    // What statements of a kind are; an unknown kind may be taken for another.
    Defines(Kind),
    DefinesNothing(Kind),
    Reads(Kind),
    Writes(Kind),
    Reduces(Kind),
    AccessesNothing(Kind),
    UnknownIs(Kind),
    UnknownIgnored,
    KindCutTo { bits: u32 },

    // Parallelizable.
    WriteMayBeUncentered,
    ReductionMayMeetAccess,
    ReductionMayMeetCenteredReduction,
    ReductionMayMeetCenteredWrite,
    ReductionOperatorsMayDiffer,
    UncenteredReadMayMeetWrite,
    UncenteredReadMayMeetReduction,
    LoadIsNoRead,
    CopyIsUncentered,
    EveryVariableCentered,
    FieldIgnored,
    LoadFieldIsB,
    FieldsAlone,
    ReductionByRegion,
    UncenteredReadByRegion,
    OnlyLatestAccessRemembered,
    LoopsJudgedTogether,
    LoopsJudgedAsTheyClose,
    LoopsJudgedAfterNodes,

    // Lemmas: a premise not looked at, or a shape not looked at.
    IgnoresP(u8),
    IgnoresQ(u8),
    EqualFromAnything,
    SuppliedWithoutItsFlag,
    ReflexiveForAnything,
    UnionByLeftOperandOnly,
    IntersectionByLeftOperandOnly,
    DisjointIntersectionByLeftOperandOnly,
    DifferenceBelowItsRightOperand,
    ImageUnderAnyMap,
    PreimageUnderAnyMap,
    ImageOfPreimageUnderAnyMap,
    DisjointUnion,
    DisjointImage,
    DisjointDifferenceByRightOperand,
    CompletePreimageUnderPartialMap,

    // Lemma 21: something about a node not looked at, or another node taken for it.
    PrivatePart(Part, Aspect),
    PrivateIsTheImage,
    PrivateByDisjoint(Part),
    PrivateUnderTotalMapOnly,

    // Needs.
    CompletenessNotNeeded,
    DisjointnessNotNeeded,
    DisjointnessAlwaysNeeded,
    ContainmentNotNeeded,
    LoadNeedsNothing,
    ReflexiveNeedMet,
    UnlistedImageMet,
    CopyBoundForgotten,

    // Data.
    DataEditionIgnored,
    DataTrailingBytesAdmitted,
    NoPiecesAdmitted,
    NoneAdmittedInTotalMap,
    EntryMayEqualSize,
    NoneRefusedInPartialMap,
    DisjointUnjudged,
    CompleteUnjudged,
    CompleteBySizes,
    PadBitsIgnored,
    PartitionsJudgedBeforeEntries,
    SliceJudgedBeforeEntries,

    // Evaluation.
    DifferenceIgnoresRight,
    IntersectionIsLeft,
    UnionIsLeft,
    EqualRemainderLast,
    ImageOnlyOfFirstPiece,
    PreimageIncludesNone,
    SuppliedBitsReversed,
    PiecesStoredBackwards,
    PiecesBeforeNodes,
    OldBitsKept,
    LaterWordsCleared,
    OnlyFirstNodeFilled,
    WholeRegionHandedOut,
    WritesBeforeJudgingTheSlice,
    WantsASpareWord,

    // What a chain goes to.
    UnionAlwaysToItsLeft,
    UnionToItsSecondFirst,
    IntersectionToItsSecond,
    DifferenceToItsRight,
    ImageToItsLastElement,
    ImageFromOutsideThePiece,
    PreimageKeepsTheElement,
    ChainOfOnePair,
    ChainBackwards,

    // What is asked about, and where the chain is written.
    OnlyNodesSliceJudged,
    OnlyElementsSliceJudged,
    LongerSliceJudged,
    WantsASparePair,
    WantsTheLongestChain,
    SlicesJudgedBeforeQuestion,
    ElementJudgedByLimit,
    HighestPlaceGiven,
    PieceJudgedFirst,
    NodeJudgedBeforeData,
    PieceUnjudged,
    PieceJudgedByLimit,
    QuestionCutTo { bits: u32 },
    LaterPairsCleared,
    PairsWrittenBeforeJudgingSlices,

    // What is counted, and what it costs.
    OwnedWithoutAccessedCounted,
    SharedCounted,
    EitherWithoutOtherCounted,
    AllAccessedCounted,
    OnlyFirstPieceCounted,
    LastPieceNotCounted,
    ElementsCountedOnce,
    PiecesCountedAsOne,
    FirstOwnedPieceCompared,
    CountCutTo { bits: u32 },
    ProductCutTo { bits: u32 },
    RemainderOfTheCount,
    RemainderDropped,
    CentsRoundedUp,
    CentsOfEachPiece,
    WholeThousandsCharged,

    // What is charged for, and at what price.
    OnlyAccessedNodeJudged,
    OnlyOwnedNodeJudged,
    ChargeRegionsUnjudged,
    SameNodeRefused,
    NoPriceRefused,
    HighestPriceRefused,
    PriceOneHigherAdmitted,
    PriceUnlimited,
    PriceCutTo { bits: u32 },
    PriceSigned,
    NodesCutTo { bits: u32 },
    ChargePlacesExchanged,
    PriceJudgedBeforeRegions,
    PriceJudgedBeforeNodes,
    RegionsJudgedBeforeNodes,
    TransferJudgedBeforeData,
    PriceJudgedBeforePlan,
}

impl Flaw {
    /// Flaws in what a chain goes to.
    pub const CHAIN: [Flaw; 9] = [
        Flaw::UnionAlwaysToItsLeft,
        Flaw::UnionToItsSecondFirst,
        Flaw::IntersectionToItsSecond,
        Flaw::DifferenceToItsRight,
        Flaw::ImageToItsLastElement,
        Flaw::ImageFromOutsideThePiece,
        Flaw::PreimageKeepsTheElement,
        Flaw::ChainOfOnePair,
        Flaw::ChainBackwards,
    ];

    /// Flaws in judging what is asked about and in writing the chain.
    pub const EXPLAINING: [Flaw; 17] = [
        Flaw::OnlyNodesSliceJudged,
        Flaw::OnlyElementsSliceJudged,
        Flaw::LongerSliceJudged,
        Flaw::WantsASparePair,
        Flaw::WantsTheLongestChain,
        Flaw::SlicesJudgedBeforeQuestion,
        Flaw::ElementJudgedByLimit,
        Flaw::HighestPlaceGiven,
        Flaw::PieceJudgedFirst,
        Flaw::NodeJudgedBeforeData,
        Flaw::PieceUnjudged,
        Flaw::PieceJudgedByLimit,
        Flaw::QuestionCutTo { bits: 8 },
        Flaw::QuestionCutTo { bits: 16 },
        Flaw::QuestionCutTo { bits: 32 },
        Flaw::LaterPairsCleared,
        Flaw::PairsWrittenBeforeJudgingSlices,
    ];

    /// Flaws in what is counted and what it costs.
    pub const CHARGE: [Flaw; 17] = [
        Flaw::OwnedWithoutAccessedCounted,
        Flaw::SharedCounted,
        Flaw::EitherWithoutOtherCounted,
        Flaw::AllAccessedCounted,
        Flaw::OnlyFirstPieceCounted,
        Flaw::LastPieceNotCounted,
        Flaw::ElementsCountedOnce,
        Flaw::PiecesCountedAsOne,
        Flaw::FirstOwnedPieceCompared,
        Flaw::CountCutTo { bits: 8 },
        Flaw::CountCutTo { bits: 12 },
        Flaw::ProductCutTo { bits: 32 },
        Flaw::RemainderOfTheCount,
        Flaw::RemainderDropped,
        Flaw::CentsRoundedUp,
        Flaw::CentsOfEachPiece,
        Flaw::WholeThousandsCharged,
    ];

    /// Flaws in judging what is charged for.
    pub const CHARGING: [Flaw; 19] = [
        Flaw::OnlyAccessedNodeJudged,
        Flaw::OnlyOwnedNodeJudged,
        Flaw::ChargeRegionsUnjudged,
        Flaw::SameNodeRefused,
        Flaw::NoPriceRefused,
        Flaw::HighestPriceRefused,
        Flaw::PriceOneHigherAdmitted,
        Flaw::PriceUnlimited,
        Flaw::PriceCutTo { bits: 32 },
        Flaw::PriceSigned,
        Flaw::NodesCutTo { bits: 8 },
        Flaw::NodesCutTo { bits: 16 },
        Flaw::NodesCutTo { bits: 32 },
        Flaw::ChargePlacesExchanged,
        Flaw::PriceJudgedBeforeRegions,
        Flaw::PriceJudgedBeforeNodes,
        Flaw::RegionsJudgedBeforeNodes,
        Flaw::TransferJudgedBeforeData,
        Flaw::PriceJudgedBeforePlan,
    ];

    /// Flaws in what a statement is: each wrong answer for each kind.
    pub const KINDS: [Flaw; 37] = [
        Flaw::Defines(Kind::For),
        Flaw::DefinesNothing(Kind::Load),
        Flaw::DefinesNothing(Kind::Call),
        Flaw::DefinesNothing(Kind::Copy),
        Flaw::Defines(Kind::Read),
        Flaw::Defines(Kind::Write),
        Flaw::Defines(Kind::Reduce),
        Flaw::Reads(Kind::For),
        Flaw::Writes(Kind::For),
        Flaw::Reduces(Kind::For),
        Flaw::AccessesNothing(Kind::Load),
        Flaw::Writes(Kind::Load),
        Flaw::Reduces(Kind::Load),
        Flaw::Reads(Kind::Call),
        Flaw::Writes(Kind::Call),
        Flaw::Reduces(Kind::Call),
        Flaw::Reads(Kind::Copy),
        Flaw::Writes(Kind::Copy),
        Flaw::Reduces(Kind::Copy),
        Flaw::AccessesNothing(Kind::Read),
        Flaw::Writes(Kind::Read),
        Flaw::Reduces(Kind::Read),
        Flaw::AccessesNothing(Kind::Write),
        Flaw::Reads(Kind::Write),
        Flaw::Reduces(Kind::Write),
        Flaw::AccessesNothing(Kind::Reduce),
        Flaw::Reads(Kind::Reduce),
        Flaw::Writes(Kind::Reduce),
        Flaw::UnknownIs(Kind::For),
        Flaw::UnknownIs(Kind::Load),
        Flaw::UnknownIs(Kind::Call),
        Flaw::UnknownIs(Kind::Copy),
        Flaw::UnknownIs(Kind::Read),
        Flaw::UnknownIs(Kind::Write),
        Flaw::UnknownIs(Kind::Reduce),
        Flaw::UnknownIgnored,
        Flaw::KindCutTo { bits: 3 },
    ];

    /// Flaws in which loops the parallelizable rule refuses.
    pub const PARALLELIZABLE: [Flaw; 17] = [
        Flaw::WriteMayBeUncentered,
        Flaw::ReductionMayMeetAccess,
        Flaw::ReductionMayMeetCenteredReduction,
        Flaw::ReductionMayMeetCenteredWrite,
        Flaw::ReductionOperatorsMayDiffer,
        Flaw::UncenteredReadMayMeetWrite,
        Flaw::UncenteredReadMayMeetReduction,
        Flaw::LoadIsNoRead,
        Flaw::CopyIsUncentered,
        Flaw::EveryVariableCentered,
        Flaw::FieldIgnored,
        Flaw::LoadFieldIsB,
        Flaw::FieldsAlone,
        Flaw::ReductionByRegion,
        Flaw::UncenteredReadByRegion,
        Flaw::OnlyLatestAccessRemembered,
        Flaw::LoopsJudgedTogether,
    ];

    /// Flaws in lemma 21.
    pub const PRIVATE_PART: [Flaw; 22] = [
        Flaw::IgnoresP(21),
        Flaw::PrivatePart(Part::Image, Aspect::Kind),
        Flaw::PrivatePart(Part::Image, Aspect::First),
        Flaw::PrivatePart(Part::Image, Aspect::Second),
        Flaw::PrivatePart(Part::Sources, Aspect::Kind),
        Flaw::PrivatePart(Part::Sources, Aspect::First),
        Flaw::PrivatePart(Part::Sources, Aspect::Second),
        Flaw::PrivatePart(Part::Others, Aspect::Kind),
        Flaw::PrivatePart(Part::Others, Aspect::First),
        Flaw::PrivatePart(Part::Others, Aspect::Second),
        Flaw::PrivatePart(Part::Others, Aspect::Order),
        Flaw::PrivatePart(Part::Shared, Aspect::Kind),
        Flaw::PrivatePart(Part::Shared, Aspect::First),
        Flaw::PrivatePart(Part::Shared, Aspect::Second),
        Flaw::PrivatePart(Part::Private, Aspect::Kind),
        Flaw::PrivatePart(Part::Private, Aspect::First),
        Flaw::PrivatePart(Part::Private, Aspect::Second),
        Flaw::PrivatePart(Part::Private, Aspect::Order),
        Flaw::PrivateIsTheImage,
        Flaw::PrivateByDisjoint(Part::Image),
        Flaw::PrivateByDisjoint(Part::Others),
        Flaw::PrivateUnderTotalMapOnly,
    ];

    /// Every flaw in checking and evaluating.
    pub fn all() -> Vec<Flaw> {
        let mut flaws = [&Flaw::KINDS[..], &Flaw::PARALLELIZABLE, &Flaw::PRIVATE_PART, &OTHERS].concat();
        flaws.extend(Limit::ALL.map(Flaw::Lower));
        flaws.extend(Limit::ALL.map(Flaw::Higher));
        // That of lemma 21 is among its own.
        flaws.extend([6, 8, 10, 12, 13, 14, 15, 16, 17, 18, 19, 20].map(Flaw::IgnoresP));
        flaws.extend([6, 8, 10, 15, 19].map(Flaw::IgnoresQ));
        flaws
    }
}

const OTHERS: [Flaw; 72] = [
    Flaw::AnyEdition,
    Flaw::TrailingBytesAdmitted,
    Flaw::NoRegionAdmitted,
    Flaw::PartRecordsAdmitted,
    Flaw::LengthJudgedBeforeTruncation,
    Flaw::TruncationJudgedFirst,
    Flaw::UnusedBytesIgnored,
    Flaw::LoadFieldUnjudged,
    Flaw::LoadFieldJudgedInTarget,
    Flaw::LoadMismatchJudgedFirst,
    Flaw::OperatorUnjudged,
    Flaw::CallRegionUnjudged,
    Flaw::ImageRegionUnjudged,
    Flaw::PreimageLikeImage,
    Flaw::SetRegionsUnjudged,
    Flaw::DuplicatesAdmitted,
    Flaw::AssignmentRegionUnjudged,
    Flaw::MissingAssignmentsAdmitted,
    Flaw::StepMayCiteItself,
    Flaw::AllStepsReadFirst,
    Flaw::CountJudgedBeforeNodes,
    Flaw::LoopsJudgedAsTheyClose,
    Flaw::LoopsJudgedAfterNodes,
    Flaw::EqualFromAnything,
    Flaw::SuppliedWithoutItsFlag,
    Flaw::ReflexiveForAnything,
    Flaw::UnionByLeftOperandOnly,
    Flaw::IntersectionByLeftOperandOnly,
    Flaw::DisjointIntersectionByLeftOperandOnly,
    Flaw::DifferenceBelowItsRightOperand,
    Flaw::ImageUnderAnyMap,
    Flaw::PreimageUnderAnyMap,
    Flaw::ImageOfPreimageUnderAnyMap,
    Flaw::DisjointUnion,
    Flaw::DisjointImage,
    Flaw::DisjointDifferenceByRightOperand,
    Flaw::CompletePreimageUnderPartialMap,
    Flaw::CompletenessNotNeeded,
    Flaw::DisjointnessNotNeeded,
    Flaw::DisjointnessAlwaysNeeded,
    Flaw::ContainmentNotNeeded,
    Flaw::LoadNeedsNothing,
    Flaw::ReflexiveNeedMet,
    Flaw::UnlistedImageMet,
    Flaw::CopyBoundForgotten,
    Flaw::DataEditionIgnored,
    Flaw::DataTrailingBytesAdmitted,
    Flaw::NoPiecesAdmitted,
    Flaw::NoneAdmittedInTotalMap,
    Flaw::EntryMayEqualSize,
    Flaw::NoneRefusedInPartialMap,
    Flaw::DisjointUnjudged,
    Flaw::CompleteUnjudged,
    Flaw::CompleteBySizes,
    Flaw::PadBitsIgnored,
    Flaw::PartitionsJudgedBeforeEntries,
    Flaw::SliceJudgedBeforeEntries,
    Flaw::DifferenceIgnoresRight,
    Flaw::IntersectionIsLeft,
    Flaw::UnionIsLeft,
    Flaw::EqualRemainderLast,
    Flaw::ImageOnlyOfFirstPiece,
    Flaw::PreimageIncludesNone,
    Flaw::SuppliedBitsReversed,
    Flaw::PiecesStoredBackwards,
    Flaw::PiecesBeforeNodes,
    Flaw::OldBitsKept,
    Flaw::LaterWordsCleared,
    Flaw::OnlyFirstNodeFilled,
    Flaw::WholeRegionHandedOut,
    Flaw::WritesBeforeJudgingTheSlice,
    Flaw::WantsASpareWord,
];

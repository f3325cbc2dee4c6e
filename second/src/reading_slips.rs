//! The slips of the wrong readers.

#[derive(Clone, Copy, Debug, PartialEq, Eq)]
pub enum Slip {
    None,
    /// No lower-case digit is read.
    UpperCaseOnly,
    /// g is worth 16.
    LowerGRead,
    /// G is worth 16.
    UpperGRead,
    /// The byte before a is worth 9.
    BackquoteRead,
    /// b to f only.
    LowerALeftOut,
    /// a to e only.
    LowerFLeftOut,
    /// a is worth 11.
    LowerAIsEleven,
    /// a is worth 1, b 2 and so on.
    LowerWithoutTen,
    /// Each byte is read as the one with its bit 20 (hexadecimal) set.
    FoldedByOr,
    /// The highest bit of a byte is not looked at.
    FoldedBySeven,
    /// The line end is looked at with its bit 20 (hexadecimal) set.
    LineEndFolded,
    /// Lower case in the first digit of a byte only.
    LowerFirstDigitOnly,
    /// Lower case in the second digit of a byte only.
    LowerSecondDigitOnly,
    /// Lower case in the head only.
    LowerHeadOnly,
    /// Lower case in the tasks only.
    LowerTasksOnly,
    /// No lower case in the kind byte.
    LowerKindRefused,
    /// No lower case in the check byte.
    LowerCheckRefused,
    /// No lower case between the kind byte and the check byte.
    LowerFieldsRefused,
    /// One case within a byte.
    MixedByteRefused,
    /// One case within a line.
    MixedLineRefused,
    /// One case within a plan, that of the first letter.
    MixedPlanRefused,
    /// The letters are raised in a copy that ends with the longest plan's length.
    RaisedCopyCut,
    NeighbourDigitsRead,
    LineEndUnchecked,
    CarriageReturnRead,
    LastLineEndOptional,
    ShortLineIsTwo,
    SumUnchecked,
    SumWithoutCheck,
    KindBeforeSum,
    KindUnchecked,
    HeadFieldsBeforeKind,
    ZeroCoresRead,
    SixteenCoresRefused,
    SeventeenCoresRead,
    PolicyTwoRead,
    PolicyBeforeCores,
    NoTasksRead,
    TasksThirtyTwoRefused,
    FlagTwoRead,
    PeriodZeroRead,
    PeriodMillionRefused,
    PeriodToPowerOfTwo,
    DeadlineToLongest,
    DeadlineBelowPeriod,
    CostToPeriod,
    CostBelowDeadline,
    CostZeroRead,
    CostBeforeDeadline,
    FlagLast,
    LowestByteFirst,
    CostAndDeadlineSwapped,
    RestIgnored,
    RestFirst,
    RestPlaceOneLess,
    LengthFirst,
    LongTextFirst,
    DigitsFirst,
    FieldsLast,
    PlaceFromZero,
    PlaceOfTask,
    LastFault,
}

use Slip::*;

/// The wrong readers that some reading case must give away.
pub const SLIPS: &[Slip] = &[
    UpperCaseOnly,
    LowerGRead,
    UpperGRead,
    BackquoteRead,
    LowerALeftOut,
    LowerFLeftOut,
    LowerAIsEleven,
    LowerWithoutTen,
    FoldedByOr,
    FoldedBySeven,
    LineEndFolded,
    LowerFirstDigitOnly,
    LowerSecondDigitOnly,
    LowerHeadOnly,
    LowerTasksOnly,
    LowerKindRefused,
    LowerCheckRefused,
    LowerFieldsRefused,
    MixedByteRefused,
    MixedLineRefused,
    MixedPlanRefused,
    RaisedCopyCut,
    NeighbourDigitsRead,
    LineEndUnchecked,
    CarriageReturnRead,
    LastLineEndOptional,
    ShortLineIsTwo,
    SumUnchecked,
    SumWithoutCheck,
    KindBeforeSum,
    KindUnchecked,
    HeadFieldsBeforeKind,
    ZeroCoresRead,
    SixteenCoresRefused,
    SeventeenCoresRead,
    PolicyTwoRead,
    PolicyBeforeCores,
    NoTasksRead,
    TasksThirtyTwoRefused,
    FlagTwoRead,
    PeriodZeroRead,
    PeriodMillionRefused,
    PeriodToPowerOfTwo,
    DeadlineToLongest,
    DeadlineBelowPeriod,
    CostToPeriod,
    CostBelowDeadline,
    CostZeroRead,
    CostBeforeDeadline,
    FlagLast,
    LowestByteFirst,
    CostAndDeadlineSwapped,
    RestIgnored,
    RestFirst,
    RestPlaceOneLess,
    LengthFirst,
    LongTextFirst,
    DigitsFirst,
    FieldsLast,
    PlaceFromZero,
    PlaceOfTask,
    LastFault,
];

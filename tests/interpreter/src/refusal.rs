//! The refusals of document 01, told apart by their cause.

/// Why a call is refused. Document 01 gives only numbers; the causes behind one number are kept
/// apart here so that a test can see whether each of them was reached.
#[derive(Clone, Copy, Debug, PartialEq, Eq, PartialOrd, Ord, Hash)]
pub enum Refusal {
    // 1: text too long
    TextTooLong,
    SheetTooLong,
    // 2: text not of the form
    UnknownLetter,
    NodeMissing,
    FieldMissing,
    FieldMalformed,
    LeftoverBytes,
    // 2: a fault of the sheet itself
    LineMissing,
    LineUnended,
    LineLeftover,
    WrongFirstWord,
    FieldCount,
    IndexWithoutBound,
    NumberMalformed,
    FactorsUnfit,
    ValuesUnfit,
    LabelNotNext,
    // 3 to 5: the text's limits and kinds
    TooManyNodes,
    TooDeep,
    WrongKind,
    // 6: magnitude
    Magnitude,
    // 7: not known in time
    AmountTooLate,
    TestTooLate,
    // 8: settings
    TooManySettings,
    SettingRange,
    SettingUnset,
    // 9: the table
    SpanHistory,
    SpanFuture,
    FactorCount,
    FactorRange,
    TooManyLabels,
    BoundRange,
    ValueCount,
    ValueBeyondBound,
    // 10: length
    Length,
    // 11: a month or label that the table lacks
    LabelAbsent,
    ReadTooEarly,
    ReadTooLate,
    LeafTooEarly,
    LeafTooLate,
    // 12: the calling program
    Party,
    Today,
    MonthAsked,
    // 13: room for the answer
    OutTooShort,
    AnswerTooShort,
    // 14: numbers of a hand-written payoff
    SumRange,
    DifferenceRange,
    ProductRange,
    ScaleRange,
    BothRange,
}

impl Refusal {
    /// Every cause, in the order of the section "Who can cause which refusal".
    pub const ALL: [Refusal; 50] = {
        use Refusal::*;
        [
            TextTooLong,
            SheetTooLong,
            UnknownLetter,
            NodeMissing,
            FieldMissing,
            FieldMalformed,
            LeftoverBytes,
            LineMissing,
            LineUnended,
            LineLeftover,
            WrongFirstWord,
            FieldCount,
            IndexWithoutBound,
            NumberMalformed,
            FactorsUnfit,
            ValuesUnfit,
            LabelNotNext,
            TooManyNodes,
            TooDeep,
            WrongKind,
            Magnitude,
            AmountTooLate,
            TestTooLate,
            TooManySettings,
            SettingRange,
            SettingUnset,
            SpanHistory,
            SpanFuture,
            FactorCount,
            FactorRange,
            TooManyLabels,
            BoundRange,
            ValueCount,
            ValueBeyondBound,
            Length,
            LabelAbsent,
            ReadTooEarly,
            ReadTooLate,
            LeafTooEarly,
            LeafTooLate,
            Party,
            Today,
            MonthAsked,
            OutTooShort,
            AnswerTooShort,
            SumRange,
            DifferenceRange,
            ProductRange,
            ScaleRange,
            BothRange,
        ]
    };

    /// "A refusal gives only its number."
    pub fn number(self) -> u8 {
        use Refusal::*;
        match self {
            TextTooLong | SheetTooLong => 1,
            UnknownLetter | NodeMissing | FieldMissing | FieldMalformed | LeftoverBytes => 2,
            LineMissing | LineUnended | LineLeftover | WrongFirstWord | FieldCount => 2,
            IndexWithoutBound | NumberMalformed | FactorsUnfit | ValuesUnfit | LabelNotNext => 2,
            TooManyNodes => 3,
            TooDeep => 4,
            WrongKind => 5,
            Magnitude => 6,
            AmountTooLate | TestTooLate => 7,
            TooManySettings | SettingRange | SettingUnset => 8,
            SpanHistory | SpanFuture | FactorCount | FactorRange => 9,
            TooManyLabels | BoundRange | ValueCount | ValueBeyondBound => 9,
            Length => 10,
            LabelAbsent | ReadTooEarly | ReadTooLate | LeafTooEarly | LeafTooLate => 11,
            Party | Today | MonthAsked => 12,
            OutTooShort | AnswerTooShort => 13,
            SumRange | DifferenceRange | ProductRange | ScaleRange | BothRange => 14,
        }
    }
}

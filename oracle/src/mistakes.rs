//! The planted mistakes: one wrong reading of the specification each, in plain
//! words.

/// Declares each mistake once, with its words.
macro_rules! mistakes {
    ($($name:ident: $words:literal,)*) => {
        /// One wrong reading each. Tests must tell an oracle that has one from
        /// the library.
        #[derive(Clone, Copy, Debug, PartialEq, Eq)]
        pub enum Mistake {
            $(#[doc = $words] $name,)*
        }

        impl Mistake {
            pub const ALL: &'static [Mistake] = &[$(Mistake::$name,)*];

            pub fn words(self) -> &'static str {
                match self {
                    $(Mistake::$name => $words,)*
                }
            }
        }
    };
}

mistakes! {
    // The mistakes that whoever codes this is likely to make.
    EqualDistanceEqual: "PARETO takes equal distance as equal.",
    NarrowDistance: "Distance is subtracted in 32 bits.",
    DroppedWitness: "The entry is the first better row, though it was dropped itself.",
    EqualRowRemoved: "Of two rows equal in the term's columns the later one goes.",
    BettersOutside: "A row beaten under both placings of a PARETO goes, though by different rows.",

    // Base terms.
    LowestAsHighest: "LOWEST takes the higher value as better.",
    HighestAsLowest: "HIGHEST takes the lower value as better.",
    AroundOneSided: "AROUND takes a value below the wish as at the wish.",
    BetweenFromLow: "BETWEEN measures from low alone.",
    BetweenInside: "BETWEEN ranks values inside by the nearer bound.",
    PosFirstOnly: "POS knows its first favourite only.",
    NegAsPos: "NEG takes the disliked as favourites.",
    PosNegNoDisliked: "POS/NEG takes the disliked as others.",
    PosNegNoFavourites: "POS/NEG takes favourites as others.",
    PosPosSecondsFirst: "POS/POS takes second choices as favourites.",
    PosPosNoSeconds: "POS/POS takes second choices as others.",
    ExplicitOneEdge: "EXPLICIT follows one edge only.",
    ExplicitOutside: "EXPLICIT does not rank values in no edge below the others.",
    ExplicitTurned: "EXPLICIT takes u as the better end of an edge.",
    ExplicitItself: "EXPLICIT lets a value of an edge reach itself by no edge.",
    AnyRanks: "ANY takes the lower value as better.",

    // Compound terms.
    ParetoEither: "PARETO is content with better in one part.",
    ParetoNotWorse: "PARETO asks of the other part only that it is not worse.",
    ParetoBoth: "PARETO asks for better in both parts.",
    PriorExchanged: "PRIOR places the right before the left.",
    PriorUnranked: "PRIOR asks the right wherever the left ranks neither row.",
    PriorFirstColumn: "PRIOR asks for equality in the left's first column only.",
    BothEither: "BOTH is content with better in one part.",
    DualIgnored: "DUAL does not let the rows change places.",
    LeftColumns: "A compound reads the columns of its left part only.",

    // Compare.
    SameWholeRow: "Compare says same only of rows equal in all columns.",
    CompareTurned: "Compare exchanges first better and second better.",

    // Groups.
    GroupIgnored: "All rows are one group.",
    GroupFirstColumn: "Rows are one group when equal in the lowest column of the group byte.",
    GroupBitsTurned: "The lowest group bit means the last column.",
    GroupWitness: "The entry may name a kept row of another group.",
    KeptOfFirstGroup: "Kept rows are counted in the first row's group only.",

    // Query.
    EntryAfterLast: "The entry after the last row is written.",
    KeptCountHigh: "One more row is counted as kept where some row was dropped.",
    HighestWitness: "The entry is the highest kept row that is better.",
    RefusalWrites: "A refused query writes the first entry.",

    // Leaving out rows.
    UnnamedGoes: "Leaving out: a kept row that no dropped row names may go too.",
    LeftTurned: "Leaving out: the rows that are left are numbered the other way round.",
    RunTurned: "Leaving out: the rows that are left stand the other way round, not their numbers.",
    OldNumbers: "Leaving out: the entries go by the old numbers.",
    NamedByCells: "Leaving out: the first row with the same cells is named.",
    SecondFirst: "Two catalogues: the kept rows of the second come first.",
    SecondFromZero: "Two catalogues: the second's rows are numbered from 0.",
    EqualOnce: "Two catalogues: of equal kept rows, one in each, the second's goes.",

    // Perfect.
    DualsFromTop: "Perfect counts DUALs from the top of the table.",
    DualsNotCounted: "Perfect counts no DUALs.",
    OwnDualLeftOut: "Perfect leaves out the asked term's own DUAL.",
    FirstBaseOnly: "Perfect looks at the first base term only.",
    OneBaseEnough: "Perfect is content with one base term.",
    OnlyFavouritePerfect: "Perfect asks for a favourite even where none is listed.",
    NoEnds: "Perfect takes LOWEST and HIGHEST as having no best value.",
    ListedOnly: "Perfect looks for better values among the listed ones only.",

    // Check.
    MaskOfLast: "Check gives the columns of the last record, a value or not.",
    CountOfBaseTerms: "Check counts base terms, not columns.",
    TopIsLastRecord: "Check gives the last record as top, a value or not.",
    RecordsAreTerms: "Check counts terms, not records.",

    // Refusals of the table.
    WidthByte: "WIDTH: the column count is cut to a byte.",
    WidthNine: "WIDTH: nine columns pass.",
    LengthMore: "LENGTH: 129 records pass.",
    LengthRest: "LENGTH: bytes after the last whole record pass.",
    LengthFirst: "LENGTH is judged before WIDTH.",
    KindGap: "KIND: kinds 11 to 15 pass.",
    FillerAnyRole: "FILLER: v may be filled for every role.",
    FillerSpare: "FILLER: s is not looked at.",
    FillerTaken: "FILLER: role 4 may fill v under EXPLICIT only.",
    FillerUnknownRole: "FILLER: an unknown role counts as 4.",
    ColumnBeforeFiller: "COLUMN is judged before FILLER.",
    ColumnEight: "COLUMN: any column below 8 passes.",
    PartValue: "PART: a value passes as a part.",
    ReusedBeforePart: "REUSED is judged before PART.",
    ReusedSame: "REUSED: both parts the same pass.",
    ReusedEarlier: "REUSED: a part of an earlier term passes.",
    StrayBeforeFiller: "STRAY is judged before FILLER.",
    StrayRole: "STRAY: a role not taken there passes.",
    CrowdEarly: "CROWD: the 16th value is turned down.",
    CrowdLate: "CROWD: the 17th value passes.",
    CrowdRepeats: "CROWD: repeated values are not counted.",
    CrowdPlace: "CROWD gives the term as place.",
    ClashSeconds: "CLASH is not judged for POS/POS.",
    ClashOneWay: "CLASH: a favourite that stands earlier as disliked or second passes.",
    ClashSameRole: "CLASH: the same value twice in one role is turned down.",
    LoopItself: "LOOP: only an edge from a value to itself is turned down.",
    LoopRepeat: "LOOP: a repeated edge is turned down.",
    BoundsEqual: "BOUNDS: low = up is turned down.",
    ApartDisjoint: "APART: parts that share a column pass.",
    LooseHighest: "LOOSE gives the highest such record.",
    LooseLastRecord: "LOOSE: the last record is meant, a value or not.",
    LooseNoPlace: "LOOSE gives no place.",
    RuleByRule: "Each number is judged for all records before the next number.",

    // Refusals of the other inputs.
    RowsMore: "ROWS: 1,025 rows pass.",
    RowsRest: "ROWS: numbers after the last whole row pass.",
    RowsSecond: "ROWS: the second of two single rows is not looked at.",
    RowsAfterTerm: "ROWS is judged after TERM.",
    RowsBeforeTable: "ROWS is judged before the table.",
    TermByte: "TERM: the term number is cut to a byte.",
    TermValue: "TERM: a value record passes.",
    TermPlace: "TERM gives the number as place.",
    GroupRest: "GROUP: bits at or above the count pass.",
    GroupBeforeTerm: "GROUP is judged before TERM.",
    ShortEqual: "SHORT: a buffer of exactly as many entries as rows is turned down.",
    ShortBeforeGroup: "SHORT is judged before GROUP.",
}

impl Mistake {
    /// Those about rows that are left out. No reply of one call shows them: two
    /// queries must be set against each other.
    pub const LEAVING: &'static [Mistake] = &[
        Mistake::UnnamedGoes,
        Mistake::LeftTurned,
        Mistake::RunTurned,
        Mistake::OldNumbers,
        Mistake::NamedByCells,
        Mistake::SecondFirst,
        Mistake::SecondFromZero,
        Mistake::EqualOnce,
    ];
}

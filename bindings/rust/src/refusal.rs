//! What a call turns down (SPECIFICATION, "What a call refuses"): number, word, place, and a sentence with what to do.
use crate::ffi::NO_PLACE;
use core::error::Error;
use core::fmt;

/// Why a call or a builder method turned its input down, and at which record.
///
/// ```
/// use finialbasil::{Place, Reason, Table};
///
/// let mut table = Table::new();
/// let volts = table.around(0, 24)?;
/// let price = table.lowest(1)?;
///
/// // Nothing says yet how the two rank, so the first is no part of anything.
/// let refusal = table.check(2).unwrap_err();
/// assert_eq!(refusal.reason(), Reason::Loose);
/// assert_eq!(refusal.number(), 14);
/// assert_eq!(refusal.word(), "LOOSE");
/// assert_eq!(refusal.place(), Some(Place::Record(0)));
/// assert_eq!(refusal.record(), Some(volts.record()));
/// assert_eq!(
///     refusal.to_string(),
///     "record 0: this term is no part of a later term, as every term but the last must be; \
///      join it to another term, by PARETO or PRIOR for instance (refusal 14, LOOSE)"
/// );
///
/// table.prior(volts, price)?;
/// assert!(table.check(2).is_ok());
/// # Ok::<(), finialbasil::Refusal>(())
/// ```
#[derive(Clone, Copy, PartialEq, Eq, Hash)]
pub struct Refusal {
    reason: Reason,
    place: Option<Place>,
}

impl Refusal {
    /// What the two fields of a reply say: `Ok` where nothing is refused.
    pub(crate) fn judge(refusal: u32, place: u32) -> Result<(), Refusal> {
        if refusal == 0 {
            return Ok(());
        }
        Err(Refusal {
            reason: Reason::numbered(refusal),
            place: (place != NO_PLACE).then_some(Place::Record(place as usize)),
        })
    }

    pub(crate) const fn without_place(reason: Reason) -> Refusal {
        Refusal {
            reason,
            place: None,
        }
    }

    /// Why.
    #[must_use]
    pub fn reason(&self) -> Reason {
        self.reason
    }

    /// The number of the reason, 1 to 18.
    #[must_use]
    pub fn number(&self) -> u32 {
        self.reason.number()
    }

    /// The word of the reason, such as `"WIDTH"`.
    #[must_use]
    pub fn word(&self) -> &'static str {
        self.reason.word()
    }

    /// Where; reasons 3 to 14 have a place, the others none.
    #[must_use]
    pub fn place(&self) -> Option<Place> {
        self.place
    }

    /// The record that is refused, where the place is one.
    #[must_use]
    pub fn record(&self) -> Option<usize> {
        self.place.map(|Place::Record(record)| record)
    }
}

/// The place and what is wrong there, what to do, and number and word for whoever looks them up.
impl fmt::Display for Refusal {
    fn fmt(&self, f: &mut fmt::Formatter<'_>) -> fmt::Result {
        if let Some(place) = self.place {
            write!(f, "{place}: ")?;
        }
        let Listing {
            word,
            sentence,
            advice,
            ..
        } = self.reason.listing();
        write!(
            f,
            "{sentence}; {advice} (refusal {}, {word})",
            self.number()
        )
    }
}

/// The same words: a `main` that gives a refusal as its error prints this.
impl fmt::Debug for Refusal {
    fn fmt(&self, f: &mut fmt::Formatter<'_>) -> fmt::Result {
        fmt::Display::fmt(self, f)
    }
}

impl Error for Refusal {}

/// Where something is refused.
#[non_exhaustive]
#[derive(Clone, Copy, Debug, PartialEq, Eq, Hash)]
pub enum Place {
    /// The record of the table with this number.
    Record(usize),
}

impl fmt::Display for Place {
    fn fmt(&self, f: &mut fmt::Formatter<'_>) -> fmt::Result {
        match self {
            Place::Record(record) => write!(f, "record {record}"),
        }
    }
}

/// The reasons to refuse, in the order of their numbers from 1.
///
/// A call judges width and length, then the records from 0 upward, each for the reasons 3 to 13 in number order, then
/// 14 to 18. What it gives is the first in this order.
#[non_exhaustive]
#[derive(Clone, Copy, Debug, PartialEq, Eq, Hash)]
pub enum Reason {
    /// 1: column count not 1 to 8.
    Width,
    /// 2: table bytes 0, over 1,536, or not a multiple of 12.
    Length,
    /// 3: kind not in the list.
    Kind,
    /// 4: a field not filled for this kind (for kind 0, this role) is not zero.
    Filler,
    /// 5: base term's column not below the count.
    Column,
    /// 6: part not below the record's own number, or not a term.
    Part,
    /// 7: part already a part of an earlier term, or both parts the same.
    Reused,
    /// 8: value with no term before it, or role not taken there.
    Stray,
    /// 9: a term's 17th value.
    Crowd,
    /// 10: POS/NEG or POS/POS value standing earlier in its term's run under the other role.
    Clash,
    /// 11: edge that closes a cycle with itself or earlier edges of its term.
    Loop,
    /// 12: BETWEEN with low above up.
    Bounds,
    /// 13: BOTH of parts that read different columns.
    Apart,
    /// 14: a term other than the last that is no part.
    Loose,
    /// 15: run not a multiple of the count, or over 1,024 rows; a single row not of the count's length.
    Rows,
    /// 16: number given is not a term record.
    Term,
    /// 17: group bit at or above the count.
    Group,
    /// 18: answer buffer with fewer entries than there are rows.
    Short,
    /// A number that is not in this list. The library gives none; this stands here so that every number has a reason,
    /// and none is shown as another.
    Unknown(u32),
}

impl Reason {
    /// The reason with this number.
    fn numbered(number: u32) -> Reason {
        let listed = LISTED.iter().find(|listing| listing.number == number);
        listed.map_or(Reason::Unknown(number), |listing| listing.reason)
    }

    /// The number, 1 to 18.
    #[must_use]
    pub fn number(self) -> u32 {
        match self {
            Reason::Unknown(number) => number,
            listed => listed.listing().number,
        }
    }

    /// The word, such as `"WIDTH"`.
    #[must_use]
    pub fn word(self) -> &'static str {
        self.listing().word
    }

    /// What is wrong, as a sentence without capital and full stop.
    #[must_use]
    pub fn sentence(self) -> &'static str {
        self.listing().sentence
    }

    /// What to do, in the same form.
    #[must_use]
    pub fn advice(self) -> &'static str {
        self.listing().advice
    }

    fn listing(self) -> &'static Listing {
        let listed = LISTED.iter().find(|listing| listing.reason == self);
        listed.unwrap_or(&UNLISTED)
    }
}

/// Number and word.
impl fmt::Display for Reason {
    fn fmt(&self, f: &mut fmt::Formatter<'_>) -> fmt::Result {
        write!(f, "{} {}", self.number(), self.word())
    }
}

/// What is said of a reason.
struct Listing {
    reason: Reason,
    number: u32,
    word: &'static str,
    sentence: &'static str,
    advice: &'static str,
}

/// All reasons that have a number.
const LISTED: [Listing; 18] = [
    Listing {
        reason: Reason::Width,
        number: 1,
        word: "WIDTH",
        sentence: "the column count is not 1 to 8",
        advice: "use rows of 1 to 8 columns",
    },
    Listing {
        reason: Reason::Length,
        number: 2,
        word: "LENGTH",
        sentence: "the table is not 1 to 128 whole records of 12 bytes",
        advice: "give it at least one term, and at most 128 records",
    },
    Listing {
        reason: Reason::Kind,
        number: 3,
        word: "KIND",
        sentence: "byte 0 is no kind of record",
        advice: "write a kind from 0 to 10 or from 16 to 19",
    },
    Listing {
        reason: Reason::Filler,
        number: 4,
        word: "FILLER",
        sentence: "a field that this kind of record or this role does not use is not zero",
        advice: "set that field to zero",
    },
    Listing {
        reason: Reason::Column,
        number: 5,
        word: "COLUMN",
        sentence: "this term reads a column that the rows do not have",
        advice: "use a column below the column count",
    },
    Listing {
        reason: Reason::Part,
        number: 6,
        word: "PART",
        sentence: "a part of this term is no earlier term of this table",
        advice: "use terms that stand before it in the same table",
    },
    Listing {
        reason: Reason::Reused,
        number: 7,
        word: "REUSED",
        sentence: "a part of this term is a part already",
        advice:
            "use the term that it became a part of, or add its wish once more, as a term of its own",
    },
    Listing {
        reason: Reason::Stray,
        number: 8,
        word: "STRAY",
        sentence: "there is no term before this value, or that term does not take this role",
        advice: "put the value behind a term that takes its role",
    },
    Listing {
        reason: Reason::Crowd,
        number: 9,
        word: "CROWD",
        sentence: "this is the 17th value of its term",
        advice: "give a term at most 16 values",
    },
    Listing {
        reason: Reason::Clash,
        number: 10,
        word: "CLASH",
        sentence: "this value stands in its term under the other role too",
        advice: "leave it out under one of the two roles",
    },
    Listing {
        reason: Reason::Loop,
        number: 11,
        word: "LOOP",
        sentence: "this edge closes a cycle, which would make a value better than itself",
        advice: "leave out one edge of the cycle",
    },
    Listing {
        reason: Reason::Bounds,
        number: 12,
        word: "BOUNDS",
        sentence: "the low bound is above the up bound",
        advice: "give the lower bound first",
    },
    Listing {
        reason: Reason::Apart,
        number: 13,
        word: "APART",
        sentence: "the two parts of this BOTH read different columns",
        advice: "use parts that read the same columns, or join them by PARETO",
    },
    Listing {
        reason: Reason::Loose,
        number: 14,
        word: "LOOSE",
        sentence: "this term is no part of a later term, as every term but the last must be",
        advice: "join it to another term, by PARETO or PRIOR for instance",
    },
    Listing {
        reason: Reason::Rows,
        number: 15,
        word: "ROWS",
        sentence: "a row is longer or shorter than the column count, or there are over 1,024 rows",
        advice: "give whole rows, and query more than 1,024 in parts, then the kept rows together",
    },
    Listing {
        reason: Reason::Term,
        number: 16,
        word: "TERM",
        sentence: "what is asked for is no term of this table",
        advice: "ask for a term of this table, such as its top",
    },
    Listing {
        reason: Reason::Group,
        number: 17,
        word: "GROUP",
        sentence: "a column to group by is one that the rows do not have",
        advice: "group by columns below the column count",
    },
    Listing {
        reason: Reason::Short,
        number: 18,
        word: "SHORT",
        sentence: "the answer buffer has fewer entries than there are rows",
        advice: "give it an entry for each row",
    },
];

/// What is said of a number that is not in the list.
const UNLISTED: Listing = Listing {
    reason: Reason::Unknown(0),
    number: 0,
    word: "UNKNOWN",
    sentence: "the library refuses for a reason that this crate does not know",
    advice: "use crate and library of the same delivery",
};

#[cfg(test)]
mod tests {
    use super::*;
    use alloc::string::ToString;

    /// The calls cannot give such a number, so only here can it be tried.
    #[test]
    fn a_number_outside_the_list_is_shown_as_it_is() {
        assert_eq!(Reason::numbered(19), Reason::Unknown(19));
        assert_eq!(Reason::numbered(u32::MAX).number(), u32::MAX);
        let refusal = Refusal::judge(19, NO_PLACE).unwrap_err();
        assert_eq!(
            refusal.to_string(),
            "the library refuses for a reason that this crate does not know; \
             use crate and library of the same delivery (refusal 19, UNKNOWN)"
        );
        assert_eq!(refusal.reason().to_string(), "19 UNKNOWN");
        assert_eq!((refusal.place(), refusal.record()), (None, None));
    }

    #[test]
    fn zero_is_no_refusal() {
        assert_eq!(Refusal::judge(0, NO_PLACE), Ok(()));
    }
}

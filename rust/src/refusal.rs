use std::fmt;

/// The refusals' kinds, each with its number, what its place is ("" where it names none) and its meaning. The words are
/// those of `include/tickplume.h`; `tests/header.rs` compares.
macro_rules! kinds {
    ($($name:ident, $number:literal, $place:literal, $meaning:literal;)*) => {
        /// What a refusal is about, to match on.
        ///
        /// [`Overload`](RefusalKind::Overload) means that no schedule whatever serves the duties on so many engines, or
        /// on fewer; no other kind means that (`docs/CAPACITY.md` in the repository).
        ///
        /// Later versions may add kinds, so a `match` wants an arm `_`. A number that this version does not list is
        /// [`Unlisted`](RefusalKind::Unlisted); leave that one to `_` too, since a later version may list it.
        ///
        /// ```
        /// use tickplume::{Duty, RefusalKind, Table};
        ///
        /// // One tick in every 4 and 2 in every 6: blocks of 2 ticks, of which duty 0 would need a half.
        /// let duties = [Duty { service: 1, period: 4 }, Duty { service: 2, period: 6 }];
        /// let refusal = Table::build(2, &duties, 0).unwrap_err();
        /// let advice = match refusal.kind() {
        ///     RefusalKind::SliceNotWhole => format!("duty {} wants a plan of shares", refusal.place),
        ///     RefusalKind::Overload => "one engine more".to_string(),
        ///     _ => refusal.to_string(),
        /// };
        /// assert_eq!(advice, "duty 0 wants a plan of shares");
        /// ```
        #[derive(Clone, Copy, Debug, PartialEq, Eq, Hash, PartialOrd, Ord)]
        #[non_exhaustive]
        pub enum RefusalKind {
            $(#[doc = concat!($number, ": ", $meaning, ".")] $name,)*
            /// A number that this version does not list.
            Unlisted,
        }

        impl RefusalKind {
            /// The kind of a number.
            fn of(number: u8) -> RefusalKind {
                match number {
                    $($number => RefusalKind::$name,)*
                    _ => RefusalKind::Unlisted,
                }
            }

            /// What it means, without the place.
            #[must_use]
            pub fn meaning(self) -> &'static str {
                match self {
                    $(RefusalKind::$name => $meaning,)*
                    RefusalKind::Unlisted => "a number that this version does not list",
                }
            }

            /// What the place is: "duty", "run", "needed" and so on; none where the kind names no place.
            ///
            /// ```
            /// use tickplume::RefusalKind;
            /// assert_eq!(RefusalKind::SliceNotWhole.place_is(), Some("duty"));
            /// assert_eq!(RefusalKind::Overload.place_is(), None);
            /// ```
            #[must_use]
            pub fn place_is(self) -> Option<&'static str> {
                let place = match self {
                    $(RefusalKind::$name => $place,)*
                    RefusalKind::Unlisted => "",
                };
                Some(place).filter(|place| !place.is_empty())
            }
        }
    };
}

kinds! {
    EnginesRange, 1, "", "the number of engines is not between 1 and 32";
    ListsDiffer, 2, "", "the lists of services and periods differ in length";
    DutiesRange, 3, "", "the number of duties is not between 1 and 64";
    PeriodRange, 4, "duty", "a duty's period is not between 1 and 1,000,000";
    ServiceRange, 5, "duty", "a duty's service is not between 1 and its period";
    SliceNotWhole, 6, "duty", "a duty's share of a block is not a whole number of ticks";
    Overload, 7, "", "the duties need more than the engines can serve";
    NoRoom, 8, "needed", "what was lent is shorter than what is to be written";
    TextFault, 9, "line", "a line of the plan program's input is faulty, or (line 0) there are more than 4,096 bytes";
    TableForm, 10, "byte", "the bytes are not in the form of a table";
    BlockLength, 11, "", "the table's block length does not divide every period";
    TableSliceNotWhole, 12, "duty", "a duty's share of a block in the table is not a whole number of ticks";
    RunOrder, 13, "run", "a run does not stand after its forerunner by row and first unit";
    RunSharesUnit, 14, "run", "a run shares a unit with an earlier run of its row";
    RunJoins, 15, "run", "a run starts where one of the same row and duty stops";
    DutyOnTwoRows, 16, "run", "a run shares a unit with an earlier run of its duty on another row";
    RunsNotSlice, 17, "duty", "a duty's runs do not add up to its share of a block";
    NoSuchEngine, 18, "", "there is no such engine";
    TooManyBlocks, 19, "", "a count of loads may span at most 1,000,000,000,000 blocks";
    StateNotItsBlocks, 20, "", "the dispatcher's state is not the one for its block";
    LastBlock, 21, "", "the dispatcher is at the last block, 2^64 - 1";
    TooManyShareBlocks, 22, "", "there are more than 4,096 blocks up to the periods' least common multiple";
    NoSharePlan, 23, "block", "SA2 would give a duty fewer than 0 units, or a block more units than the engines have";
    WantedLength, 24, "", "the wanted block length does not divide every period";
    Short, 255, "entries needed", "the lent answer or state is too short";
}

impl fmt::Display for RefusalKind {
    fn fmt(&self, f: &mut fmt::Formatter<'_>) -> fmt::Result {
        f.write_str(self.meaning())
    }
}

/// Why a call was refused: a number, and the place that it names.
///
/// [`kind`](Refusal::kind) is the number as a name to match on. Both ways of printing say what happened in words, so
/// that an `unwrap` does too.
///
/// ```
/// use tickplume::{Duty, RefusalKind, Table};
///
/// let refusal = Table::build(1, &[Duty { service: 1, period: 1 }, Duty { service: 3, period: 2 }], 0).unwrap_err();
/// assert_eq!((refusal.number, refusal.place), (5, 1));
/// assert_eq!(refusal.kind(), RefusalKind::ServiceRange);
/// assert_eq!(refusal.to_string(), "refused 5: a duty's service is not between 1 and its period (duty 1)");
/// assert!(format!("{refusal:?}").starts_with("Refusal { kind: ServiceRange, number: 5, place: 1, meaning: "));
/// ```
#[derive(Clone, Copy, PartialEq, Eq, Hash)]
pub struct Refusal {
    /// The refusal's number.
    pub number: u8,
    /// A duty, a run, a block, an offset in bytes, or the bytes or entries needed, as the number says
    /// ([`RefusalKind::place_is`]); 0 where no place is named. Duties, runs, bytes and blocks count from 0.
    pub place: u64,
}

impl Refusal {
    /// Number and place from a call's returned word, which is not 0.
    pub(crate) fn from_word(word: u64) -> Refusal {
        let [number, ..] = word.to_le_bytes();
        Refusal { number, place: word >> 8 }
    }

    /// The number as a name.
    #[must_use]
    pub fn kind(&self) -> RefusalKind {
        RefusalKind::of(self.number)
    }

    /// A sentence that says what the number means, without the place.
    ///
    /// ```
    /// use tickplume::{Duty, Table};
    /// let refusal = Table::build(0, &[Duty { service: 1, period: 1 }], 0).unwrap_err();
    /// assert_eq!(refusal.number, 1);
    /// assert_eq!(refusal.meaning(), "the number of engines is not between 1 and 32");
    /// ```
    #[must_use]
    pub fn meaning(&self) -> &'static str {
        self.kind().meaning()
    }

    /// The meaning, and the place where one is named.
    fn words(&self) -> String {
        let kind = self.kind();
        let what = if kind == RefusalKind::Unlisted { Some("place") } else { kind.place_is() };
        match what {
            Some(what) if what.ends_with("needed") => format!("{} ({what}: {})", self.meaning(), self.place),
            Some(what) => format!("{} ({what} {})", self.meaning(), self.place),
            None => self.meaning().to_string(),
        }
    }
}

impl fmt::Display for Refusal {
    fn fmt(&self, f: &mut fmt::Formatter<'_>) -> fmt::Result {
        write!(f, "refused {}: {}", self.number, self.words())
    }
}

impl fmt::Debug for Refusal {
    fn fmt(&self, f: &mut fmt::Formatter<'_>) -> fmt::Result {
        f.debug_struct("Refusal")
            .field("kind", &self.kind())
            .field("number", &self.number)
            .field("place", &self.place)
            .field("meaning", &self.words())
            .finish()
    }
}

impl std::error::Error for Refusal {}

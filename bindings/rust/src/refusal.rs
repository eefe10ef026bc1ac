//! The refusals: what a call turns down.
use std::error::Error;
use std::fmt;

/// Makes the enum and its columns from the table below.
macro_rules! refusals {
    ($($number:literal $name:ident: $wrong:literal, $whose:literal, $to_do:literal;)*) => {
        /// What is wrong with a call, by its number.
        ///
        /// A refusal displays what is wrong and what to do about it. A later version of the library has more refusals, so that a `match`
        /// over them needs an arm for the rest.
        ///
        /// ```
        /// use planner::Refusal;
        ///
        /// let refusal = Refusal::try_from(1).unwrap();
        /// assert_eq!(refusal, Refusal::Streets);
        /// assert_eq!(refusal.whose(), "planning office");
        /// assert_eq!(refusal.to_string(), "number of streets outside 1 to 400: plan a larger town in parts");
        /// assert!(Refusal::try_from(0).is_err());
        /// ```
        #[derive(Clone, Copy, Debug, PartialEq, Eq, Hash)]
        #[non_exhaustive]
        pub enum Refusal {
            $(
                #[doc = concat!($number, ", ", $whose, ": ", $wrong, ". ")]
                #[doc = concat!("What to do: ", $to_do, ".")]
                $name = $number,
            )*
        }

        impl Refusal {
            /// Every refusal, by rising number.
            pub const ALL: &'static [Refusal] = &[$(Refusal::$name),*];

            /// What is wrong.
            #[must_use]
            pub const fn what_is_wrong(self) -> &'static str {
                match self {
                    $(Refusal::$name => $wrong,)*
                }
            }

            /// Who can put it right, such as the planning office or the survey team.
            #[must_use]
            pub const fn whose(self) -> &'static str {
                match self {
                    $(Refusal::$name => $whose,)*
                }
            }

            /// What to do about it.
            #[must_use]
            pub const fn what_to_do(self) -> &'static str {
                match self {
                    $(Refusal::$name => $to_do,)*
                }
            }
        }
    };
}

refusals! {
    1 Streets: "number of streets outside 1 to 400", "planning office", "plan a larger town in parts";
    2 Sites: "number of sites outside 1 to 64", "planning office", "list fewer sites";
    3 Chosen: "K, or the length of a list of sites, outside 1 to the number of sites", "planning office", "choose another K";
    4 Kind: "kind of plan not 0 or 1", "planning office", "0 is free, 1 balanced";
    5 Share: "K, or a list's length, above the number of streets (balanced plan, division, hand plan, floor)", "planning office",
        "choose a smaller K, or a free plan";
    6 BufferLength: "a lent buffer of other than its exact length", "calling program", "lend the length that the call names";
    7 FileBufferShort: "a file buffer shorter than the file", "calling program", "lend 28,141 bytes, the longest file";
    8 Score: "a score above 1,000 or above the one before", "survey team", "put the scores in falling order";
    9 SiteAfterZero: "a site after a zero in a row", "survey team", "close the gap in the list";
    10 SiteNumber: "a site number above the number of sites (in a file also 0)", "survey team", "correct the number";
    11 SiteTwice: "a site twice in one list", "survey team", "strike one of the two";
    12 FileEnds: "the file ends early", "file sender", "send it again, whole";
    13 Mark: "another mark than the one due", "file sender", "records come as TN, SC, ST .., EN or as TW, SC, HW, ST .., EN";
    14 StreetNumber: "a street out of turn", "file sender", "number the streets from 1 in their order";
    15 ListLength: "a list longer than the number of sites", "file sender", "correct its length";
    16 BytesAfterEnd: "bytes after EN", "file sender", "end the file there";
    17 SiteOutside: "a site outside 1 to the number of sites (a free hand plan may have 0)", "sender of a hand plan or list",
        "correct the site";
    18 SitesUsed: "a free hand plan of more than K sites; a balanced one of other than K, or with shares over one street apart",
        "sender of a hand plan", "move streets";
    19 ClaimedTotal: "a claimed total that is not the plan's", "sender of a hand plan", "add it up again";
    20 ListedTwice: "a site listed twice", "sender of a list", "strike one of the two";
    21 Load: "a load or limit above 1,000,000", "sender of a hand plan", "correct the number";
    22 Kilograms: "a site with more kilograms than its limit", "sender of a hand plan", "move streets";
    23 Litres: "a site with more litres than its limit", "sender of a hand plan", "move streets";
    24 Weight: "a household weight outside 1 to 99", "survey team", "correct the weight";
    25 LostWeight: "a weight other than 1, which a file of the old form would lose", "calling program", "make one of the new form";
}

impl Refusal {
    /// The refusal's number, from 1 on.
    #[must_use]
    pub const fn number(self) -> u32 {
        self as u32
    }
}

impl fmt::Display for Refusal {
    fn fmt(&self, out: &mut fmt::Formatter<'_>) -> fmt::Result {
        write!(out, "{}: {}", self.what_is_wrong(), self.what_to_do())
    }
}

impl Error for Refusal {}

impl From<Refusal> for u32 {
    fn from(refusal: Refusal) -> u32 {
        refusal.number()
    }
}

impl TryFrom<u32> for Refusal {
    type Error = UnknownRefusal;

    fn try_from(number: u32) -> Result<Refusal, UnknownRefusal> {
        Refusal::ALL.iter().copied().find(|refusal| refusal.number() == number).ok_or(UnknownRefusal(number))
    }
}

/// A number that no [`Refusal`] has: 0, which is the number of an accepted call, or one above the last.
#[derive(Clone, Copy, Debug, PartialEq, Eq, Hash)]
pub struct UnknownRefusal(u32);

impl UnknownRefusal {
    /// The number.
    #[must_use]
    pub const fn number(self) -> u32 {
        self.0
    }
}

impl fmt::Display for UnknownRefusal {
    fn fmt(&self, out: &mut fmt::Formatter<'_>) -> fmt::Result {
        write!(out, "no refusal has the number {}", self.0)
    }
}

impl Error for UnknownRefusal {}

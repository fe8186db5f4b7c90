use pudeyan_sys as sys;
use std::error::Error;
use std::fmt;

/// What the examiner says of a plan: the first that applies, 7 directly after 1.
///
/// ```
/// use pudeyan::Verdict;
/// assert!(Verdict::Right.is_right());
/// assert_eq!(Verdict::WrongSum.to_string(), "verdict 4: the rows do not sum to the amount");
/// ```
#[derive(Clone, Copy, Debug, PartialEq, Eq, Hash)]
#[non_exhaustive]
#[repr(u32)]
pub enum Verdict {
    /// 0: none of those below. The rows are a flow that delivers the amount
    /// within the horizon, and no flow does so earlier.
    Right = sys::PUDEYAN_RIGHT,
    /// 1: a row is no chain from origin to archive.
    NotAChain = sys::PUDEYAN_NOT_A_CHAIN,
    /// 2: a link takes in more than its capacity in some slot, all rows
    /// together.
    Overloaded = sys::PUDEYAN_OVERLOADED,
    /// 3: a row's first slot + departures + length is above the horizon.
    Late = sys::PUDEYAN_LATE,
    /// 4: the rows' rate × departures do not sum to the amount.
    WrongSum = sys::PUDEYAN_WRONG_SUM,
    /// 5: the cut's numbers are wrong for the horizon less one.
    WrongCut = sys::PUDEYAN_WRONG_CUT,
    /// 6: the cut's bound is not below the amount.
    BoundTooHigh = sys::PUDEYAN_BOUND_TOO_HIGH,
    /// 7: the length that a row writes is not the sum of its transits.
    WrongLength = sys::PUDEYAN_WRONG_LENGTH,
}

impl Verdict {
    /// Every verdict, by its number from 0 on.
    pub const ALL: [Verdict; 8] = [
        Verdict::Right,
        Verdict::NotAChain,
        Verdict::Overloaded,
        Verdict::Late,
        Verdict::WrongSum,
        Verdict::WrongCut,
        Verdict::BoundTooHigh,
        Verdict::WrongLength,
    ];

    /// The number by which papers and programs know it.
    pub const fn number(self) -> u32 {
        self as u32
    }

    /// The verdict of that number.
    pub fn from_number(number: u32) -> Option<Verdict> {
        Verdict::ALL.into_iter().find(|verdict| verdict.number() == number)
    }

    /// Whether the plan is right: verdict 0.
    pub const fn is_right(self) -> bool {
        matches!(self, Verdict::Right)
    }

    /// What it says, without its number.
    pub const fn words(self) -> &'static str {
        match self {
            Verdict::Right => "the plan is right and no shorter horizon will do",
            Verdict::NotAChain => "a row is no chain from origin to archive",
            Verdict::Overloaded => "a link takes in more than its capacity in some slot",
            Verdict::Late => "a row's first slot + departures + length is above T",
            Verdict::WrongSum => "the rows do not sum to the amount",
            Verdict::WrongCut => "the cut's numbers are wrong for T - 1",
            Verdict::BoundTooHigh => "the cut's bound is not below the amount",
            Verdict::WrongLength => "a row's length is not the sum of its transits",
        }
    }
}

impl fmt::Display for Verdict {
    fn fmt(&self, f: &mut fmt::Formatter<'_>) -> fmt::Result {
        write!(f, "verdict {}: {}", self.number(), self.words())
    }
}

/// So that a verdict other than 0 can be handed on as an error.
impl Error for Verdict {}

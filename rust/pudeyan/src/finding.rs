use pudeyan_sys as sys;
use std::fmt;

/// What the replay of a link log finds.
///
/// ```
/// use pudeyan::Finding;
/// assert!(Finding::Kept.is_kept());
/// assert_eq!(Finding::Oversent.to_string(), "finding 2: a place sent more by some slot than had reached it");
/// ```
#[derive(Clone, Copy, Debug, PartialEq, Eq, Hash)]
#[non_exhaustive]
#[repr(u32)]
pub enum Finding {
    /// 0: neither of those below.
    Kept = sys::PUDEYAN_KEPT,
    /// 1: a link took more than its capacity in some slot, its entries for the
    /// slot added up.
    Overfull = sys::PUDEYAN_OVERFULL,
    /// 2: capacities are kept, and a place but the origin sent more up to some
    /// slot than had reached it up to that slot.
    Oversent = sys::PUDEYAN_OVERSENT,
}

impl Finding {
    /// Every finding, by its number from 0 on.
    pub const ALL: [Finding; 3] = [Finding::Kept, Finding::Overfull, Finding::Oversent];

    /// The number by which papers and programs know it.
    pub const fn number(self) -> u32 {
        self as u32
    }

    /// The finding of that number.
    pub fn from_number(number: u32) -> Option<Finding> {
        Finding::ALL.into_iter().find(|finding| finding.number() == number)
    }

    /// Whether nothing is found.
    pub const fn is_kept(self) -> bool {
        matches!(self, Finding::Kept)
    }

    /// What it says, without its number.
    pub const fn words(self) -> &'static str {
        match self {
            Finding::Kept => "capacities are kept and no place sent what had not reached it",
            Finding::Overfull => "a link took more than its capacity in some slot",
            Finding::Oversent => "a place sent more by some slot than had reached it",
        }
    }
}

impl fmt::Display for Finding {
    fn fmt(&self, f: &mut fmt::Formatter<'_>) -> fmt::Result {
        write!(f, "finding {}: {}", self.number(), self.words())
    }
}

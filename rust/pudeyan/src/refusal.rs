use pudeyan_sys as sys;
use std::error::Error;
use std::fmt;

/// Why a call was turned down. Conditions are tested in the order that each
/// operation gives; the first that holds is the answer.
///
/// ```
/// use pudeyan::{Network, Refusal};
/// let cut_short = Network::decode(&[4, 0]).unwrap_err();
/// assert_eq!(cut_short, Refusal::NetworkEnds);
/// assert_eq!(cut_short.to_string(), "refused 1: the network's record ends before a number's last octet");
/// ```
#[derive(Clone, Copy, Debug, PartialEq, Eq, Hash)]
#[non_exhaustive]
#[repr(u32)]
pub enum Refusal {
    /// 1: the network's record ends before a number's last octet.
    NetworkEnds = sys::PUDEYAN_NETWORK_ENDS,
    /// 2: a number of the network is not in shortest form.
    NetworkNotShortest = sys::PUDEYAN_NETWORK_NOT_SHORTEST,
    /// 3: a fourth octet of a number has its top bit set.
    NetworkContinues = sys::PUDEYAN_NETWORK_CONTINUES,
    /// 4: a number of the network is outside its limits; origin, destination
    /// or a link's end is not below the number of places.
    NetworkLimits = sys::PUDEYAN_NETWORK_LIMITS,
    /// 5: the destination is the origin.
    SameEnds = sys::PUDEYAN_SAME_ENDS,
    /// 6: a link ends where it starts.
    LinkLoop = sys::PUDEYAN_LINK_LOOP,
    /// 7: octets remain after the network's last number.
    NetworkRemains = sys::PUDEYAN_NETWORK_REMAINS,
    /// 8: the buffer is shorter than the network's record.
    BufferShort = sys::PUDEYAN_BUFFER_SHORT,
    /// 9: the horizon is above the longest that may be tried.
    HorizonLimits = sys::PUDEYAN_HORIZON_LIMITS,
    /// 10: fewer numbers are lent for the cut than there are places.
    CutShort = sys::PUDEYAN_CUT_SHORT,
    /// 11: the amount is outside its limits.
    AmountLimits = sys::PUDEYAN_AMOUNT_LIMITS,
    /// 12: no chain of links with capacity leads from origin to archive.
    NoChain = sys::PUDEYAN_NO_CHAIN,
    /// 13: the buffer for a plan is shorter than the least that is asked.
    PlanBufferShort = sys::PUDEYAN_PLAN_BUFFER_SHORT,
    /// 14: the plan's record ends before a number's last octet, or before its
    /// copy of the network does.
    PlanEnds = sys::PUDEYAN_PLAN_ENDS,
    /// 15: a number of the plan is not in shortest form.
    PlanNotShortest = sys::PUDEYAN_PLAN_NOT_SHORTEST,
    /// 16: a fourth octet of a number has its top bit set.
    PlanContinues = sys::PUDEYAN_PLAN_CONTINUES,
    /// 17: a number of the plan is outside its limits; a link number is not
    /// below the number of links.
    PlanLimits = sys::PUDEYAN_PLAN_LIMITS,
    /// 18: octets remain after the plan's last row.
    PlanRemains = sys::PUDEYAN_PLAN_REMAINS,
    /// 20: an entry of the link log is cut short, misspelled or out of limits,
    /// or is the 4,097th.
    LogEntry = sys::PUDEYAN_LOG_ENTRY,
    /// 21: a stamp's distance from the one before it is 2,147,483,648 or more.
    LogDistance = sys::PUDEYAN_LOG_DISTANCE,
    /// 22: the slot of an entry is above 100,063,000.
    LogSlot = sys::PUDEYAN_LOG_SLOT,
    /// 23: the copy of the network at the plan's front is not the network given.
    AnotherNetwork = sys::PUDEYAN_ANOTHER_NETWORK,
}

impl Refusal {
    /// Every refusal, by its number from 1 on; there is no 19.
    pub const ALL: [Refusal; 22] = [
        Refusal::NetworkEnds,
        Refusal::NetworkNotShortest,
        Refusal::NetworkContinues,
        Refusal::NetworkLimits,
        Refusal::SameEnds,
        Refusal::LinkLoop,
        Refusal::NetworkRemains,
        Refusal::BufferShort,
        Refusal::HorizonLimits,
        Refusal::CutShort,
        Refusal::AmountLimits,
        Refusal::NoChain,
        Refusal::PlanBufferShort,
        Refusal::PlanEnds,
        Refusal::PlanNotShortest,
        Refusal::PlanContinues,
        Refusal::PlanLimits,
        Refusal::PlanRemains,
        Refusal::LogEntry,
        Refusal::LogDistance,
        Refusal::LogSlot,
        Refusal::AnotherNetwork,
    ];

    /// The number by which papers and programs know it.
    pub const fn number(self) -> u32 {
        self as u32
    }

    /// The refusal of that number.
    pub fn from_number(number: u32) -> Option<Refusal> {
        Refusal::ALL.into_iter().find(|refusal| refusal.number() == number)
    }

    /// What it says, without its number.
    pub const fn words(self) -> &'static str {
        match self {
            Refusal::NetworkEnds => "the network's record ends before a number's last octet",
            Refusal::NetworkNotShortest => "a number of the network is not in shortest form",
            Refusal::NetworkContinues => "a fourth octet in the network has its top bit set",
            Refusal::NetworkLimits => "a number of the network is outside its limits",
            Refusal::SameEnds => "the destination is the origin",
            Refusal::LinkLoop => "a link ends where it starts",
            Refusal::NetworkRemains => "octets remain after the network's last number",
            Refusal::BufferShort => "the buffer is shorter than the network's record",
            Refusal::HorizonLimits => "the horizon is above 100,063,000",
            Refusal::CutShort => "fewer numbers are lent for the cut than there are places",
            Refusal::AmountLimits => "the amount is not from 1 to 100,000,000",
            Refusal::NoChain => "no chain of links with capacity leads from origin to archive",
            Refusal::PlanBufferShort => "the buffer for a plan is under 38,912 octets",
            Refusal::PlanEnds => {
                "the plan's record ends before a number's last octet, or within its copy of the network"
            }
            Refusal::PlanNotShortest => "a number of the plan is not in shortest form",
            Refusal::PlanContinues => "a fourth octet in the plan has its top bit set",
            Refusal::PlanLimits => "a number of the plan is outside its limits",
            Refusal::PlanRemains => "octets remain after the plan's last row",
            Refusal::LogEntry => "an entry of the log is cut short, misspelled or out of limits, or is the 4,097th",
            Refusal::LogDistance => "the stamp of a log's entry is 2,147,483,648 or more from the one before it",
            Refusal::LogSlot => "the slot of a log's entry is above 100,063,000",
            Refusal::AnotherNetwork => "the network that the plan carries is not the one given",
        }
    }

    /// What a call's number says: done, or why not.
    pub(crate) fn check(number: u32) -> Result<(), Refusal> {
        match number {
            sys::PUDEYAN_DONE => Ok(()),
            _ => Err(Refusal::from_number(number).expect("library and package are of one version")),
        }
    }
}

impl fmt::Display for Refusal {
    fn fmt(&self, f: &mut fmt::Formatter<'_>) -> fmt::Result {
        write!(f, "refused {}: {}", self.number(), self.words())
    }
}

impl Error for Refusal {}

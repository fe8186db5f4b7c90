//! The limits of records and operations, each from its least to its most.
//! Origin, destination and the ends of links are also below the number of
//! places, link numbers below the number of links.

use pudeyan_sys as sys;
use std::ops::RangeInclusive;

/// How many places a network has.
pub const PLACES: RangeInclusive<u32> = 2..=sys::PUDEYAN_PLACES_MOST;
/// How many links a network has.
pub const LINKS: RangeInclusive<u32> = 1..=sys::PUDEYAN_LINKS_MOST;
/// Blocks that may enter a link in one slot.
pub const CAPACITY: RangeInclusive<u32> = 0..=sys::PUDEYAN_CAPACITY_MOST;
/// Slots from entry to arrival.
pub const TRANSIT: RangeInclusive<u32> = 0..=sys::PUDEYAN_TRANSIT_MOST;
/// Blocks to be delivered.
pub const AMOUNT: RangeInclusive<u32> = 1..=sys::PUDEYAN_AMOUNT_MOST;
/// A horizon that may be asked for.
pub const HORIZON_TRIED: RangeInclusive<u32> = 0..=sys::PUDEYAN_HORIZON_MOST;
/// The horizon of a plan, in slots.
pub const HORIZON: RangeInclusive<u32> = 1..=sys::PUDEYAN_HORIZON_MOST;
/// A number of a cut.
pub const CUT: RangeInclusive<u32> = 0..=sys::PUDEYAN_HORIZON_MOST;
/// How many rows a plan has.
pub const ROWS: RangeInclusive<u32> = 1..=sys::PUDEYAN_ROWS_MOST;
/// How many links a row goes over.
pub const ROW_LINKS: RangeInclusive<u32> = 1..=sys::PUDEYAN_ROW_LINKS_MOST;
/// The length of a row: the sum of its links' transits.
pub const LENGTH: RangeInclusive<u32> = 0..=sys::PUDEYAN_LENGTH_MOST;
/// Blocks that a row sends in each of its slots.
pub const RATE: RangeInclusive<u32> = 1..=sys::PUDEYAN_CAPACITY_MOST;
/// The slot in which a row begins.
pub const FIRST: RangeInclusive<u32> = 0..=sys::PUDEYAN_HORIZON_MOST;
/// In how many slots a row sends.
pub const DEPARTURES: RangeInclusive<u32> = 1..=sys::PUDEYAN_HORIZON_MOST;

/// How many numbers stand for a network: places, origin, destination, links;
/// then start, end, capacity and transit of each link, 0 after the last.
pub const NUMBERS: usize = sys::PUDEYAN_NUMBERS;
/// The octets of the longest network record.
pub const NETWORK_OCTETS: usize = sys::PUDEYAN_NETWORK_OCTETS;
/// The octets of the longest plan record.
pub const PLAN_OCTETS: usize = sys::PUDEYAN_PLAN_OCTETS;
/// The octets of the shortest buffer that planning takes.
pub const PLAN_BUFFER: usize = sys::PUDEYAN_PLAN_BUFFER;

/// How many entries a link log has.
pub const LOG_ENTRIES: RangeInclusive<u32> = 0..=sys::PUDEYAN_LOG_ENTRIES_MOST;
/// Blocks that an entry of a log says a link took.
pub const LOG_BLOCKS: RangeInclusive<u32> = 0..=sys::PUDEYAN_LOG_BLOCKS_MOST;
/// The slot of an entry of a log.
pub const LOG_SLOT: RangeInclusive<u32> = 0..=sys::PUDEYAN_LOG_SLOT_MOST;
/// The octets of the longest log.
pub const LOG_OCTETS: usize = sys::PUDEYAN_LOG_OCTETS;

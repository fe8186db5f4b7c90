//! The functions with slices in the place of pointers and lengths: the same
//! answers and the same out numbers, and safe to call.

use crate as c;

/// Reads a network's record into its numbers.
pub fn read_network(record: &[u8], numbers: &mut [u32; c::PUDEYAN_NUMBERS]) -> u32 {
    // SAFETY: each pointer is valid for the elements that its length or its
    // type says and is never null, and what is lent for writing overlaps
    // nothing, being `&mut`. The same holds of every call below.
    unsafe { c::pudeyan_read_network(record.as_ptr(), record.len(), numbers.as_mut_ptr()) }
}

/// Writes a network's record.
pub fn write_network(numbers: &[u32; c::PUDEYAN_NUMBERS], buffer: &mut [u8], length: &mut u64) -> u32 {
    // SAFETY: as above.
    unsafe { c::pudeyan_write_network(numbers.as_ptr(), buffer.as_mut_ptr(), buffer.len(), length) }
}

/// The most by a horizon, with a cut.
pub fn most(record: &[u8], horizon: u64, cut: &mut [u32], most: &mut u64) -> u32 {
    // SAFETY: as above.
    unsafe { c::pudeyan_most(record.as_ptr(), record.len(), horizon, cut.as_mut_ptr(), cut.len(), most) }
}

/// Plans the least horizon.
pub fn plan(record: &[u8], amount: u64, buffer: &mut [u8], horizon: &mut u64, length: &mut u64) -> u32 {
    // SAFETY: as above.
    unsafe {
        c::pudeyan_plan(record.as_ptr(), record.len(), amount, buffer.as_mut_ptr(), buffer.len(), horizon, length)
    }
}

/// Examines a plan.
pub fn examine(record: &[u8], plan: &[u8], verdict: &mut u32, bound: &mut u64) -> u32 {
    // SAFETY: as above.
    unsafe { c::pudeyan_examine(record.as_ptr(), record.len(), plan.as_ptr(), plan.len(), verdict, bound) }
}

/// Replays a link log.
pub fn replay(record: &[u8], log: &[u8], finding: &mut u32, delivered: &mut u64) -> u32 {
    // SAFETY: as above.
    unsafe { c::pudeyan_replay(record.as_ptr(), record.len(), log.as_ptr(), log.len(), finding, delivered) }
}

//! The header `include/pudeyan.h`, declared: its constants and its functions,
//! under their C names. What each function takes, answers and refuses is said
//! there. [`lent`] has the functions over slices; the package `pudeyan` has
//! types for what they answer.
//!
//! Every function returns 0 or the number of a refusal. A pointer is never
//! null, also where the length beside it is 0; a length counts elements; what
//! is lent for writing overlaps nothing else that is lent in the same call.

#![no_std]

pub mod lent;

// Limits of the records.
pub const PUDEYAN_PLACES_MOST: u32 = 64;
pub const PUDEYAN_LINKS_MOST: u32 = 256;
pub const PUDEYAN_CAPACITY_MOST: u32 = 10_000;
pub const PUDEYAN_TRANSIT_MOST: u32 = 1_000;
pub const PUDEYAN_AMOUNT_MOST: u32 = 100_000_000;
pub const PUDEYAN_HORIZON_MOST: u32 = 100_063_000;
pub const PUDEYAN_ROWS_MOST: u32 = 257;
pub const PUDEYAN_ROW_LINKS_MOST: u32 = 63;
pub const PUDEYAN_LENGTH_MOST: u32 = 63_000;
pub const PUDEYAN_NUMBERS: usize = 1_028;
pub const PUDEYAN_NETWORK_OCTETS: usize = 1_541;
pub const PUDEYAN_PLAN_OCTETS: usize = 37_789;
pub const PUDEYAN_PLAN_BUFFER: usize = 38_912;
pub const PUDEYAN_LOG_ENTRIES_MOST: u32 = 4_096;
pub const PUDEYAN_LOG_BLOCKS_MOST: u32 = 10_000;
pub const PUDEYAN_LOG_SLOT_MOST: u32 = 100_063_000;
pub const PUDEYAN_LOG_OCTETS: usize = 32_768;

// Octets of stack that a call needs at most.
pub const PUDEYAN_STACK_READ: usize = 28_672;
pub const PUDEYAN_STACK_WRITE: usize = 20_480;
pub const PUDEYAN_STACK_MOST: usize = 49_152;
pub const PUDEYAN_STACK_PLAN: usize = 98_304;
pub const PUDEYAN_STACK_EXAMINE: usize = 196_608;
pub const PUDEYAN_STACK_REPLAY: usize = 180_224;

// What a function returns.
pub const PUDEYAN_DONE: u32 = 0;
pub const PUDEYAN_NETWORK_ENDS: u32 = 1;
pub const PUDEYAN_NETWORK_NOT_SHORTEST: u32 = 2;
pub const PUDEYAN_NETWORK_CONTINUES: u32 = 3;
pub const PUDEYAN_NETWORK_LIMITS: u32 = 4;
pub const PUDEYAN_SAME_ENDS: u32 = 5;
pub const PUDEYAN_LINK_LOOP: u32 = 6;
pub const PUDEYAN_NETWORK_REMAINS: u32 = 7;
pub const PUDEYAN_BUFFER_SHORT: u32 = 8;
pub const PUDEYAN_HORIZON_LIMITS: u32 = 9;
pub const PUDEYAN_CUT_SHORT: u32 = 10;
pub const PUDEYAN_AMOUNT_LIMITS: u32 = 11;
pub const PUDEYAN_NO_CHAIN: u32 = 12;
pub const PUDEYAN_PLAN_BUFFER_SHORT: u32 = 13;
pub const PUDEYAN_PLAN_ENDS: u32 = 14;
pub const PUDEYAN_PLAN_NOT_SHORTEST: u32 = 15;
pub const PUDEYAN_PLAN_CONTINUES: u32 = 16;
pub const PUDEYAN_PLAN_LIMITS: u32 = 17;
pub const PUDEYAN_PLAN_REMAINS: u32 = 18;
pub const PUDEYAN_LOG_ENTRY: u32 = 20;
pub const PUDEYAN_LOG_DISTANCE: u32 = 21;
pub const PUDEYAN_LOG_SLOT: u32 = 22;
pub const PUDEYAN_ANOTHER_NETWORK: u32 = 23;

// What the examiner says of a plan.
pub const PUDEYAN_RIGHT: u32 = 0;
pub const PUDEYAN_NOT_A_CHAIN: u32 = 1;
pub const PUDEYAN_OVERLOADED: u32 = 2;
pub const PUDEYAN_LATE: u32 = 3;
pub const PUDEYAN_WRONG_SUM: u32 = 4;
pub const PUDEYAN_WRONG_CUT: u32 = 5;
pub const PUDEYAN_BOUND_TOO_HIGH: u32 = 6;
pub const PUDEYAN_WRONG_LENGTH: u32 = 7;

// What the replay of a link log finds.
pub const PUDEYAN_KEPT: u32 = 0;
pub const PUDEYAN_OVERFULL: u32 = 1;
pub const PUDEYAN_OVERSENT: u32 = 2;

extern "C" {
    pub fn pudeyan_read_network(record: *const u8, record_len: usize, numbers: *mut u32) -> u32;

    pub fn pudeyan_write_network(numbers: *const u32, buffer: *mut u8, buffer_len: usize, length: *mut u64) -> u32;

    pub fn pudeyan_most(
        record: *const u8,
        record_len: usize,
        horizon: u64,
        cut: *mut u32,
        cut_len: usize,
        most: *mut u64,
    ) -> u32;

    pub fn pudeyan_plan(
        record: *const u8,
        record_len: usize,
        amount: u64,
        buffer: *mut u8,
        buffer_len: usize,
        horizon: *mut u64,
        length: *mut u64,
    ) -> u32;

    pub fn pudeyan_examine(
        record: *const u8,
        record_len: usize,
        plan: *const u8,
        plan_len: usize,
        verdict: *mut u32,
        bound: *mut u64,
    ) -> u32;

    pub fn pudeyan_replay(
        record: *const u8,
        record_len: usize,
        log: *const u8,
        log_len: usize,
        finding: *mut u32,
        delivered: *mut u64,
    ) -> u32;
}

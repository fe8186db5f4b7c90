//! An independent implementation of documents 01 and 02, written from their text: plain
//! vectors, plain loops, other methods than the proved library's.

pub mod checker;
pub mod examine;
pub mod expanded;
pub mod listing;
pub mod network;
pub mod numbers;
pub mod plan;
pub mod planner;
pub mod replay;
pub mod residual;
pub mod sheet;

/// The limits of document 01's table, with document 02's larger ones, and of the records.
pub mod limits {
    pub const PLACES: (u32, u32) = (2, 64);
    pub const LINKS: (u32, u32) = (1, 256);
    pub const CAPACITY: (u32, u32) = (0, 10_000);
    pub const TRANSIT: (u32, u32) = (0, 1_000);
    /// Of the network record that a plan carries.
    pub const COPY: (u32, u32) = (0, 1_541);
    pub const AMOUNT: (u32, u32) = (1, 100_000_000);
    pub const HORIZON_TRIED: u64 = 100_063_000;
    pub const HORIZON: (u32, u32) = (1, 100_063_000);
    pub const CUT: (u32, u32) = (0, 100_063_000);
    pub const ROWS: (u32, u32) = (1, 257);
    pub const ROW_LINKS: (u32, u32) = (1, 63);
    pub const LENGTH: (u32, u32) = (0, 63_000);
    pub const RATE: (u32, u32) = (1, 10_000);
    pub const FIRST: (u32, u32) = (0, 100_063_000);
    pub const DEPARTURES: (u32, u32) = (1, 100_063_000);
    /// Groups of a number.
    pub const GROUPS: usize = 4;
    pub const NETWORK_OCTETS: usize = 1_541;
    pub const PLAN_OCTETS: usize = 37_789;
    pub const PLAN_BUFFER: usize = 38_912;
    pub const LOG_ENTRIES: usize = 4_096;
    pub const LOG_BLOCKS: (u32, u32) = (0, 10_000);
    pub const LOG_SLOT: u64 = 100_063_000;
    pub const LOG_OCTETS: usize = 32_768;
}

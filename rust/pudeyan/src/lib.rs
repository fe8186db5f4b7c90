//! Plans how to bring blocks from an origin to an archive over a network of
//! relay hops in the least number of slots, examines such plans, and replays
//! link logs.
//!
//! Every answer here is made by a library whose functions are proved; this
//! package hands slices over and takes answers apart. A call that is turned
//! down answers a [`Refusal`].
//!
//! ```
//! use pudeyan::{examine, most, plan, Link, Network, Verdict};
//!
//! // Four places, the origin 0, the archive 3; five links.
//! let links = [
//!     Link { start: 0, end: 1, capacity: 2, transit: 1 },
//!     Link { start: 1, end: 3, capacity: 1, transit: 1 },
//!     Link { start: 1, end: 2, capacity: 1, transit: 1 },
//!     Link { start: 2, end: 3, capacity: 1, transit: 2 },
//!     Link { start: 0, end: 2, capacity: 1, transit: 3 },
//! ];
//! let network = Network::new(4, 0, 3, &links)?;
//!
//! // The least horizon for 4 blocks, with rows that do it.
//! let plan = plan(&network, 4)?;
//! assert_eq!(plan.horizon(), 5);
//! for row in plan.rows() {
//!     println!("{:?}: rate {} from slot {}, {} times", row.links, row.rate, row.first, row.departures);
//! }
//!
//! // Anyone can check it, from the two records alone.
//! assert_eq!(examine(&network, &plan)?.verdict, Verdict::Right);
//!
//! // By one slot less, 2 blocks can be there and no more.
//! assert_eq!(most(&network, 4)?.blocks, 2);
//! # Ok::<(), pudeyan::Refusal>(())
//! ```
//!
//! Networks and plans are kept and exchanged as *records*, rows of octets.
//! [`Network`] and [`Plan`] hold theirs, and the operations take a record or
//! anything that has one. [`Log`] makes the record of a link log.
//! `docs/FORMATS.md` describes all three to the octet.

#![forbid(unsafe_code)]
#![warn(missing_docs)]

mod finding;
pub mod lent;
pub mod limits;
mod log;
mod network;
mod numbers;
mod operations;
mod plan;
mod refusal;
mod verdict;

pub use finding::Finding;
pub use log::{Entry, Log};
pub use network::{Link, Network};
pub use operations::{examine, most, plan, replay, Examined, Most, Replayed};
pub use plan::{Plan, Row};
pub use refusal::Refusal;
pub use verdict::Verdict;

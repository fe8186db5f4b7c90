//! Cases from a seed: networks of several families, plans right and nearly
//! right, damaged octets.

pub mod damage;
pub mod logs;
pub mod networks;
pub mod plans;
pub mod rng;

pub use rng::Rng;

//! Examines the plan in one file for the network in another, and shows its
//! rows.
//!
//!     cargo run --example examine ../examples/a.network ../examples/a.plan

use pudeyan::{examine, Plan};
use std::error::Error;
use std::{env, fs};

fn main() -> Result<(), Box<dyn Error>> {
    let mut files = env::args_os().skip(1);
    let (Some(network), Some(plan), None) = (files.next(), files.next(), files.next()) else {
        return Err("examine NETWORK PLAN".into());
    };
    let (network, plan) = (fs::read(network)?, fs::read(plan)?);

    let examined = examine(&network, &plan)?;
    for row in Plan::decode(&network, &plan)?.rows() {
        println!("{} blocks over links {:?} from slot {}", row.blocks(), row.links, row.first);
    }
    println!("{}", examined.verdict);
    if examined.verdict.is_right() {
        Ok(())
    } else {
        Err(examined.verdict.into())
    }
}

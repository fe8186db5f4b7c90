//! Plans a transfer, examines the plan, and asks for the most by its horizon.
//!
//!     cargo run --example plan

use pudeyan::{examine, most, plan, Link, Network};
use std::error::Error;

fn main() -> Result<(), Box<dyn Error>> {
    let link = |start, end, capacity, transit| Link { start, end, capacity, transit };
    let links = [link(0, 1, 2, 1), link(1, 3, 1, 1), link(1, 2, 1, 1), link(2, 3, 1, 2), link(0, 2, 1, 3)];
    let network = Network::new(4, 0, 3, &links)?;

    let plan = plan(&network, 4)?;
    println!("amount {} horizon {}", plan.amount(), plan.horizon());
    println!("{}", examine(&network, &plan)?.verdict);
    println!("most by {}: {}", plan.horizon(), most(&network, plan.horizon().into())?.blocks);
    Ok(())
}

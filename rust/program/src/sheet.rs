//! The campaign sheet, line for line as the sheet program prints it.

use crate::json::{Object, Value};
use pudeyan::Plan;

/// What each row brings.
fn blocks(plan: &Plan) -> impl Iterator<Item = u64> + '_ {
    plan.rows().iter().map(|row| u64::from(row.rate) * u64::from(row.departures))
}

pub fn words(plan: &Plan) -> String {
    let lines = blocks(plan).enumerate().map(|(at, blocks)| format!("row {at} blocks {blocks}\n"));
    lines.collect::<String>() + &format!("total {}\n", blocks(plan).sum::<u64>())
}

pub fn object(object: Object, plan: &Plan) -> Object {
    object.put("blocks", blocks(plan).collect::<Value>()).put("total", blocks(plan).sum::<u64>())
}

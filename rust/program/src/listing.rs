//! A plan as text, line for line as the listing program prints it.

use crate::json::{Object, Value};
use pudeyan::{Examined, Plan, Row};

/// The numbers, each after a space.
pub fn spaced(numbers: &[u32]) -> String {
    numbers.iter().map(|number| format!(" {number}")).collect()
}

pub fn words(examined: &Examined, plan: &Plan) -> String {
    let mut lines = format!("verdict {}\n", examined.verdict.number());
    lines += &format!("amount {} horizon {}\n", plan.amount(), plan.horizon());
    for (at, row) in plan.rows().iter().enumerate() {
        let Row { links, rate, first, departures, .. } = row;
        lines += &format!("row {at} links{} rate {rate} first {first} departures {departures}\n", spaced(links));
    }
    lines + &format!("cut{} bound {}\n", spaced(plan.cut()), examined.bound)
}

pub fn object(object: Object, examined: &Examined, plan: &Plan) -> Object {
    object
        .put("verdict", examined.verdict.number())
        .put("amount", plan.amount())
        .put("horizon", plan.horizon())
        .put("rows", plan.rows().iter().map(row).collect::<Value>())
        .put("cut", plan.cut().iter().copied().collect::<Value>())
        .put("bound", examined.bound)
}

fn row(row: &Row) -> Object {
    Object::new()
        .put("links", row.links.iter().copied().collect::<Value>())
        .put("length", row.length)
        .put("rate", row.rate)
        .put("first", row.first)
        .put("departures", row.departures)
}

//! The campaign sheet: what is printed for a network's and a plan's record.

use super::listing::records;

/// What the sheet program prints for its standard input.
pub fn sheet(input: &[u8]) -> String {
    let rows = match records(input) {
        Ok((_, plan)) => plan.rows,
        Err(refusal) => return format!("refused {refusal}\n"),
    };
    let mut text = String::new();
    let mut total = 0u128;
    for (i, row) in rows.iter().enumerate() {
        let blocks = u128::from(row.rate) * u128::from(row.departures);
        text += &format!("row {i} blocks {blocks}\n");
        total += blocks;
    }
    text + &format!("total {total}\n")
}

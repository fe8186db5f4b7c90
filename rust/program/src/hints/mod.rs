//! Where a fault is. The library says what is wrong; where, is found out here,
//! outside the proved code, and told as a hint. A hint that does not agree
//! with the library's answer is not told.

mod logs;
mod records;
mod verdicts;

use crate::json::Object;
use crate::text::Text;
use pudeyan::{Finding, Network, Plan, Refusal, Verdict};
use records::{Fault, Octets};
use std::fmt;

/// Where a fault is, and what stands there.
pub struct Hint {
    places: Vec<(&'static str, u64)>,
    words: String,
}

impl Hint {
    fn new(places: Vec<(&'static str, u64)>, words: String) -> Hint {
        Hint { places, words }
    }

    pub fn object(&self) -> Object {
        let places = self.places.iter().fold(Object::new(), |object, &(name, at)| object.put(name, at));
        places.put("words", self.words.as_str())
    }
}

impl fmt::Display for Hint {
    fn fmt(&self, f: &mut fmt::Formatter<'_>) -> fmt::Result {
        f.write_str(&self.words)
    }
}

/// The octet at which a network's record is refused.
pub fn in_network(record: &[u8], refusal: Refusal) -> Option<Hint> {
    agreeing(records::network(Octets::new(record)).err()?, refusal, "octet")
}

/// The octet at which a plan's record is refused.
pub fn in_plan(network: &[u8], record: &[u8], refusal: Refusal) -> Option<Hint> {
    let network = Network::decode(network).ok()?;
    agreeing(records::plan(Octets::new(record), &network).err()?, refusal, "octet")
}

/// The octet at which a link log is refused.
pub fn in_log(network: &[u8], record: &[u8], refusal: Refusal) -> Option<Hint> {
    let network = Network::decode(network).ok()?;
    agreeing(logs::read(record, &network).err()?, refusal, "octet")
}

/// The line of a text whose number is refused.
pub fn in_text(text: &Text, refusal: Refusal) -> Option<Hint> {
    let mut fault = records::network(text.numbers().into_iter().enumerate()).err()?;
    fault.at = text.line(fault.at);
    agreeing(fault, refusal, "line")
}

fn agreeing(fault: Fault, refusal: Refusal, unit: &'static str) -> Option<Hint> {
    let words = format!("{unit} {}: {}", fault.at, fault.words);
    (fault.refusal == refusal).then(|| Hint::new(vec![(unit, fault.at as u64)], words))
}

/// The row, link, slot or place for which a plan has its verdict.
pub fn of_verdict(network: &[u8], plan: &[u8], verdict: Verdict) -> Option<Hint> {
    let plan = Plan::decode(network, plan).ok()?;
    let network = Network::decode(network).ok()?;
    verdicts::find(&network, &plan, verdict)
}

/// The link or place, and the slot, for which a log has its finding.
pub fn of_finding(network: &[u8], log: &[u8], finding: Finding) -> Option<Hint> {
    let network = Network::decode(network).ok()?;
    logs::find(&network, &logs::read(log, &network).ok()?, finding)
}

#[cfg(test)]
mod tests {
    use super::*;

    #[test]
    fn a_hint_that_does_not_agree_is_not_told() {
        let fault = || Fault { refusal: Refusal::NetworkEnds, at: 7, words: "it is cut short".into() };
        assert_eq!(agreeing(fault(), Refusal::NetworkEnds, "octet").unwrap().to_string(), "octet 7: it is cut short");
        assert!(agreeing(fault(), Refusal::NetworkLimits, "octet").is_none());
    }
}

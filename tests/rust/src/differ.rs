//! One call of the library and one of the oracle, compared: the answer, the
//! out numbers, every octet or number lent, and the memory around it.

use crate::gen::Rng;
use crate::guard::{hand_over, Fence, Side};
use crate::oracle::residual::Profile;
use crate::oracle::{self, limits, network::Network};
use crate::tally::Outcome;
use pudeyan::limits::NUMBERS;
use pudeyan_sys::lent as ffi;

/// What stands in an out number before the call.
const STALE: u64 = 0x5A5A_5A5A_5A5A_5A5A;

/// An out number between two others that must not change.
struct Out<T>([T; 3]);

impl Out<u64> {
    fn new() -> Out<u64> {
        Out([STALE; 3])
    }
}

impl Out<u32> {
    fn new() -> Out<u32> {
        Out([STALE as u32; 3])
    }
}

impl<T: Copy + PartialEq> Out<T> {
    fn lend(&mut self) -> &mut T {
        &mut self.0[1]
    }

    /// The number, if its neighbours are as before.
    fn number(&self, stale: T) -> Result<T, String> {
        let [before, number, after] = self.0;
        ensure(before == stale && after == stale, || "memory beside an out number changed".into())?;
        Ok(number)
    }
}

fn ensure(holds: bool, otherwise: impl FnOnce() -> String) -> Result<(), String> {
    if holds {
        Ok(())
    } else {
        Err(otherwise())
    }
}

fn equal<T: PartialEq + std::fmt::Debug>(what: &str, got: T, wanted: T) -> Result<(), String> {
    ensure(got == wanted, || format!("{what}: the library says {got:?}, the oracle {wanted:?}"))
}

pub fn hex(octets: &[u8]) -> String {
    octets.iter().map(|o| format!("{o:02x}")).collect()
}

/// Fenced memory for each thing lent, and the contents it starts with.
pub struct Differ {
    record: Fence,
    plan: Fence,
    log: Fence,
    buffer: Fence,
    numbers: Fence,
    rng: Rng,
}

impl Differ {
    pub fn new(seed: u64) -> Differ {
        Differ {
            record: Fence::new(4 * limits::NETWORK_OCTETS),
            plan: Fence::new(2 * limits::PLAN_OCTETS),
            log: Fence::new(2 * limits::LOG_OCTETS),
            buffer: Fence::new(2 * limits::PLAN_BUFFER),
            numbers: Fence::new(4 * NUMBERS),
            rng: Rng::new(seed),
        }
    }

    fn side(&mut self) -> Side {
        // Reading past the end is the likelier error.
        if self.rng.one_in(4) {
            Side::Start
        } else {
            Side::End
        }
    }

    /// Reads a record; where it is a network, writes it again.
    pub fn read(&mut self, record: &[u8]) -> Result<Outcome, String> {
        let outcome = self.read_only(record).map_err(|m| format!("read: {m}\nnetwork {}", hex(record)))?;
        if let Ok(network) = oracle::network::read(record) {
            let room = record.len() + self.rng.below(4);
            self.write_only(&network.numbers(), room)
                .map_err(|m| format!("write after read: {m}\nnetwork {}", hex(record)))?;
        }
        Ok(outcome)
    }

    fn read_only(&mut self, record: &[u8]) -> Result<Outcome, String> {
        let side = self.side();
        let lent = self.record.place(record, side);
        let stale: Vec<u32> = (0..NUMBERS).map(|_| self.rng.draw() as u32).collect();
        let side = self.side();
        let list = self.numbers.place_words(&stale, side);
        let numbers: &mut [u32; NUMBERS] = self.numbers.words(&list).try_into().expect("1028 numbers were placed");
        hand_over([self.record.octets(&lent), &[]]);
        let refusal = ffi::read_network(self.record.octets(&lent), numbers);

        self.record_kept(record, &lent)?;
        ensure(self.numbers.intact(&list), || "memory beside the numbers changed".into())?;
        let numbers = self.numbers.words(&list);
        match oracle::network::read(record) {
            Ok(network) => {
                equal("refusal", refusal, 0)?;
                equal("numbers", &*numbers, &network.numbers()[..])?;
                Ok(Outcome::Answered)
            }
            Err(wanted) => {
                equal("refusal", refusal, wanted)?;
                ensure(*numbers == stale, || "a refusal changed the numbers".into())?;
                Ok(Outcome::Refused(wanted))
            }
        }
    }

    /// Writes numbers to a buffer of `room` octets; reads the record again.
    pub fn write(&mut self, numbers: &[u32; NUMBERS], room: usize) -> Result<Outcome, String> {
        let outcome =
            self.write_only(numbers, room).map_err(|m| format!("write, room {room}: {m}\nnumbers {numbers:?}"))?;
        if outcome == Outcome::Answered {
            let record = oracle::network::write(numbers).expect("the oracle wrote it too");
            self.read_only(&record).map_err(|m| format!("read after write: {m}\nnetwork {}", hex(&record)))?;
        }
        Ok(outcome)
    }

    fn write_only(&mut self, numbers: &[u32; NUMBERS], room: usize) -> Result<Outcome, String> {
        let side = self.side();
        let list = self.numbers.place_words(numbers, side);
        let stale = self.rng.octets(room);
        let side = self.side();
        let lent = self.buffer.place(&stale, side);
        let mut length = Out::<u64>::new();
        hand_over([self.numbers.octets(&list), &[]]);
        let lent_numbers: &[u32; NUMBERS] = (&*self.numbers.words(&list)).try_into().expect("1028 numbers were placed");
        let refusal = ffi::write_network(lent_numbers, self.buffer.octets(&lent), length.lend());

        ensure(self.numbers.intact(&list) && self.numbers.words(&list) == numbers, || "the numbers changed".into())?;
        ensure(self.buffer.intact(&lent), || "memory beside the buffer changed".into())?;
        let length = length.number(STALE)?;
        let buffer = self.buffer.octets(&lent);
        let wanted = match oracle::network::write(numbers) {
            Ok(record) if record.len() > room => Err(8),
            other => other,
        };
        match wanted {
            Ok(record) => {
                equal("refusal", refusal, 0)?;
                equal("length", length, record.len() as u64)?;
                equal("record", &buffer[..record.len()], &record[..])?;
                ensure(buffer[record.len()..] == stale[record.len()..], || "octets past the record changed".into())?;
                Ok(Outcome::Answered)
            }
            Err(wanted) => {
                equal("refusal", refusal, wanted)?;
                equal("length after a refusal", length, 0)?;
                ensure(*buffer == stale, || "a refusal changed the buffer".into())?;
                Ok(Outcome::Refused(wanted))
            }
        }
    }

    pub fn examine(&mut self, record: &[u8], plan: &[u8]) -> Result<Outcome, String> {
        self.examine_only(record, plan)
            .map_err(|m| format!("examine: {m}\nnetwork {}\nplan {}", hex(record), hex(plan)))
    }

    fn examine_only(&mut self, record: &[u8], plan: &[u8]) -> Result<Outcome, String> {
        let side = self.side();
        let lent = self.record.place(record, side);
        let side = self.side();
        let lent_plan = self.plan.place(plan, side);
        let mut verdict = Out::<u32>::new();
        let mut bound = Out::<u64>::new();
        hand_over([self.record.octets(&lent), self.plan.octets(&lent_plan)]);
        let refusal =
            ffi::examine(self.record.octets(&lent), self.plan.octets(&lent_plan), verdict.lend(), bound.lend());

        self.record_kept(record, &lent)?;
        ensure(self.plan.intact(&lent_plan) && self.plan.octets(&lent_plan) == plan, || "the plan changed".into())?;
        let answer = (refusal, verdict.number(STALE as u32)?, bound.number(STALE)?);
        match oracle::examine::examine(record, plan) {
            Ok((verdict, bound)) => {
                equal("refusal, verdict and bound", answer, (0, verdict, bound))?;
                Ok(Outcome::Verdict(verdict))
            }
            Err(wanted) => {
                equal("refusal, verdict and bound", answer, (wanted, 0, 0))?;
                Ok(Outcome::Refused(wanted))
            }
        }
    }

    pub fn replay(&mut self, record: &[u8], log: &[u8]) -> Result<Outcome, String> {
        self.replay_only(record, log).map_err(|m| format!("replay: {m}\nnetwork {}\nlog {}", hex(record), hex(log)))
    }

    fn replay_only(&mut self, record: &[u8], log: &[u8]) -> Result<Outcome, String> {
        let side = self.side();
        let lent = self.record.place(record, side);
        let side = self.side();
        let lent_log = self.log.place(log, side);
        let mut finding = Out::<u32>::new();
        let mut delivered = Out::<u64>::new();
        hand_over([self.record.octets(&lent), self.log.octets(&lent_log)]);
        let refusal =
            ffi::replay(self.record.octets(&lent), self.log.octets(&lent_log), finding.lend(), delivered.lend());

        self.record_kept(record, &lent)?;
        ensure(self.log.intact(&lent_log) && self.log.octets(&lent_log) == log, || "the log changed".into())?;
        let answer = (refusal, finding.number(STALE as u32)?, delivered.number(STALE)?);
        match oracle::replay::replay(record, log) {
            Ok((finding, delivered)) => {
                equal("refusal, finding and figure", answer, (0, finding, delivered))?;
                Ok(Outcome::Finding(finding))
            }
            Err(wanted) => {
                equal("refusal, finding and figure", answer, (wanted, 0, 0))?;
                Ok(Outcome::Refused(wanted))
            }
        }
    }

    /// The record that was lent for reading is as before, and so is all beside it.
    fn record_kept(&mut self, record: &[u8], lent: &std::ops::Range<usize>) -> Result<(), String> {
        ensure(self.record.intact(lent) && self.record.octets(lent) == record, || "the record changed".into())
    }
}

/// A network whose most by each horizon is known.
pub struct Known {
    pub network: Network,
    pub record: Vec<u8>,
    pub profile: Profile,
}

impl Known {
    pub fn new(network: Network) -> Known {
        Known { record: network.record(), profile: Profile::new(&network), network }
    }
}

impl Differ {
    /// The most by a horizon, on a network, with `count` numbers lent for the cut.
    pub fn most(&mut self, known: &Known, horizon: u64, count: usize) -> Result<Outcome, String> {
        let wanted = if horizon > limits::HORIZON_TRIED {
            Err(9)
        } else if count < known.network.places as usize {
            Err(10)
        } else {
            Ok((&known.network, known.profile.most(horizon)))
        };
        self.most_is(&known.record, horizon, count, wanted)
    }

    /// The same on octets that are no network.
    pub fn most_refused(&mut self, record: &[u8], horizon: u64, count: usize) -> Result<Outcome, String> {
        let refusal = oracle::network::read(record).expect_err("the caller hands over what is no network");
        self.most_is(record, horizon, count, Err(refusal))
    }

    fn most_is(
        &mut self,
        record: &[u8],
        horizon: u64,
        count: usize,
        wanted: Result<(&Network, u64), u32>,
    ) -> Result<Outcome, String> {
        self.most_only(record, horizon, count, wanted)
            .map_err(|m| format!("most, horizon {horizon}, {count} numbers lent: {m}\nnetwork {}", hex(record)))
    }

    fn most_only(
        &mut self,
        record: &[u8],
        horizon: u64,
        count: usize,
        wanted: Result<(&Network, u64), u32>,
    ) -> Result<Outcome, String> {
        let side = self.side();
        let lent = self.record.place(record, side);
        let stale: Vec<u32> = (0..count).map(|_| self.rng.draw() as u32).collect();
        let side = self.side();
        let list = self.numbers.place_words(&stale, side);
        let mut most = Out::<u64>::new();
        let number = horizon.to_le_bytes();
        hand_over([self.record.octets(&lent), &number]);
        let refusal = ffi::most(self.record.octets(&lent), horizon, self.numbers.words(&list), most.lend());

        self.record_kept(record, &lent)?;
        ensure(self.numbers.intact(&list), || "memory beside the cut changed".into())?;
        let most = most.number(STALE)?;
        let cut = self.numbers.words(&list);
        match wanted {
            Ok((network, wanted)) => {
                equal("refusal and most", (refusal, most), (0, wanted))?;
                let places = network.places as usize;
                ensure(cut[places..] == stale[places..], || "numbers past the cut changed".into())?;
                let cut = &cut[..places];
                ensure(oracle::examine::is_cut(network, horizon as u32, cut), || {
                    format!("no cut for the horizon: {cut:?}")
                })?;
                equal("bound of the cut", oracle::examine::bound(network, cut), wanted)?;
                Ok(Outcome::Answered)
            }
            Err(wanted) => {
                equal("refusal and most", (refusal, most), (wanted, 0))?;
                ensure(*cut == stale, || "a refusal changed the cut".into())?;
                Ok(Outcome::Refused(wanted))
            }
        }
    }
}

impl Differ {
    /// The least horizon for an amount, with a buffer of `room` octets.
    pub fn plan(&mut self, known: &Known, amount: u64, room: usize) -> Result<Outcome, String> {
        let (low, high) = limits::AMOUNT;
        let wanted = if amount < u64::from(low) || amount > u64::from(high) {
            Err(11)
        } else if room < limits::PLAN_BUFFER {
            Err(13)
        } else if !oracle::planner::chain_exists(&known.network) {
            Err(12)
        } else {
            Ok((&known.network, known.profile.least(amount).expect("a chain brings any amount by the last horizon")))
        };
        self.plan_is(&known.record, amount, room, wanted)
    }

    /// The same on octets that are no network.
    pub fn plan_refused(&mut self, record: &[u8], amount: u64, room: usize) -> Result<Outcome, String> {
        let refusal = oracle::network::read(record).expect_err("the caller hands over what is no network");
        self.plan_is(record, amount, room, Err(refusal))
    }

    fn plan_is(
        &mut self,
        record: &[u8],
        amount: u64,
        room: usize,
        wanted: Result<(&Network, u64), u32>,
    ) -> Result<Outcome, String> {
        let (outcome, octets) = self
            .plan_only(record, amount, room, wanted)
            .map_err(|m| format!("plan, amount {amount}, room {room}: {m}\nnetwork {}", hex(record)))?;
        if outcome == Outcome::Answered {
            let examined = self.examine(record, &octets)?;
            equal("the examiner on the planner's own plan", examined, Outcome::Verdict(0))?;
        }
        Ok(outcome)
    }

    fn plan_only(
        &mut self,
        record: &[u8],
        amount: u64,
        room: usize,
        wanted: Result<(&Network, u64), u32>,
    ) -> Result<(Outcome, Vec<u8>), String> {
        let side = self.side();
        let lent = self.record.place(record, side);
        let stale = self.rng.octets(room);
        let side = self.side();
        let lent_buffer = self.buffer.place(&stale, side);
        let mut horizon = Out::<u64>::new();
        let mut length = Out::<u64>::new();
        let number = amount.to_le_bytes();
        hand_over([self.record.octets(&lent), &number]);
        let refusal = ffi::plan(
            self.record.octets(&lent),
            amount,
            self.buffer.octets(&lent_buffer),
            horizon.lend(),
            length.lend(),
        );

        self.record_kept(record, &lent)?;
        ensure(self.buffer.intact(&lent_buffer), || "memory beside the buffer changed".into())?;
        let answer = (refusal, horizon.number(STALE)?);
        let length = length.number(STALE)?;
        let buffer = self.buffer.octets(&lent_buffer);
        match wanted {
            Ok((network, least)) => {
                equal("refusal and horizon", answer, (0, least))?;
                ensure(length as usize <= limits::PLAN_OCTETS, || format!("length {length}"))?;
                let (octets, past) = buffer.split_at(length as usize);
                ensure(past == &stale[length as usize..], || "octets past the record changed".into())?;
                right_plan(network, octets, amount, least)?;
                Ok((Outcome::Answered, octets.to_vec()))
            }
            Err(wanted) => {
                equal("refusal and horizon", answer, (wanted, 0))?;
                equal("length after a refusal", length, 0)?;
                ensure(*buffer == stale, || "a refusal changed the buffer".into())?;
                Ok((Outcome::Refused(wanted), Vec::new()))
            }
        }
    }
}

/// A plan record with the amount and horizon, verdict 0, no place twice.
/// Plans with a horizon up to this are looked at slot by slot.
const SLOT_BY_SLOT: u64 = 200;

fn right_plan(network: &Network, octets: &[u8], amount: u64, horizon: u64) -> Result<(), String> {
    let plan =
        oracle::plan::read(network, octets).map_err(|n| format!("the plan's record gets {n}: {}", hex(octets)))?;
    equal("amount and horizon in the record", (u64::from(plan.amount), u64::from(plan.horizon)), (amount, horizon))?;
    equal("verdict of the oracle's examiner", oracle::examine::verdict(network, &plan), 0)?;
    let simple = plan.rows.iter().all(|r| oracle::checker::is_simple(network, r));
    ensure(simple, || format!("a row visits a place twice: {:?}", plan.rows))?;
    let unheld = horizon > SLOT_BY_SLOT || oracle::checker::holds_nothing(network, &plan);
    ensure(unheld, || format!("a block is held at a middle place: {:?}", plan.rows))
}

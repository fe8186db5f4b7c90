use crate::{lent, limits, plan as plans, Finding, Network, Plan, Refusal, Verdict};

/// The most by a horizon, with a cut that proves it.
#[derive(Clone, Debug, PartialEq, Eq, Hash)]
pub struct Most {
    /// The most blocks that any flow with the horizon delivers.
    pub blocks: u64,
    /// A cut for the horizon whose bound is that number, one number per place.
    pub cut: Vec<u32>,
}

/// What the examiner says of a plan.
#[derive(Clone, Copy, Debug, PartialEq, Eq, Hash)]
pub struct Examined {
    /// The verdict.
    pub verdict: Verdict,
    /// The bound of the plan's cut, over the numbers as written.
    pub bound: u64,
}

/// What the replay of a link log finds.
#[derive(Clone, Copy, Debug, PartialEq, Eq, Hash)]
pub struct Replayed {
    /// The finding.
    pub finding: Finding,
    /// Arrivals less departures at the archive up to and with the last slot
    /// logged; 0 under a finding other than [`Finding::Kept`].
    pub delivered: u64,
}

/// A plan with the least horizon for an amount, which carries the network's
/// record. No row of it visits a place twice. Refuses with 1 to 7 for the
/// network, 11 for the amount, and 12 exactly where no chain of links with
/// capacity leads from origin to archive.
///
/// ```
/// use pudeyan::{plan, Link, Network, Refusal};
/// let closed = Network::new(2, 0, 1, &[Link { start: 0, end: 1, capacity: 0, transit: 1 }])?;
/// assert_eq!(plan(&closed, 5), Err(Refusal::NoChain));
/// # Ok::<(), Refusal>(())
/// ```
pub fn plan(network: impl AsRef<[u8]>, amount: u64) -> Result<Plan, Refusal> {
    let network = network.as_ref();
    let mut buffer = vec![0; limits::PLAN_BUFFER];
    let planned = lent::plan(network, amount, &mut buffer)?;
    let places = Network::decode(network)?.places();
    Ok(plans::decode(places, &buffer[..planned.length]).expect("the planner writes a plan's record"))
}

/// The most blocks by a horizon, with a cut that proves it. An archive that
/// cannot be reached gives 0, and so does horizon 0. Refuses with 1 to 7 for
/// the network, 9 for the horizon.
///
/// ```
/// use pudeyan::{most, Link, Network};
/// let network = Network::new(2, 0, 1, &[Link { start: 0, end: 1, capacity: 3, transit: 2 }])?;
/// assert_eq!(most(&network, 5)?.blocks, 9);
/// assert_eq!(most(&network, 0)?.blocks, 0);
/// # Ok::<(), pudeyan::Refusal>(())
/// ```
pub fn most(network: impl AsRef<[u8]>, horizon: u64) -> Result<Most, Refusal> {
    let network = network.as_ref();
    let mut cut = vec![0; *limits::PLACES.end() as usize];
    let blocks = lent::most(network, horizon, &mut cut)?;
    cut.truncate(Network::decode(network)?.places());
    Ok(Most { blocks, cut })
}

/// A plan's verdict and the bound of its cut. Refuses with 1 to 7 for the
/// network, then with 14 to 18 for the plan and with 23 where the plan carries
/// another network.
///
/// ```
/// use pudeyan::{examine, Refusal, Verdict};
/// let network = [2, 0, 1, 1, 0, 1, 1, 1];
/// let plan = [8, 2, 0, 1, 1, 0, 1, 1, 1, 1, 2, 0, 1, 1, 1, 0, 1, 1, 0, 1];
/// assert_eq!(examine(network, plan)?.verdict, Verdict::Right);
/// assert_eq!(examine(network, &plan[..19]), Err(Refusal::PlanEnds));
/// assert_eq!(examine([2, 1, 0, 1, 1, 0, 1, 1], plan), Err(Refusal::AnotherNetwork));
/// # Ok::<(), Refusal>(())
/// ```
pub fn examine(network: impl AsRef<[u8]>, plan: impl AsRef<[u8]>) -> Result<Examined, Refusal> {
    lent::examine(network.as_ref(), plan.as_ref())
}

/// What a link log shows: whether it keeps capacities, whether a place sent
/// what had not reached it, and what was delivered. Refuses with 1 to 7 for the
/// network, then entry by entry with 20, 21, 22.
///
/// ```
/// use pudeyan::{replay, Entry, Finding, Link, Log, Network};
/// let links = [Link { start: 0, end: 1, capacity: 3, transit: 2 }];
/// let network = Network::new(2, 0, 1, &links)?;
/// // Three blocks in the counter's last slot; two slots on, none.
/// let log = Log::new(&[Entry { stamp: u32::MAX, link: 0, blocks: 3 }, Entry { stamp: 1, link: 0, blocks: 0 }]);
/// let found = replay(&network, &log)?;
/// assert_eq!((found.finding, found.delivered), (Finding::Kept, 3));
/// # Ok::<(), pudeyan::Refusal>(())
/// ```
pub fn replay(network: impl AsRef<[u8]>, log: impl AsRef<[u8]>) -> Result<Replayed, Refusal> {
    lent::replay(network.as_ref(), log.as_ref())
}

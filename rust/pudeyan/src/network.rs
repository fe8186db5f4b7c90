use crate::{lent, limits, Refusal};

/// A link: it goes one way between two different places.
#[derive(Clone, Copy, Debug, PartialEq, Eq, Hash)]
pub struct Link {
    /// The place where it starts.
    pub start: u32,
    /// The place where it ends.
    pub end: u32,
    /// How many blocks may enter it in one slot.
    pub capacity: u32,
    /// How many slots pass from entry to arrival.
    pub transit: u32,
}

/// A network of places and links, with its record. Places are numbered from
/// 0, links from 0 in record order.
///
/// ```
/// use pudeyan::{Link, Network, Refusal};
/// let link = Link { start: 0, end: 1, capacity: 3, transit: 2 };
/// let network = Network::new(2, 0, 1, &[link])?;
/// assert_eq!(network.record(), [2, 0, 1, 1, 0, 1, 3, 2]);
/// assert_eq!(Network::decode(network.record())?, network);
///
/// let backwards = Link { end: 0, ..link };
/// assert_eq!(Network::new(2, 0, 1, &[backwards]), Err(Refusal::LinkLoop));
/// # Ok::<(), Refusal>(())
/// ```
#[derive(Clone, Debug, PartialEq, Eq, Hash)]
pub struct Network {
    places: u32,
    origin: u32,
    destination: u32,
    links: Vec<Link>,
    record: Vec<u8>,
}

impl Network {
    /// A network by its numbers. Refuses with 4, 5 or 6, whichever is first in
    /// record order.
    pub fn new(places: u32, origin: u32, destination: u32, links: &[Link]) -> Result<Network, Refusal> {
        let numbers = table(places, origin, destination, links);
        let mut buffer = [0; limits::NETWORK_OCTETS];
        let length = lent::write_network(&numbers, &mut buffer)?;
        Ok(Network { places, origin, destination, links: links.to_vec(), record: buffer[..length].to_vec() })
    }

    /// A network by its record. Refuses with 1 to 7.
    pub fn decode(record: &[u8]) -> Result<Network, Refusal> {
        let numbers = lent::read_network(record)?;
        let [places, origin, destination, count] = [numbers[0], numbers[1], numbers[2], numbers[3]];
        let links = numbers[4..].chunks_exact(4).take(count as usize);
        let links = links.map(|n| Link { start: n[0], end: n[1], capacity: n[2], transit: n[3] }).collect();
        Ok(Network { places, origin, destination, links, record: record.to_vec() })
    }

    /// How many places there are.
    pub fn places(&self) -> usize {
        self.places as usize
    }

    /// The place from which blocks come.
    pub fn origin(&self) -> u32 {
        self.origin
    }

    /// The archive, to which they go.
    pub fn destination(&self) -> u32 {
        self.destination
    }

    /// The links, in record order.
    pub fn links(&self) -> &[Link] {
        &self.links
    }

    /// The length of a chain of these links: the sum of their transits. None
    /// if a number is not below the number of links.
    pub fn length(&self, links: &[u32]) -> Option<u32> {
        links.iter().try_fold(0u32, |sum, &e| sum.checked_add(self.links.get(e as usize)?.transit))
    }

    /// The network's record.
    pub fn record(&self) -> &[u8] {
        &self.record
    }
}

impl AsRef<[u8]> for Network {
    fn as_ref(&self) -> &[u8] {
        &self.record
    }
}

/// The list of numbers that stands for a network. A number of links above the
/// limit goes in as it is, and is refused for that.
fn table(places: u32, origin: u32, destination: u32, links: &[Link]) -> [u32; limits::NUMBERS] {
    let count = u32::try_from(links.len()).unwrap_or(u32::MAX);
    let mut numbers = [0; limits::NUMBERS];
    numbers[..4].copy_from_slice(&[places, origin, destination, count]);
    for (four, link) in numbers[4..].chunks_exact_mut(4).zip(links) {
        four.copy_from_slice(&[link.start, link.end, link.capacity, link.transit]);
    }
    numbers
}

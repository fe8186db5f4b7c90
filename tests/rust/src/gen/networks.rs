//! Networks of named families.

use super::Rng;
use crate::oracle::limits;
use crate::oracle::network::{Link, Network};

#[derive(Clone, Copy, Debug, PartialEq, Eq)]
pub enum Family {
    Random,
    Layered,
    Grid,
    Parallel,
    /// So many hops in a row, the links spread evenly over them.
    Hops(u32),
    /// Levels of places, all links from one to the next and all of one transit: many routes, none shorter than another.
    EqualLevels,
    Bipartite,
    Line,
    ZigZag,
    /// The same around so many links of capacity 1 side by side: as many times the augmentations.
    ZigZagOver(u32),
    /// Of full size only.
    ToAndFro,
}

pub const FAMILIES: [Family; 7] =
    [Family::Random, Family::Layered, Family::Grid, Family::Parallel, Family::Bipartite, Family::Line, Family::ZigZag];

/// How large, and within which limits capacities and transits are drawn. Transits are from 1 on, or all 0.
#[derive(Clone, Copy, Debug)]
pub struct Size {
    pub places: usize,
    pub links: usize,
    pub capacity: u32,
    pub transit: u32,
}

impl Size {
    /// 64 places, 256 links.
    pub const FULL: Size = Size { places: 64, links: 256, capacity: 10_000, transit: 1_000 };

    /// Fit for a time-expanded network.
    pub fn small(rng: &mut Rng) -> Size {
        Size {
            places: 2 + rng.below(6),
            links: 1 + rng.below(14),
            capacity: rng.within(1, 6),
            transit: rng.within(1, 4),
        }
    }

    /// Anything within the limits.
    pub fn any(rng: &mut Rng) -> Size {
        let large = *rng.pick(&[1, 5, 100, limits::CAPACITY.1]);
        let long = *rng.pick(&[1, 5, 100, limits::TRANSIT.1]);
        Size { places: 2 + rng.below(63), links: 1 + rng.below(256), capacity: large, transit: long }
    }
}

/// Links between places 0 to places - 1; the origin is 0, the archive the last.
struct Draft<'a> {
    rng: &'a mut Rng,
    size: Size,
    links: Vec<Link>,
}

impl Draft<'_> {
    fn join(&mut self, start: usize, end: usize) {
        let capacity = self.rng.within(1, self.size.capacity);
        let transit = self.rng.within(self.size.transit.min(1), self.size.transit);
        self.add(start, end, capacity, transit);
    }

    fn add(&mut self, start: usize, end: usize, capacity: u32, transit: u32) {
        if start != end && self.links.len() < self.size.links {
            self.links.push(Link { start: start as u32, end: end as u32, capacity, transit });
        }
    }

    /// Random pairs up to the wanted number of links.
    fn fill(&mut self) {
        while self.links.len() < self.size.links {
            let (start, end) = (self.rng.below(self.size.places), self.rng.below(self.size.places));
            self.join(start, end);
        }
    }
}

/// A network of the family, as large as wanted, places and links shuffled.
pub fn network(rng: &mut Rng, family: Family, size: Size) -> Network {
    let mut draft = Draft { rng, size, links: Vec::new() };
    match family {
        Family::Random => draft.fill(),
        Family::Layered => layered(&mut draft),
        Family::Grid => grid(&mut draft),
        Family::Parallel => parallel(&mut draft),
        Family::Hops(hops) => hops_in_a_row(&mut draft, hops as usize),
        Family::EqualLevels => equal_levels(&mut draft),
        Family::Bipartite => bipartite(&mut draft),
        Family::Line => line(&mut draft),
        Family::ZigZag => zigzag(&mut draft, 1),
        Family::ZigZagOver(inner) => zigzag(&mut draft, inner),
        Family::ToAndFro => to_and_fro(&mut draft),
    }
    let links = draft.links;
    shuffled(rng, size.places, links)
}

/// A network of any family and size, with oddities.
pub fn any(rng: &mut Rng) -> Network {
    let family = *rng.pick(&FAMILIES);
    let size = if rng.one_in(8) { Size::FULL } else { Size::any(rng) };
    let mut network = network(rng, family, size);
    odd(rng, &mut network);
    halls(rng, &mut network);
    network
}

/// Families that are drawn at full size in turn.
const FULL_FAMILIES: [Family; 8] = [
    Family::Random,
    Family::Layered,
    Family::Grid,
    Family::Parallel,
    Family::Hops(8),
    Family::EqualLevels,
    Family::Bipartite,
    Family::Line,
];

/// Networks in turn: one of any size, and one of full size, family by family.
pub fn in_turn(rng: &mut Rng, case: u64) -> Network {
    if case % 2 == 1 {
        return any(rng);
    }
    let family = FULL_FAMILIES[case as usize / 2 % FULL_FAMILIES.len()];
    let capacity = *rng.pick(&[1, 20, 400, 10_000]);
    let mut network = network(rng, family, Size { capacity, ..Size::FULL });
    halls(rng, &mut network);
    network
}

/// A small network of any family, with oddities.
pub fn small(rng: &mut Rng) -> Network {
    let family = *rng.pick(&FAMILIES);
    let size = Size::small(rng);
    let mut network = network(rng, family, size);
    odd(rng, &mut network);
    halls(rng, &mut network);
    network
}

fn layered(draft: &mut Draft) {
    let last = draft.size.places - 1;
    let width = 2 + draft.rng.below(7);
    // Layers of `width` places between origin and archive.
    let layer = |place: usize| if place == 0 { 0 } else { (place - 1) / width + 1 };
    let deepest = if last > 1 { layer(last - 1) } else { 0 };
    for place in 1..last {
        if layer(place) == 1 {
            draft.join(0, place);
        }
        if layer(place) == deepest {
            draft.join(place, last);
        }
    }
    let mut tries = 0;
    while draft.links.len() < draft.size.links && tries < 20_000 {
        tries += 1;
        let (start, end) = (draft.rng.below(last.max(1)), 1 + draft.rng.below(last));
        if end < last && layer(end) == layer(start) + 1 || draft.rng.one_in(40) {
            draft.join(start, end);
        }
    }
    draft.fill();
}

fn grid(draft: &mut Draft) {
    let places = draft.size.places;
    let width = (1..=places).find(|w| w * w >= places).unwrap_or(1);
    for place in 0..places {
        if place % width + 1 < width && place + 1 < places {
            draft.join(place, place + 1);
            draft.join(place + 1, place);
        }
        if place + width < places {
            draft.join(place, place + width);
            draft.join(place + width, place);
        }
    }
    draft.fill();
}

fn parallel(draft: &mut Draft) {
    let last = draft.size.places - 1;
    let hops = 1 + draft.rng.below(last.min(6));
    // `hops` places on the way, many links between neighbours.
    let stop = |hop: usize| if hop == hops { last } else { hop };
    while draft.links.len() < draft.size.links {
        let hop = draft.rng.below(hops);
        draft.join(stop(hop), stop(hop + 1));
    }
}

fn hops_in_a_row(draft: &mut Draft, hops: usize) {
    let last = draft.size.places - 1;
    let stop = |hop: usize| if hop == hops { last } else { hop };
    for link in 0..draft.size.links {
        let hop = link % hops;
        draft.join(stop(hop), stop(hop + 1));
    }
}

fn equal_levels(draft: &mut Draft) {
    let last = draft.size.places - 1;
    let transit = draft.rng.within(draft.size.transit.min(1), draft.size.transit);
    let width = 4 + draft.rng.below(5);
    let levels = (1 + draft.size.links.saturating_sub(2 * width) / (width * width)).min((last - 1) / width).max(1);
    let at = |level: usize, place: usize| 1 + level * width + place;
    let mut put = |start, end| {
        let capacity = draft.rng.within(1, draft.size.capacity);
        draft.add(start, end, capacity, transit);
    };
    for place in 0..width.min(last - 1) {
        put(0, at(0, place));
        put(at(levels - 1, place), last);
    }
    for level in 1..levels {
        for (from, to) in (0..width).flat_map(|from| (0..width).map(move |to| (from, to))) {
            put(at(level - 1, from), at(level, to));
        }
    }
}

fn bipartite(draft: &mut Draft) {
    let last = draft.size.places - 1;
    let half = last.div_ceil(2);
    for place in 1..last {
        if place < half {
            draft.join(0, place);
        } else {
            draft.join(place, last);
        }
    }
    while draft.links.len() < draft.size.links && half > 1 && last > half {
        let (start, end) = (1 + draft.rng.below(half - 1), half + draft.rng.below(last - half));
        draft.join(start, end);
    }
    draft.fill();
}

fn line(draft: &mut Draft) {
    let places = draft.size.places;
    for place in 1..places {
        draft.join(place - 1, place);
    }
    while draft.links.len() < draft.size.links {
        let (start, reach) = (draft.rng.below(places), 1 + draft.rng.below(8));
        if draft.rng.one_in(4) {
            draft.join(start, start.saturating_sub(reach));
        } else {
            draft.join(start, (start + reach).min(places - 1));
        }
    }
}

/// Zadeh's construction: each level sends what the level inside it sends, then
/// takes it all back, unit by unit, over two longer links. Levels double the
/// augmentations. A transit above the limit becomes a line of links, a capacity
/// above its limit links side by side.
fn zigzag(draft: &mut Draft, inner: u32) {
    let size = draft.size;
    let mut links: Vec<(usize, usize, u32, u32)> = Vec::new();
    let (mut source, mut sink) = (0, 1);
    let mut places = 2;
    links.extend((0..inner).map(|_| (source, sink, 1, 1)));
    let (mut shortest, mut longest, mut value) = (1, 1, inner);
    loop {
        let cross = longest + 2;
        let pieces = (cross as usize).div_ceil(limits::TRANSIT.1 as usize);
        let more_places = 2 + 2 * (pieces - 1);
        let side = value.div_ceil(limits::CAPACITY.1);
        let more_links = side as usize * (2 + 2 * pieces);
        if places + more_places > size.places || links.len() + more_links > size.links {
            break;
        }
        let share = |i: u32| (value + i) / side;
        let mut put = |start, end, transit| links.extend((0..side).map(|i| (start, end, share(i), transit)));
        let (outer_source, outer_sink) = (places, places + 1);
        places += 2;
        put(outer_source, source, 1);
        put(sink, outer_sink, 1);
        for (from, to) in [(outer_source, sink), (source, outer_sink)] {
            let mut at = from;
            let mut left = cross;
            for piece in 0..pieces {
                let transit = left.min(limits::TRANSIT.1);
                let next = if piece + 1 == pieces { to } else { places };
                places += usize::from(piece + 1 < pieces);
                put(at, next, transit);
                at = next;
                left -= transit;
            }
        }
        (shortest, longest) = (shortest + 2, 2 * cross - shortest);
        value *= 2;
        (source, sink) = (outer_source, outer_sink);
    }
    // Renumber so that origin and archive are the first and the last place.
    let last = size.places - 1;
    let mut name: Vec<usize> = (0..size.places).collect();
    name.swap(source, 0);
    let at_last = name.iter().position(|n| *n == last).unwrap();
    name.swap(sink, at_last);
    for (start, end, capacity, transit) in links {
        draft.add(name[start], name[end], capacity, transit);
    }
    // The rest carries nothing, so that the counting is not disturbed.
    while draft.links.len() < size.links {
        let (start, end) = (draft.rng.below(size.places), draft.rng.below(size.places));
        let transit = draft.rng.within(size.transit.min(1), size.transit);
        draft.add(start, end, 0, transit);
    }
}

/// Crossing links of capacity 1 between two sides, and ways in and out of the
/// sides in turn, each two links longer than the one before: over a way in and
/// out as many blocks as links cross go one by one, and the next way takes them
/// all back. So the shortest augmenting paths are many, 9 times 144, and each
/// brings one block. All transits are 0, or all 1.
fn to_and_fro(draft: &mut Draft) {
    const WIDE: usize = 12;
    const WAYS: usize = 9;
    const LONG: usize = 2 * WAYS - 1;
    const CROSSING: u32 = (WIDE * WIDE) as u32;
    let last = draft.size.places - 1;
    let transit = draft.size.transit.min(1);
    let inward = |at: usize| at;
    let outward = |at: usize| last - at;
    let side = |side: usize, at: usize| LONG + WIDE * side + at;
    let door = |side: usize, out: usize| LONG + 2 * WIDE + 2 * side + out;
    for at in 1..LONG {
        draft.add(inward(at - 1), inward(at), limits::CAPACITY.1, transit);
        draft.add(outward(at), outward(at - 1), limits::CAPACITY.1, transit);
    }
    for way in 0..WAYS {
        draft.add(inward(2 * way), door(way % 2, 0), CROSSING, transit);
        draft.add(door(1 - way % 2, 1), outward(2 * way), CROSSING, transit);
    }
    for from in 0..WIDE {
        for at in [0, 1] {
            draft.add(door(at, 0), side(at, from), limits::CAPACITY.1, transit);
            draft.add(side(at, from), door(at, 1), limits::CAPACITY.1, transit);
        }
        for to in 0..WIDE {
            draft.add(side(0, from), side(1, to), 1, transit);
        }
    }
}

fn shuffled(rng: &mut Rng, places: usize, mut links: Vec<Link>) -> Network {
    let mut name: Vec<u32> = (0..places as u32).collect();
    rng.shuffle(&mut name);
    rng.shuffle(&mut links);
    for link in &mut links {
        link.start = name[link.start as usize];
        link.end = name[link.end as usize];
    }
    Network { places: places as u32, origin: name[0], destination: name[places - 1], links }
}

/// Hops of transit 0 in most networks: all links, those between places of one
/// hall, or one link in three.
pub fn halls(rng: &mut Rng, network: &mut Network) {
    let way = rng.below(8);
    let width = rng.within(2, 8);
    for link in &mut network.links {
        let still = match way {
            0 => true,
            1 | 2 => link.start / width == link.end / width,
            3 | 4 => rng.one_in(3),
            _ => false,
        };
        if still {
            link.transit = 0;
        }
    }
}

/// Oddities: capacities of 0, links into the origin and out of the archive,
/// opposite and parallel links, an archive that can't be reached.
pub fn odd(rng: &mut Rng, network: &mut Network) {
    let count = network.links.len();
    if rng.one_in(3) {
        for _ in 0..1 + count / 6 {
            let e = rng.below(count);
            network.links[e].capacity = 0;
        }
    }
    let copies = if rng.one_in(2) { 1 + count / 5 } else { 0 };
    for _ in 0..copies {
        let (from, to) = (rng.below(count), rng.below(count));
        let other = network.links[from];
        let link = &mut network.links[to];
        match rng.below(4) {
            0 => (link.start, link.end) = (other.end, other.start),
            1 => (link.start, link.end) = (other.start, other.end),
            2 if link.start != network.origin => link.end = network.origin,
            3 if link.end != network.destination => link.start = network.destination,
            _ => {}
        }
    }
    if rng.one_in(12) {
        let into = network.destination;
        network.links.iter_mut().filter(|l| l.end == into).for_each(|l| l.capacity = 0);
    }
    if rng.one_in(24) {
        let out = network.origin;
        let other = network.places - 1 - u32::from(out == network.places - 1);
        for link in network.links.iter_mut().filter(|l| l.start == out) {
            (link.start, link.end) = (other, out);
        }
    }
}

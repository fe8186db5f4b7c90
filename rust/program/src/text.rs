//! The text form of a network: `docs/FORMATS.md` describes it.
//!
//! Statements stand one to a line, and `#` starts a comment. The head gives
//! places, their names, origin and destination; the header line names the
//! columns with their units; then comes one line a link.

use pudeyan::{limits, Link, Network};
use std::collections::HashMap;

/// A text may have as many octets.
pub const OCTETS_MOST: u64 = 1 << 20;

/// The line that ends the head.
const HEADER: [&str; 4] = ["start", "end", "capacity(blocks/slot)", "transit(slots)"];

/// What is wrong in a line; lines are counted from 1.
#[derive(Debug, PartialEq)]
pub struct Fault {
    pub line: usize,
    pub words: String,
}

/// A network's numbers as written, and the lines in which they stand.
#[derive(Debug, PartialEq)]
pub struct Text {
    pub places: u32,
    pub origin: u32,
    pub destination: u32,
    pub links: Vec<Link>,
    /// Of places, origin, destination, header, then of each link.
    lines: Vec<usize>,
}

impl Text {
    /// The numbers in record order.
    pub fn numbers(&self) -> Vec<u32> {
        let count = u32::try_from(self.links.len()).unwrap_or(u32::MAX);
        let head = [self.places, self.origin, self.destination, count];
        let links = self.links.iter().flat_map(|link| [link.start, link.end, link.capacity, link.transit]);
        head.into_iter().chain(links).collect()
    }

    /// The line of a number, by its position in record order. The number of
    /// links is wrong in the line of the first link too many, or of the header
    /// where there is none.
    pub fn line(&self, position: usize) -> usize {
        let too_many = *limits::LINKS.end() as usize + 1;
        match position {
            0..=2 => self.lines[position],
            3 => self.lines[3 + self.links.len().min(too_many)],
            _ => self.lines[position / 4 + 3],
        }
    }
}

/// A network as text, without names.
pub fn print(network: &Network) -> String {
    let mut text = format!("places {}\n", network.places());
    text += &format!("origin {}\ndestination {}\n", network.origin(), network.destination());
    text += &format!("{}\n", HEADER.join(" "));
    for link in network.links() {
        text += &format!("{} {} {} {}\n", link.start, link.end, link.capacity, link.transit);
    }
    text
}

/// Reads a text, or tells what is wrong in it, line by line.
pub fn read(octets: &[u8]) -> Result<Text, Vec<Fault>> {
    let mut reader = Reader::default();
    let mut last = 0;
    for (at, line) in octets.split(|&octet| octet == b'\n').enumerate() {
        reader.line = at + 1;
        match words(line) {
            Ok(words) if words.is_empty() => continue,
            Ok(words) => reader.statement(&words),
            Err(()) => reader.fault("it is not UTF-8"),
        }
        last = at + 1;
    }
    reader.line = last.max(1);
    reader.end()
}

/// A line's words, the comment left out.
fn words(line: &[u8]) -> Result<Vec<&str>, ()> {
    let line = line.split(|&octet| octet == b'#').next().unwrap_or(line);
    Ok(std::str::from_utf8(line).map_err(|_| ())?.split_whitespace().collect())
}

/// A number of the head, and its line.
type Placed = (u32, usize);

#[derive(Default)]
struct Reader {
    line: usize,
    places: Option<Placed>,
    names: HashMap<String, u32>,
    /// Origin and destination, still words: names may be given later.
    ends: [Option<(String, usize)>; 2],
    header: Option<usize>,
    links: Vec<(Link, usize)>,
    faults: Vec<Fault>,
}

impl Reader {
    fn fault(&mut self, words: impl Into<String>) {
        self.faults.push(Fault { line: self.line, words: words.into() });
    }

    fn statement(&mut self, words: &[&str]) {
        let done = match words {
            _ if self.header.is_some() => self.link(words),
            _ if words == HEADER => {
                self.header = Some(self.line);
                Ok(())
            }
            ["places", count] => self.count(count),
            ["place", number, name] => self.name(number, name),
            ["origin", place] => self.give_end(0, place),
            ["destination", place] => self.give_end(1, place),
            [first, ..] => Err(not_a_statement(first)),
            [] => Ok(()),
        };
        if let Err(words) = done {
            self.fault(words);
        }
    }

    fn count(&mut self, word: &str) -> Result<(), String> {
        if self.places.is_some() {
            return Err("the number of places is given twice".into());
        }
        self.places = Some((number(word)?, self.line));
        Ok(())
    }

    fn name(&mut self, place: &str, name: &str) -> Result<(), String> {
        let place = number(place)?;
        if !is_name(name) {
            return Err(format!("'{name}' is no name: a letter, then letters, digits, '-', '_' or '.'"));
        }
        if self.names.values().any(|&named| named == place) {
            return Err(format!("place {place} has a name already"));
        }
        if self.names.contains_key(name) {
            return Err(format!("the name '{name}' is given twice"));
        }
        self.names.insert(name.into(), place);
        match self.places {
            Some((places, _)) if place < places => Ok(()),
            Some((places, _)) => Err(format!("place {place} is not below the number of places, {places}")),
            None => Err("the number of places comes first: places N".into()),
        }
    }

    fn give_end(&mut self, which: usize, place: &str) -> Result<(), String> {
        if self.ends[which].is_some() {
            return Err(format!("the {} is given twice", ["origin", "destination"][which]));
        }
        self.ends[which] = Some((place.into(), self.line));
        Ok(())
    }

    fn link(&mut self, words: &[&str]) -> Result<(), String> {
        let [start, end, capacity, transit] = words else {
            return Err(format!("a link is start, end, capacity and transit: 4 words, and here are {}", words.len()));
        };
        let (start, end) = (self.place(start)?, self.place(end)?);
        let link = Link { start, end, capacity: number(capacity)?, transit: number(transit)? };
        self.links.push((link, self.line));
        Ok(())
    }

    /// A place by its number or its name.
    fn place(&self, word: &str) -> Result<u32, String> {
        if word.bytes().all(|octet| octet.is_ascii_digit()) {
            return number(word);
        }
        let found = self.names.get(word).copied();
        found.ok_or_else(|| format!("'{word}' is neither a number nor the name of a place"))
    }

    /// Origin or destination, once all names are known.
    fn end_of(&mut self, which: usize) -> Placed {
        let Some((word, line)) = self.ends[which].take() else {
            self.fault(["there is no origin", "there is no destination"][which]);
            return (0, 0);
        };
        let place = self.place(&word).unwrap_or_else(|words| {
            self.faults.push(Fault { line, words });
            0
        });
        (place, line)
    }

    fn end(mut self) -> Result<Text, Vec<Fault>> {
        let ends = [self.end_of(0), self.end_of(1)];
        if self.places.is_none() {
            self.fault("there is no number of places");
        }
        if self.header.is_none() {
            self.fault(format!("there is no line '{}', nor links after it", HEADER.join(" ")));
        }
        let (Some(places), Some(header), true) = (self.places, self.header, self.faults.is_empty()) else {
            self.faults.sort_by_key(|fault| fault.line);
            return Err(self.faults);
        };
        let lines = [places.1, ends[0].1, ends[1].1, header].into_iter().chain(self.links.iter().map(|link| link.1));
        Ok(Text {
            places: places.0,
            origin: ends[0].0,
            destination: ends[1].0,
            lines: lines.collect(),
            links: self.links.into_iter().map(|link| link.0).collect(),
        })
    }
}

fn not_a_statement(word: &str) -> String {
    let form = match word {
        "places" => "places N",
        "place" => "place NUMBER NAME",
        "origin" => "origin PLACE",
        "destination" => "destination PLACE",
        "start" => return format!("the header is '{}'", HEADER.join(" ")),
        _ => {
            return format!(
                "'{word}' starts no statement: places, place, origin, destination, or the header 'start ..'"
            )
        }
    };
    format!("the statement is {form}")
}

/// One or more decimal digits. What does not fit is far outside every limit.
fn number(word: &str) -> Result<u32, String> {
    if word.is_empty() || !word.bytes().all(|octet| octet.is_ascii_digit()) {
        return Err(format!("'{word}' is not a decimal number"));
    }
    word.parse().map_err(|_| format!("{word} is too large"))
}

fn is_name(word: &str) -> bool {
    let mut letters = word.chars();
    letters.next().is_some_and(char::is_alphabetic)
        && letters.all(|c| c.is_alphanumeric() || matches!(c, '-' | '_' | '.'))
}

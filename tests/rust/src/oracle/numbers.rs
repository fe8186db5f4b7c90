//! Unsigned LEB128 in at most four groups, shortest form only.

use super::limits::GROUPS;

/// Why a number could not be read.
#[derive(Clone, Copy, Debug, PartialEq, Eq)]
pub enum Fault {
    Ends,
    NotShortest,
    Continues,
}

/// The number at the front of `octets`, and how many octets it takes.
pub fn read(octets: &[u8]) -> Result<(u32, usize), Fault> {
    let groups = octets.iter().take(GROUPS).take_while(|o| **o >= 0x80).count();
    if groups == GROUPS {
        return Err(Fault::Continues);
    }
    let last = *octets.get(groups).ok_or(Fault::Ends)?;
    if last == 0 && groups > 0 {
        return Err(Fault::NotShortest);
    }
    let value = octets[..=groups].iter().rev().fold(0, |n, o| (n << 7) | u32::from(o & 0x7f));
    Ok((value, groups + 1))
}

/// Appends the shortest form, in as many groups as that takes.
pub fn write(number: u32, octets: &mut Vec<u8>) {
    let mut rest = number;
    while rest >= 0x80 {
        octets.push((rest & 0x7f) as u8 | 0x80);
        rest >>= 7;
    }
    octets.push(rest as u8);
}

/// The shortest forms of several numbers, one after another.
pub fn write_all(numbers: &[u32]) -> Vec<u8> {
    let mut octets = Vec::new();
    numbers.iter().for_each(|n| write(*n, &mut octets));
    octets
}

/// Octets read from the front, with document 01's refusals for each number:
/// `ends`, `not_shortest`, `continues`, `limits`.
pub struct Reader<'a> {
    pub rest: &'a [u8],
    pub ends: u32,
    pub not_shortest: u32,
    pub continues: u32,
    pub limits: u32,
}

impl Reader<'_> {
    pub fn take(&mut self, (low, high): (u32, u32)) -> Result<u32, u32> {
        let (number, used) = read(self.rest).map_err(|fault| match fault {
            Fault::Ends => self.ends,
            Fault::NotShortest => self.not_shortest,
            Fault::Continues => self.continues,
        })?;
        if number < low || number > high {
            return Err(self.limits);
        }
        self.rest = &self.rest[used..];
        Ok(number)
    }
}

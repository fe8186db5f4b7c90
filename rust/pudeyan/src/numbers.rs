//! A record's numbers: unsigned LEB128, seven bits an octet, least first, the
//! top bit set where another octet follows.

/// Takes the first number off octets, if a whole one stands there.
pub(crate) fn take(octets: &mut &[u8]) -> Option<u32> {
    let mut number: u32 = 0;
    for shift in (0..u32::BITS).step_by(7) {
        let (&octet, rest) = octets.split_first()?;
        *octets = rest;
        number |= u32::from(octet & 0x7F).checked_shl(shift)?;
        if octet & 0x80 == 0 {
            return Some(number);
        }
    }
    None
}

/// Puts a number in shortest form behind octets.
pub(crate) fn put(octets: &mut Vec<u8>, mut number: u32) {
    while number > 0x7F {
        octets.push(0x80 | (number & 0x7F) as u8);
        number >>= 7;
    }
    octets.push(number as u8);
}

#[cfg(test)]
mod tests {
    use super::*;

    #[test]
    fn numbers_come_back() {
        for number in (0..5_000).chain((1..=32).flat_map(|bits| [u32::MAX >> (32 - bits), 1 << (bits - 1)])) {
            let mut octets = Vec::new();
            put(&mut octets, number);
            let groups = (32 - number.leading_zeros()).div_ceil(7).max(1);
            assert_eq!(octets.len(), groups as usize, "{number}");
            octets.push(0x55);
            let mut rest = &octets[..];
            assert_eq!((take(&mut rest), rest), (Some(number), &[0x55][..]));
        }
        assert_eq!(take(&mut &[0x80][..]), None);
        assert_eq!(take(&mut &[0x80; 6][..]), None);
    }
}

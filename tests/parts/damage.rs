//! Damage to the octets of random tests.

use crate::numbers::Numbers;

/// Changes one number of 2 octets, or cuts, drops or doubles a part.
pub fn damage(numbers: &mut Numbers, octets: &mut Vec<u8>) {
    if octets.len() < 2 {
        return;
    }
    let at = numbers.below(octets.len() - 1);
    let end = octets.len().min(at + 1 + numbers.below(20));
    match numbers.below(6) {
        0 => octets.truncate(at),
        1 => drop(octets.drain(at..end)),
        2 => octets.extend_from_within(at..end),
        _ => {
            let number = numbers.of(&[0u16, 1, 2, 3, 4, 5, 9, 10, 15, 16, 255, 256, 257, 65535]);
            octets[at..at + 2].copy_from_slice(&number.to_be_bytes());
        }
    }
}

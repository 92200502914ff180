//! Damage to a file's bytes.

use super::numbers::{retagged, spoiled, Numbers};
use crate::figures::MOST_GROUPS;
use crate::random::Random;

/// Damages a file of these numbers: one of them is written otherwise, a tag is another, or its bytes are damaged wherever that is.
pub fn damage_file(random: &mut Random, bytes: &mut Vec<u8>, numbers: &Numbers) {
    match random.below(10) {
        0..4 => *bytes = spoiled(random, numbers).0,
        4..6 => *bytes = retagged(random, numbers).0,
        _ => damage(random, bytes),
    }
}

/// Changes, adds or removes bytes at one place.
pub fn damage(random: &mut Random, bytes: &mut Vec<u8>) {
    let place = random.below(bytes.len() + 1);
    match random.below(9) {
        0 => bytes.truncate(place),
        1 => bytes.push(random.below(256) as u8),
        2 => bytes.insert(place, *random.choose(&[0, 1, 2, 3, 4, 0x7F, 0x80, 0xFF])),
        3 => lengthen(random, bytes, place),
        4 if place < bytes.len() => {
            bytes.remove(place);
        }
        5 if place < bytes.len() => bytes[place] = random.below(16) as u8,
        6 | 7 if place < bytes.len() => bytes[place] = bytes[place].wrapping_add(1),
        _ if place < bytes.len() => bytes[place] = random.below(256) as u8,
        _ => bytes.clear(),
    }
}

/// The number that ends at this place gets one or more groups too many.
fn lengthen(random: &mut Random, bytes: &mut Vec<u8>, place: usize) {
    let Some(last) = bytes.get_mut(place) else {
        return bytes.push(0x80);
    };
    *last |= 0x80;
    let groups = 1 + random.below(MOST_GROUPS);
    let last_group = *random.choose(&[0, 0, 1, 0x7F]);
    let mut rest = vec![0x80; groups - 1];
    rest.push(last_group);
    bytes.splice(place + 1..place + 1, rest);
}

/// Adds bytes up to a length above `limit`, or to the limit itself.
pub fn overfill(random: &mut Random, bytes: &mut Vec<u8>, limit: usize) {
    let beyond = [0, 1, 1, 1, 2, 100];
    bytes.resize(limit + random.choose(&beyond), 0);
}

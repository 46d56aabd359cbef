//! One byte changed, removed or put in, or a cut: at any place.

use crate::random::Random;

const BYTES: &[u8] = b"0123456789 \n\r\t\0-+.x\x7f\x80\xff/:";

/// Damages bytes once, rarely more often.
pub fn spoil(random: &mut Random, bytes: Vec<u8>) -> Vec<u8> {
    spoil_by(random, bytes, BYTES)
}

/// Damages bytes with those of a list.
pub fn spoil_by(random: &mut Random, mut bytes: Vec<u8>, list: &[u8]) -> Vec<u8> {
    for _ in 0..random.pick(&[1, 1, 1, 2, 5]) {
        if !bytes.is_empty() {
            spoil_once(random, &mut bytes, list);
        }
    }
    bytes
}

fn spoil_once(random: &mut Random, bytes: &mut Vec<u8>, list: &[u8]) {
    let place = random.place(bytes.len());
    let byte = random.pick(list);
    match random.below(8) {
        0 | 1 => bytes[place] = byte,
        2 => bytes[place] ^= 1 << random.below(8),
        3 => drop(bytes.remove(place)),
        4 => bytes.insert(place, byte),
        5 => bytes.truncate(place),
        6 => drop(bytes.pop()),
        _ => bytes.push(byte),
    }
}

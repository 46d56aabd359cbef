//! Tables as bytes: whole ones, cut ones, and bytes of any kind.

use crate::random::Random;
use crate::tables;

/// Longest table that is tried: two tasks and two bytes over the most that is taken.
const MOST: u64 = 530;
const CORES: [u32; 5] = [0, 1, 16, 17, u32::MAX];

/// A core count and a table.
pub fn table(random: &mut Random) -> (u32, Vec<u8>) {
    let table = tables::any(random);
    let mut bytes: Vec<u8> = table.numbers.iter().flat_map(|n| n.to_le_bytes()).collect();
    match random.below(12) {
        0 => bytes.truncate(random.place(bytes.len() + 1)),
        1 => bytes = stretched(random, &bytes),
        2 => spoil(random, &mut bytes),
        _ => {}
    }
    let odd = random.one_in(10);
    let cores = if odd {
        random.pick(&CORES)
    } else {
        table.cores
    };
    (cores, bytes)
}

/// Any length from 0 on, the table's bytes over and over.
fn stretched(random: &mut Random, bytes: &[u8]) -> Vec<u8> {
    let length = random.below(MOST + 1) as usize;
    if bytes.is_empty() {
        return vec![0; length];
    }
    bytes.iter().copied().cycle().take(length).collect()
}

/// One byte changed, so that a high byte of a number may be set.
fn spoil(random: &mut Random, bytes: &mut [u8]) {
    if !bytes.is_empty() {
        bytes[random.place(bytes.len())] = random.pick(&[0, 1, 15, 16, 127, 128, 255]);
    }
}

//! Words that are no names or numbers of a sheet, or only just.

use crate::random::Random;

const NAMES: [&str; 27] = [
    "",
    "a",
    "z",
    "A",
    "Cam",
    "caM",
    "cam1",
    "1",
    "c m",
    " cam",
    "cam ",
    "cam\t",
    "cam\r",
    "cam\0",
    "abcdefghijkl",
    "abcdefghijklm",
    "abcdefghijklmnopqrstuvwxyz",
    "\"cam\"",
    "'cam'",
    "a;b",
    "a,b",
    "a-b",
    "a`",
    "a{",
    "k\u{e4}",
    "\u{feff}cam",
    "names ",
];
const NUMBERS: [&str; 30] = [
    "",
    "0",
    "1",
    "00",
    "01",
    "-1",
    "-0",
    "+1",
    " 1",
    "1 ",
    "1\r",
    "1\t",
    "1\0",
    "1.0",
    "1,0",
    "1e3",
    "0x1",
    "1_000",
    "\"1\"",
    "1;",
    "x",
    "/",
    ":",
    "999999999999999",
    "1000000000000000",
    "9999999999999999",
    "000000000000001",
    "0000000000000001",
    "4294967297",
    "18446744073709551617",
];

/// A word in the place of a name.
pub fn name(random: &mut Random) -> String {
    random.pick(&NAMES).to_string()
}

/// A word in the place of a number; any number of 1 to 16 digits as often.
pub fn number(random: &mut Random) -> String {
    match random.below(2) {
        0 => random.pick(&NUMBERS).to_string(),
        _ => digits(random),
    }
}

/// A number of 1 to 16 digits: the least, the greatest or any.
pub fn digits(random: &mut Random) -> String {
    let over = random.between(1, 16) as u32;
    let (least, greatest) = (10_u64.pow(over - 1), 10_u64.pow(over) - 1);
    let any = random.between(least, greatest);
    random.pick(&[least, greatest, any]).to_string()
}

//! Texts for the program `plan`, good ones and damaged ones.

pub mod damage;
mod odd;
mod size;
pub mod write;

use crate::batch::Batch;
use crate::random::Random;
use crate::tables;
use second::program::program;

/// One text and its answer.
pub fn batch(random: &mut Random) -> Batch {
    let text = any(random);
    let answer = program(&text);
    let met = vec![refusal(answer.split(|&byte| byte == b'\n').next())];
    Batch::single(text, answer, met)
}

/// A text: most are well formed, the others are damaged in one way or two.
pub fn any(random: &mut Random) -> Vec<u8> {
    let text = write::text(&tables::any(random));
    match random.below(16) {
        0 => damage::spoil(random, text),
        1 => odd::put(random, text),
        2 => {
            let text = odd::put(random, text);
            damage::spoil(random, text)
        }
        3 => size::text(random),
        _ => text,
    }
}

/// The number of a line that is a refusal, else 0.
pub fn refusal(line: Option<&[u8]>) -> u32 {
    let number = line.and_then(|line| line.strip_prefix(b"refused "));
    let digits = number.map_or(&[][..], |number| {
        let end = number.iter().position(|byte| !byte.is_ascii_digit());
        &number[..end.unwrap_or(number.len())]
    });
    let digits = String::from_utf8_lossy(digits);
    digits.parse().unwrap_or(0)
}

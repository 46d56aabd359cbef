//! Damage to whole lines of an input.

use crate::random::Random;

const CR_LF: &[u8] = b"\r\n";
const MARK: &[u8] = b"\xef\xbb\xbf";

/// Damages one line, or the ends of all.
pub fn spoil(random: &mut Random, input: Vec<u8>) -> Vec<u8> {
    let lines = input.split_inclusive(|&byte| byte == b'\n');
    let mut lines: Vec<Vec<u8>> = lines.map(<[u8]>::to_vec).collect();
    if lines.is_empty() {
        return input;
    }
    let place = random.place(lines.len());
    match random.below(12) {
        0 | 1 => lines.insert(place, lines[place].clone()),
        2 => lines.push(lines[place].clone()),
        3 => drop(lines.remove(place)),
        4 => lines.insert(place, b"\n".to_vec()),
        5 => lines.push(b"\n".to_vec()),
        6 => lines.iter_mut().for_each(|line| end(line, CR_LF)),
        7 => end(&mut lines[place], CR_LF),
        8 => end(lines.last_mut().expect("there is a line"), b""),
        9 => lines[place]
            .splice(..0, MARK.iter().copied())
            .for_each(drop),
        _ => fields(random, &mut lines[place]),
    }
    lines.concat()
}

/// Ends a line otherwise.
fn end(line: &mut Vec<u8>, end: &[u8]) {
    line.pop();
    line.extend(end);
}

/// A field dropped, empty or put in, or the commas turned.
fn fields(random: &mut Random, line: &mut Vec<u8>) {
    let newline = line.pop();
    let mut fields: Vec<Vec<u8>> = line
        .split(|&byte| byte == b',')
        .map(<[u8]>::to_vec)
        .collect();
    let place = random.place(fields.len());
    let mut comma: &[u8] = b",";
    match random.below(5) {
        0 => drop(fields.remove(place)),
        1 => fields[place].clear(),
        2 => fields.insert(place, b"1".to_vec()),
        3 => fields.push(Vec::new()),
        _ => comma = random.pick(&[b";".as_slice(), b", ", b" ", b"\t", b",,"]),
    }
    *line = fields.join(comma);
    line.extend(newline);
}

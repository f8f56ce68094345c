//! Making good lines bad.

use second::chance::Chance;

/// Numbers that are none, or too large for most places.
pub const NUMBERS: [&str; 17] = [
    "",
    "-1",
    "+1",
    "01",
    "00",
    " 1",
    "1 ",
    "1.",
    "1e3",
    "0x1",
    "256",
    "2",
    "4294967296",
    "42949672950",
    "18446744073709551617",
    "340282366920938463463374607431768211457",
    "\u{661}",
];

/// The line with one thing wrong, mostly: it may become another good one.
pub fn spoil(chance: &mut Chance, mut line: Vec<u8>) -> Vec<u8> {
    let at = chance.below(line.len());
    match chance.below(12) {
        0 => line.make_ascii_lowercase(),
        1 => line[at] = line[at].to_ascii_lowercase(),
        2 => line.truncate(at),
        3 => line.push(chance.pick(b",0 \r\tP\0")),
        4 => {
            let more = chance.pick(&[",", ",0", ",00", ",0000", ",,", "\r", "\0\0"]);
            line.extend_from_slice(more.as_bytes());
        }
        5 => line.insert(0, chance.pick(b" ,0\0PL")),
        6 => line.insert(at, chance.pick(b"0,FP\0 ")),
        7 => {
            line.remove(at);
        }
        8 => line[at] = chance.pick(b"0,\0 \xFFg@`/:G"),
        9 => {
            // Any byte but LF.
            let byte = chance.byte();
            line[at] = if byte == b'\n' { 0 } else { byte };
        }
        10 => line = other_fields(chance, &line),
        _ => line = too_long(chance, line),
    }
    line
}

/// One field more, less or empty.
fn other_fields(chance: &mut Chance, line: &[u8]) -> Vec<u8> {
    let mut fields: Vec<&[u8]> = line.split(|&byte| byte == b',').collect();
    let at = chance.below(fields.len());
    match chance.below(3) {
        0 => fields.insert(at, fields[at]),
        1 => fields[at] = b"",
        _ => {
            fields.remove(at);
        }
    }
    fields.join(&b","[..])
}

/// The line drawn out, most often a little and at times past all room.
fn too_long(chance: &mut Chance, mut line: Vec<u8>) -> Vec<u8> {
    let length = match chance.below(100) {
        0 => 1_100_000,
        1..4 => 65_537,
        4..7 => 65_536,
        7..10 => 65_535,
        10..60 => chance.from(60, 300),
        _ => chance.from(300, 9000),
    };
    line.resize(length, chance.pick(b"0F,P \0"));
    line
}

/// A line that is as long as one can be, with more after it or not.
pub fn around(chance: &mut Chance, longest: &str) -> Vec<u8> {
    let more = chance.pick(&[
        "",
        "",
        "0",
        "F",
        ",",
        "\0",
        "\r",
        "0000",
        "P",
        ",00",
        "00000000,P",
    ]);
    [longest, more].concat().into_bytes()
}

/// Marks of which one is none, or is missing or too many.
pub fn bad_marks(chance: &mut Chance) -> Vec<u8> {
    let mut marks = chance.marks().to_vec();
    match chance.below(3) {
        0 => marks[chance.pick(&[0, 31, 63])] = chance.pick(b"puhX \0"),
        1 => marks.truncate(63),
        _ => marks.push(b'P'),
    }
    [b"Z,", &marks[..]].concat()
}

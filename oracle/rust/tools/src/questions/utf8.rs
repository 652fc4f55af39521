//! Questions about UTF-8: all short inputs, characters around every boundary of
//! RFC 3629's table, runs of ASCII that are broken somewhere, good texts whole
//! and damaged, and broken lines.

use crate::broken::{self, Sort};
use crate::list::List;
use crate::random::{hex, Random};

/// All inputs of 0 to 3 bytes, the shortest first.
pub const WHOLE: List = List {
    length: 1 + (1 << 8) + (1 << 16) + (1 << 24),
    at: |place| {
        let mut place = place;
        let mut width = 0;
        while place >= 1 << (8 * width) {
            place -= 1 << (8 * width);
            width += 1;
        }
        line(&place.to_be_bytes()[8 - width..])
    },
};

/// First bytes at the ends of the table's rows, and beside them.
const FIRST: [u8; 21] = [
    0x7F, 0x80, 0xBF, 0xC0, 0xC1, 0xC2, 0xDF, 0xE0, 0xE1, 0xEC, 0xED, 0xEE, 0xEF, 0xF0, 0xF1, 0xF3,
    0xF4, 0xF5, 0xF7, 0xF8, 0xFF,
];

/// Second bytes at the ends of the table's ranges, and beside them.
const SECOND: [u8; 8] = [0x7F, 0x80, 0x8F, 0x90, 0x9F, 0xA0, 0xBF, 0xC0];

/// Third and fourth bytes; those that continue a character are twice as many.
const LATER: [u8; 6] = [0x7F, 0x80, 0x80, 0xBF, 0xBF, 0xC0];

/// The least and the greatest character of each width, and the ends of the gap
/// of the surrogates.
const ENDS: [char; 10] = [
    '\0',
    '\x7F',
    '\u{80}',
    '\u{7FF}',
    '\u{800}',
    '\u{D7FF}',
    '\u{E000}',
    '\u{FFFF}',
    '\u{10000}',
    '\u{10FFFF}',
];

/// The shares are fixed: of 20 questions 6 are from a walk through the whole
/// list, 5 have characters around a boundary, 3 a broken run of ASCII, 2 are
/// good texts, 3 damaged ones, and 1 is a broken line.
pub fn question(seed: u64, j: u64, random: &mut Random) -> Vec<u8> {
    let (round, turn) = (j / 20, j % 20);
    match turn {
        0..=5 => WHOLE.walk(seed, round * 6 + turn),
        6..=10 => line(&boundary(random)),
        11..=13 => line(&run(random)),
        14..=15 => line(&text(random)),
        16..=18 => line(&damaged(random)),
        _ => {
            let bytes = hex(&text(random));
            broken::broken(&["utf8", &bytes], &[Sort::Recording], random)
        }
    }
}

fn line(bytes: &[u8]) -> Vec<u8> {
    format!("utf8 {}", hex(bytes)).into_bytes()
}

/// One to four groups of bytes around a boundary, with ASCII between some of
/// them. The last one may be cut off anywhere.
fn boundary(random: &mut Random) -> Vec<u8> {
    let mut bytes = Vec::new();
    for _ in 0..random.one_of(&[1, 1, 1, 2, 3, 4]) {
        if random.once_in(4) {
            bytes.extend(ascii(random.below(9)));
        }
        bytes.extend(near(random));
    }
    bytes
}

/// A first byte with one to three bytes behind it, or none.
fn near(random: &mut Random) -> Vec<u8> {
    let first = random.one_of(&FIRST);
    let fitting = match first {
        0xC0..=0xDF => 2,
        0xE0..=0xEF => 3,
        0xF0..=0xFF => 4,
        _ => 1,
    };
    let width = match random.below(4) {
        0 => random.between(1, 4),
        _ => fitting,
    };
    let mut bytes = vec![first];
    if width > 1 {
        bytes.push(random.one_of(&SECOND));
    }
    for _ in 2..width {
        let byte = random.one_of(&LATER);
        bytes.push(byte);
    }
    bytes
}

/// Letters and digits in a row.
fn ascii(length: u64) -> impl Iterator<Item = u8> {
    (b'0'..=b'z').cycle().take(length as usize)
}

/// Up to 40 bytes of ASCII with something else in them, at any place.
fn run(random: &mut Random) -> Vec<u8> {
    let length = random.below(41);
    let mut bytes: Vec<u8> = ascii(length).collect();
    for _ in 0..random.one_of(&[0, 1, 1, 1, 1, 2]) {
        let place = random.below(bytes.len() as u64 + 1) as usize;
        let other = match random.below(4) {
            0 => vec![random.byte() | 0x80],
            1 => near(random),
            _ => character(random).to_string().into_bytes(),
        };
        bytes.splice(place..place, other);
    }
    bytes
}

/// Any character, of each width equally often.
fn character(random: &mut Random) -> char {
    if random.once_in(4) {
        return random.one_of(&ENDS);
    }
    let number = match random.below(4) {
        0 => random.below(0x80),
        1 => random.between(0x80, 0x7FF),
        2 => random.between(0x800, 0xFFFF),
        _ => random.between(0x10000, 0x10FFFF),
    };
    // The surrogates are no characters.
    char::from_u32(number as u32).unwrap_or('\u{20AC}')
}

/// A good text, mostly short, with some runs of ASCII.
pub fn text(random: &mut Random) -> Vec<u8> {
    let count = match random.below(100) {
        0 => random.between(300, 1_200),
        1..=20 => random.between(8, 60),
        _ => random.below(8),
    };
    let mut text = String::new();
    for _ in 0..count {
        if random.once_in(8) {
            text.extend(ascii(random.below(20)).map(char::from));
        } else {
            text.push(character(random));
        }
    }
    text.into_bytes()
}

/// A good text with zeros: one run of them or several, each with text before and behind
/// it or without.
pub fn zeroed(random: &mut Random) -> Vec<u8> {
    let mut bytes = Vec::new();
    if !random.once_in(4) {
        bytes.extend(text(random));
    }
    for _ in 0..random.one_of(&[1, 1, 1, 2, 3]) {
        let zeros = random.one_of(&[1, 1, 1, 1, 2, 3, 16]);
        bytes.resize(bytes.len() + zeros, 0);
        if random.once_in(2) {
            bytes.extend(text(random));
        }
    }
    bytes
}

/// A good text with one byte damaged.
pub fn damaged(random: &mut Random) -> Vec<u8> {
    let mut bytes = text(random);
    if bytes.is_empty() {
        return near(random);
    }
    let place = random.below(bytes.len() as u64) as usize;
    match random.below(6) {
        0 => bytes[place] ^= 1 << random.below(8),
        1 => bytes[place] = random.byte(),
        2 => bytes[place] = random.one_of(&FIRST),
        3 => drop(bytes.remove(place)),
        4 => bytes.insert(place, random.byte()),
        _ => bytes.truncate(place),
    }
    bytes
}

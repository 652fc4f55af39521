//! Questions about one header: every short recording, random ones around each
//! boundary, damaged copies of good ones, and broken lines.

use crate::broken::{self, Sort};
use crate::random::{hex, Random};

/// Ids that the crate knows, of every width.
const IDS: [u32; 14] = [
    0xAE,
    0xA0,
    0xEC,
    0xFB,
    0x4DBB,
    0x53AB,
    0x7373,
    0x67C8,
    0x2A_D7B1,
    0x22_B59C,
    0x1A45_DFA3,
    0x1853_8067,
    0x114D_9B74,
    0x1654_AE6B,
];

/// The shares are fixed: of 20 questions 8 are from the list of all short
/// recordings, 2 are recordings of 3 bytes, 6 stand around a boundary, 3 are
/// damaged and 1 is a broken line. 8 of 20 go through the whole list in
/// 200,000 questions.
pub fn question(seed: u64, j: u64, random: &mut Random) -> Vec<u8> {
    let (round, turn) = (j / 20, j % 20);
    match turn {
        0..=7 => {
            let offset = Random::new(&[seed]).below(SHORT);
            let place = (offset + round * 8 + turn) % SHORT;
            let (at, bytes) = short(place);
            line(&at.to_string(), &bytes)
        }
        8..=9 => {
            let bytes = random.bytes(3);
            line(&random.below(5).to_string(), &bytes)
        }
        10..=15 => boundary(random),
        16..=18 => damaged(random),
        _ => {
            let (at, bytes) = good(random);
            let words = ["header", &at.to_string(), &hex(&bytes)];
            broken::broken(&words, &[Sort::Number, Sort::Recording], random)
        }
    }
}

fn line(at: &str, bytes: &[u8]) -> Vec<u8> {
    format!("header {at} {}", hex(bytes)).into_bytes()
}

/// How many questions the list of short recordings has: none at 2 places, each
/// single byte at 3, each pair at the first place, and at the 3 places behind
/// that each second byte once, since the first one is passed over there.
const SHORT: u64 = 2 + 256 * 3 + 65_536 + 256 * 3;

/// The question at a place of that list.
fn short(place: u64) -> (u64, Vec<u8>) {
    let mut place = place;
    if place < 2 {
        return (place, Vec::new());
    }
    place -= 2;
    if place < 256 * 3 {
        return (place % 3, vec![(place / 3) as u8]);
    }
    place -= 256 * 3;
    if place < 65_536 {
        return (0, vec![(place >> 8) as u8, place as u8]);
    }
    place -= 65_536;
    let second = (place / 3) as u8;
    (1 + place % 3, vec![second ^ 0x5A, second])
}

/// A number of `width` bytes with its marker bit, filled in one of four ways.
/// Widths of 9 to 16 put the marker in the second byte.
pub fn marked(width: u64, random: &mut Random) -> Vec<u8> {
    let zeros = width - 1;
    let marker = 0x80u8 >> (zeros % 8);
    let mut bytes = vec![0; (zeros / 8) as usize];
    bytes.push(marker);
    let mut rest = vec![0; width.min(8) as usize - 1];
    let below = marker - 1;
    let last = bytes.len() - 1;
    match random.below(4) {
        0 => {}
        1 => {
            bytes[last] |= below;
            rest.fill(0xFF);
        }
        2 => match rest.last_mut() {
            Some(byte) => *byte = 1,
            None => bytes[last] |= below & 1,
        },
        _ => {
            bytes[last] |= below & random.byte();
            rest = random.bytes(rest.len() as u64);
        }
    }
    bytes.extend(rest);
    bytes
}

/// A header around a boundary: any width of id and size, valid or one too
/// wide, with runs of zero bytes, cut off, and asked at any place.
fn boundary(random: &mut Random) -> Vec<u8> {
    let before = random.one_of(&[0, 0, 0, 1, 2, 7]);
    let mut bytes = random.bytes(before);
    match random.below(12) {
        0 => bytes.extend(vec![0xFF; random.between(1, 14) as usize]),
        1 => bytes.extend(vec![0; random.between(1, 14) as usize]),
        _ => {
            if random.once_in(10) {
                zeros(&mut bytes, random);
            }
            // Once in a while the recording ends in the run of zeros.
            if !random.once_in(20) {
                let width = random.one_of(&[1, 2, 3, 4, 1, 2, 3, 4, 5, 6, 7, 8, 9, 16]);
                bytes.extend(marked(width, random));
            }
            if random.once_in(10) {
                zeros(&mut bytes, random);
            }
            if !random.once_in(20) {
                let width = random.one_of(&[1, 2, 3, 4, 5, 6, 7, 8, 1, 2, 3, 4, 5, 6, 7, 8, 9, 16]);
                bytes.extend(marked(width, random));
            }
            let after = random.one_of(&[0, 0, 1, 9]);
            bytes.extend(random.bytes(after));
        }
    }
    if random.once_in(2) {
        let kept = random.between(before, bytes.len() as u64);
        bytes.truncate(kept as usize);
    }
    let at = if random.once_in(4) {
        place(bytes.len() as u64, random)
    } else {
        before.to_string()
    };
    line(&at, &bytes)
}

/// A run of zero bytes, mostly short.
fn zeros(bytes: &mut Vec<u8>, random: &mut Random) {
    let count = match random.below(8) {
        0 => random.between(30, 300),
        1..=3 => random.between(3, 30),
        _ => random.between(1, 3),
    };
    bytes.extend(vec![0; count as usize]);
}

/// A place to ask at, in the recording, at its end, behind it, or too large.
pub fn place(length: u64, random: &mut Random) -> String {
    let place = match random.below(10) {
        0 => 0,
        1 => length / 2,
        2 => length.saturating_sub(1),
        3 => length,
        4 => length + 1,
        5 => 1 << 32,
        6 => 1 << 63,
        7 => u64::MAX,
        8 => return (u128::from(u64::MAX) + 1).to_string(),
        _ => random.below(length + 1),
    };
    place.to_string()
}

/// One to four good headers in a row, some with a payload, and the address of
/// one of them.
fn good(random: &mut Random) -> (u64, Vec<u8>) {
    let mut bytes = Vec::new();
    let mut starts = Vec::new();
    for _ in 0..random.between(1, 4) {
        starts.push(bytes.len() as u64);
        if random.once_in(2) {
            let id = random.one_of(&IDS).to_be_bytes();
            bytes.extend(id.iter().skip_while(|byte| **byte == 0));
        } else {
            let width = random.between(1, 4);
            bytes.extend(marked(width, random));
        }
        if random.once_in(2) {
            let size = random.below(4);
            bytes.push(0x80 | size as u8);
            bytes.extend(random.bytes(size));
        } else {
            let width = random.between(1, 8);
            bytes.extend(marked(width, random));
        }
    }
    (random.one_of(&starts), bytes)
}

/// A good recording with one to three damages.
fn damaged(random: &mut Random) -> Vec<u8> {
    let (at, mut bytes) = good(random);
    for _ in 0..random.between(1, 3) {
        let length = bytes.len() as u64;
        if length == 0 {
            break;
        }
        let place = random.below(length) as usize;
        match random.below(4) {
            0 => bytes[place] ^= 1 << random.below(8),
            1 => drop(bytes.remove(place)),
            2 => bytes.insert(place, random.byte()),
            _ => bytes.truncate(place),
        }
    }
    line(&at.to_string(), &bytes)
}

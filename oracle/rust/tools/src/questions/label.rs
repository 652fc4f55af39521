//! Questions about the stage label and the track types.

use crate::broken::{self, Sort};
use crate::list::walked;
use crate::random::{hex, Random};
use crate::utf8;

/// The track types that have a name.
const NAMED: [u64; 7] = [1, 2, 3, 16, 17, 18, 32];

/// How many track types the whole list has.
pub const TYPES: u64 = 301 + 9 * NAMED.len() as u64 + 2;

/// The whole list of track types: 0 to 300, each that has a name with one bit more,
/// and the largest numbers.
pub fn type_at(place: u64) -> u64 {
    if place <= 300 {
        return place;
    }
    let place = place - 301;
    let bits = [8, 9, 15, 16, 24, 31, 32, 48, 63];
    let names = NAMED.len() as u64;
    if place < 9 * names {
        return NAMED[(place % names) as usize] | 1 << bits[(place / names) as usize];
    }
    u64::MAX - (place - 9 * names)
}

/// Of 20 questions 8 are from a walk through the whole list, 11 are others, and 1 is
/// a broken line.
pub fn track_type(seed: u64, j: u64, random: &mut Random) -> Vec<u8> {
    let (round, turn) = (j / 20, j % 20);
    let number = match random.below(8) {
        _ if turn < 8 => type_at(walked(TYPES, seed, round * 8 + turn)),
        0..=3 => random.one_of(&NAMED),
        4 => random.one_of(&NAMED) + 1,
        5 => random.one_of(&NAMED) - 1,
        6 => 1 << random.below(64),
        _ => random.number(),
    };
    let words = ["tracktype", &number.to_string()];
    if turn < 19 {
        return words.join(" ").into_bytes();
    }
    broken::broken(&words, &[Sort::Number], random)
}

/// The recordings, each with three labels, every range of the edges and an unset one.
pub const LABELS: u64 = RECORDINGS * 3 * (10 * 10 + 1);

/// The recordings: all of 0 to 3 bytes of a zero, a letter, and one that is in no text.
const RECORDINGS: u64 = 1 + 3 + 3 * 3 + 3 * 3 * 3;

const BYTES: [u8; 3] = [0x00, 0x41, 0xFF];

/// The labels: none, one without zeros, and one with some.
const OWN: [&str; 3] = ["-", "4C6162", "004C00"];

/// Addresses and lengths: small ones, and some around 2^64.
const EDGES: [u64; 10] = [
    0,
    1,
    2,
    3,
    4,
    1 << 32,
    u64::MAX - 3,
    u64::MAX - 2,
    u64::MAX - 1,
    u64::MAX,
];

/// The whole list of labels.
pub fn label_at(place: u64) -> Vec<u8> {
    let (bytes, place) = (recording_at(place % RECORDINGS), place / RECORDINGS);
    let (label, place) = (OWN[(place % 3) as usize], place / 3);
    let range = match place {
        0 => "unset".to_string(),
        _ => {
            let place = place as usize - 1;
            told((EDGES[place % 10], EDGES[place / 10]))
        }
    };
    format!("label {range} {label} {}", hex(&bytes)).into_bytes()
}

/// The recordings, the shortest first.
fn recording_at(mut place: u64) -> Vec<u8> {
    let mut bytes = Vec::new();
    let mut count = 1;
    while place >= count {
        place -= count;
        count *= 3;
        bytes.push(0);
    }
    for byte in &mut bytes {
        *byte = BYTES[(place % 3) as usize];
        place /= 3;
    }
    bytes
}

/// Of 20 questions 4 are from a walk through the whole list, 15 are others, and 1 is
/// a broken line.
pub fn label(seed: u64, j: u64, random: &mut Random) -> Vec<u8> {
    let (round, turn) = (j / 20, j % 20);
    if turn < 4 {
        return label_at(walked(LABELS, seed, round * 4 + turn));
    }
    let bytes = match random.below(8) {
        0 => Vec::new(),
        1 => {
            let count = random.below(12);
            random.bytes(count)
        }
        2 => utf8::damaged(random),
        3 => [utf8::zeroed(random), utf8::damaged(random)].concat(),
        4..=5 => utf8::zeroed(random),
        _ => utf8::text(random),
    };
    let label = match random.below(4) {
        0 => Vec::new(),
        1 => {
            let count = random.between(1, 8);
            random.bytes(count)
        }
        2 => utf8::zeroed(random),
        _ => utf8::text(random),
    };
    let range = match random.below(8) {
        0 => "unset".to_string(),
        1..=2 => told(around_zero(&bytes, random)),
        _ => told(range(bytes.len() as u64, random)),
    };
    let words = ["label", &range, &hex(&label), &hex(&bytes)];
    if turn < 19 {
        return words.join(" ").into_bytes();
    }
    use Sort::{Label, Range, Recording};
    broken::broken(&words, &[Range, Label, Recording], random)
}

fn told((address, length): (u64, u64)) -> String {
    format!("{address}+{length}")
}

/// A range around a zero of the recording: over it, up to it, or from it on. As any other
/// if there is none.
fn around_zero(bytes: &[u8], random: &mut Random) -> (u64, u64) {
    let length = bytes.len() as u64;
    let places: Vec<u64> = (0..length)
        .filter(|place| bytes[*place as usize] == 0)
        .collect();
    if places.is_empty() {
        return range(length, random);
    }
    let zero = random.one_of(&places);
    let before = random.below(zero + 1);
    let behind = random.between(zero + 1, length);
    let from = random.one_of(&[0, before, zero, zero + 1]);
    let to = random.one_of(&[zero, zero + 1, behind, length]);
    (from, to.saturating_sub(from))
}

/// A range: mostly in the recording, to its end or a byte over; else a sum around
/// 2^64, or anything.
fn range(length: u64, random: &mut Random) -> (u64, u64) {
    let around = random.below(4);
    match random.below(8) {
        0..=1 => {
            let address = random.below(length + 1);
            (address, random.below(length - address + 1))
        }
        2 => {
            let address = random.below(length + 1);
            (address, length - address)
        }
        3 => {
            let address = random.below(length + 1);
            (address, length - address + 1 + around / 3)
        }
        4 => (length + around, 0),
        // The sum is small only if it wraps.
        5 => {
            let address = u64::MAX - around;
            (address, random.below(length + 4))
        }
        6 => {
            let address = random.below(length + 2);
            (address, u64::MAX - around)
        }
        _ => {
            let edges = [1 << 32, (1 << 32) - 1, 1 << 63, u64::MAX];
            (random.one_of(&edges), random.one_of(&edges))
        }
    }
}

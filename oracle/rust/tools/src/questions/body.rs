//! Questions about one typed body: numbers, dates and texts of every kind at
//! their boundaries, places and sizes that do not fit, and broken lines.

use crate::broken::{self, Sort};
use crate::header::place;
use crate::kind::{any_id, parent};
use crate::random::{hex, Random};
use crate::utf8;
use tools::ids::{listed, BINARY, DATE, FLOAT, INT, LISTED, MASTER, SPECIAL, STRING, UINT, UTF8};

/// The words of a question, behind the name.
struct Asked {
    id: u32,
    parent: u32,
    at: String,
    size: u64,
    address: String,
    bytes: Vec<u8>,
}

/// The shares are fixed: of 20 questions 5 are about integers, 3 about floats,
/// 1 about a date, 4 about texts, 2 about bytes, 1 about a master, 3 about
/// anything, and 1 is a broken line.
pub fn question(_seed: u64, j: u64, random: &mut Random) -> Vec<u8> {
    let asked = match j % 20 {
        0..=4 => integer(random),
        5..=7 => float(random),
        8 => date(random),
        9..=12 => text(random),
        13..=14 => bytes(random),
        15 => master(random),
        _ => anything(random),
    };
    let words = [
        "body",
        &format!("{:X}", asked.id),
        &format!("{:X}", asked.parent),
        &asked.at,
        &asked.size.to_string(),
        &asked.address,
        &hex(&asked.bytes),
    ];
    if j % 20 < 19 {
        return words.join(" ").into_bytes();
    }
    use Sort::{Id, Number, Recording};
    broken::broken(&words, &[Id, Id, Number, Number, Number, Recording], random)
}

/// The address of a header, which need not be one: mostly before the place, else any number
/// around a boundary, and seldom one that is too large.
fn address(before: u64, length: u64, random: &mut Random) -> String {
    let address = match random.below(16) {
        0 => 0,
        1 => before,
        2..=6 => before.saturating_sub(random.between(1, 12)),
        7..=8 => before + random.between(1, 12),
        9 => length,
        10 => length + 1,
        11 => (1 << 32) - 1 + random.below(3),
        12 => (1 << 63) - 1 + random.below(3),
        13 => u64::MAX - random.below(2),
        14 if random.once_in(4) => return (u128::from(u64::MAX) + 1).to_string(),
        _ => random.number(),
    };
    address.to_string()
}

/// A payload somewhere in a recording. Once in four the place or the size is
/// another, once in eight the recording is cut off.
fn placed(id: u32, payload: &[u8], random: &mut Random) -> Asked {
    let before = random.one_of(&[0, 0, 0, 1, 2, 7]);
    let mut bytes = random.bytes(before);
    bytes.extend(payload);
    let after = random.one_of(&[0, 0, 1, 9]);
    bytes.extend(random.bytes(after));
    if random.once_in(8) {
        bytes.truncate(random.below(bytes.len() as u64 + 1) as usize);
    }
    let mut asked = Asked {
        id,
        parent: parent(random),
        at: before.to_string(),
        size: payload.len() as u64,
        address: address(before, bytes.len() as u64, random),
        bytes,
    };
    match random.below(8) {
        0 => asked.at = place(asked.bytes.len() as u64, random),
        1 => asked.size = size(asked.bytes.len() as u64, random),
        _ => {}
    }
    asked
}

/// A size: small, about what is there, around 2^29, 2^32 and 2^63, or larger.
pub fn size(length: u64, random: &mut Random) -> u64 {
    let around = random.below(3);
    match random.below(12) {
        0..=4 => random.below(17),
        5..=7 => length.saturating_sub(1) + around,
        8 => (1 << 29) - 1 + around,
        9 => (1 << 32) - around,
        // The allocator has to say no to these, which takes its time.
        10 if random.once_in(4) => random.one_of(&[(1 << 32) + 1, 1 << 40, (1 << 63) - 1]),
        10 => (1 << 63) + around,
        _ => u64::MAX - around,
    }
}

/// An integer of 0 to 9 bytes: any, or one whose bits are alike but for the
/// first or the last ones.
fn integer(random: &mut Random) -> Asked {
    let id = if random.once_in(2) {
        random.one_of(&INT)
    } else {
        random.one_of(&UINT)
    };
    let width = random.one_of(&[0, 1, 1, 2, 2, 3, 4, 5, 6, 7, 8, 8, 9]);
    let payload = number(width, random);
    placed(id, &payload, random)
}

/// A number of some bytes, mostly at a boundary of its sign.
fn number(width: u64, random: &mut Random) -> Vec<u8> {
    if random.once_in(3) {
        return random.bytes(width);
    }
    let mut bytes = vec![random.one_of(&[0, 0xFF]); width as usize];
    let (first, last) = (random.one_of(&[0, 0, 0x80, 1]), random.one_of(&[0, 0, 1]));
    if let Some(byte) = bytes.first_mut() {
        *byte ^= first;
    }
    if let Some(byte) = bytes.last_mut() {
        *byte ^= last;
    }
    bytes
}

/// A float of 4 or 8 bytes of every class, sometimes of another size.
fn float(random: &mut Random) -> Asked {
    let payload = match random.below(8) {
        0 => {
            let width = random.below(17);
            random.bytes(width)
        }
        1..=4 => (pattern(8, 23, random) as u32).to_be_bytes().to_vec(),
        _ => pattern(11, 52, random).to_be_bytes().to_vec(),
    };
    let id = random.one_of(&FLOAT);
    placed(id, &payload, random)
}

/// The bits of a float whose exponent and fraction have so many bits. Zeros,
/// subnormals, infinities and NaNs come often.
fn pattern(exponent: u32, fraction: u32, random: &mut Random) -> u64 {
    let (ones, least) = ((1 << exponent) - 1, (1 << fraction) - 1);
    let power = match random.below(8) {
        0..=1 => 0,
        2..=3 => ones,
        4 => random.one_of(&[1, ones / 2, ones - 1]),
        _ => random.number() & ones,
    };
    let quiet = 1 << (fraction - 1);
    let rest = match random.below(8) {
        0..=1 => 0,
        2 => 1,
        3 => least,
        4 => quiet,
        5 => quiet | 1,
        6 => 1 << random.below(u64::from(fraction)),
        _ => random.number() & least,
    };
    random.below(2) << (exponent + fraction) | power << fraction | rest
}

/// A date, sometimes of another size than 8.
fn date(random: &mut Random) -> Asked {
    let width = if random.once_in(4) {
        random.below(17)
    } else {
        8
    };
    let payload = number(width, random);
    placed(DATE[0], &payload, random)
}

/// A text of either kind, good or damaged, once in four cut by its size.
fn text(random: &mut Random) -> Asked {
    let id = if random.once_in(2) {
        random.one_of(&STRING)
    } else {
        random.one_of(&UTF8)
    };
    let payload = if random.once_in(3) {
        utf8::damaged(random)
    } else {
        utf8::text(random)
    };
    let mut asked = placed(id, &payload, random);
    if random.once_in(4) {
        asked.size = asked.size.saturating_sub(random.between(1, 3));
    }
    asked
}

/// A body that is bytes: a listed id, any id, or a master that is none there.
fn bytes(random: &mut Random) -> Asked {
    let id = match random.below(3) {
        0 => random.one_of(&BINARY),
        1 => random.one_of(&MASTER),
        _ => any_id(random),
    };
    let count = random.below(12);
    let payload = random.bytes(count);
    let mut asked = placed(id, &payload, random);
    if random.once_in(2) {
        asked.parent = random.one_of(&SPECIAL);
    }
    asked
}

/// A master, under any parent.
fn master(random: &mut Random) -> Asked {
    let count = random.below(12);
    let payload = random.bytes(count);
    let id = random.one_of(&MASTER);
    placed(id, &payload, random)
}

/// Any id, place and size over any bytes.
fn anything(random: &mut Random) -> Asked {
    let count = random.below(21);
    let bytes = random.bytes(count);
    Asked {
        id: match random.below(4) {
            0 => any_id(random),
            _ => listed(random.below(LISTED)),
        },
        parent: parent(random),
        at: place(count, random),
        size: size(count, random),
        address: address(count / 2, count, random),
        bytes,
    }
}

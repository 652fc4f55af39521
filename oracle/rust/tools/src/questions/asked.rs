//! Recordings and how they are to be read: good trees of every shape, damaged
//! ones, odd arguments, odd headers, and anything.

use crate::body::size;
use crate::header::{marked, place};
use crate::kind::parent;
use crate::random::Random;
use crate::tree::{chain, forest, id_bytes, row_of, size_bytes, written, Body, Node, Spot};
use question::{numbers_of, MOST_ASKED, MOST_NUMBERS, MOST_ROWS};
use tools::ids::{listed, masters, DATE, FLOAT, INT, LISTED, MASTER, UINT};

/// A recording and how it is to be read.
pub struct Asked {
    pub start: u64,
    pub size: u64,
    pub parent: u32,
    pub numbers: u64,
    pub bytes: Vec<u8>,
    /// Where the elements of its tree stood before any damage.
    pub spots: Vec<Spot>,
}

/// A recording that is asked for from end to end, with a table that fits.
pub fn whole(bytes: Vec<u8>, spots: Vec<Spot>, parent: u32) -> Asked {
    Asked {
        start: 0,
        size: bytes.len() as u64,
        parent,
        numbers: numbers_of(spots.len() as u64),
        bytes,
        spots,
    }
}

/// A good tree somewhere in a recording, and a table for it.
pub fn good(random: &mut Random) -> Asked {
    let parent = parent(random);
    let nodes = match random.below(20) {
        0..=8 => {
            let levels = random.between(1, 5);
            forest(parent, levels, random)
        }
        9..=15 => {
            let (depth, beside) = (depth(random), random.once_in(2));
            chain(parent, depth, beside, random)
        }
        16..=17 => {
            let count = count(random);
            row_of(count, parent, random)
        }
        _ => {
            let (count, id) = (count(random), random.one_of(masters(parent)));
            vec![Node::new(id, Body::Master(row_of(count, id, random)))]
        }
    };
    planted(&nodes, parent, random)
}

/// The depth of a chain's last row: mostly around the deepest one.
fn depth(random: &mut Random) -> u64 {
    if random.once_in(500) {
        return random.one_of(&[300, 3_000]);
    }
    random.one_of(&[5, 8, 12, 13, 14, 14, 15, 15, 15, 15, 15, 16, 16, 17, 18, 40])
}

/// How many elements stand in a row: mostly few, seldom as many as a table has.
fn count(random: &mut Random) -> u64 {
    match random.below(500) {
        0 => random.between(MOST_ROWS - 2, MOST_ROWS + 1),
        1..=4 => random.between(200, 1_500),
        _ => random.below(40),
    }
}

/// Elements in a recording, with something before and behind them.
pub fn planted(nodes: &[Node], parent: u32, random: &mut Random) -> Asked {
    let before = random.one_of(&[0, 0, 0, 1, 2, 7]);
    let mut bytes = random.bytes(before);
    let (tree, spots) = written(nodes);
    let size = tree.len() as u64;
    bytes.extend(tree);
    let after = random.one_of(&[0, 0, 1, 9]);
    bytes.extend(random.bytes(after));
    Asked {
        start: before,
        size,
        parent,
        numbers: numbers(spots.len() as u64, random),
        bytes,
        spots: spots.iter().map(|spot| spot.moved(before)).collect(),
    }
}

/// The length of a table for so many rows: full, with room, too short, broken.
pub fn numbers(rows: u64, random: &mut Random) -> u64 {
    let (most, row) = (MOST_NUMBERS, numbers_of(1));
    let numbers = match random.below(20) {
        0..=7 => numbers_of(rows),
        8 => numbers_of(rows.saturating_sub(1)),
        // Full where the first row is too deep, in a tree that is a chain.
        9 if rows > 16 => numbers_of(16),
        9 => numbers_of(random.below(rows + 1)),
        10..=15 => numbers_of(rows + random.between(1, 9)),
        16..=17 => most,
        // As if a row had one number less.
        18 if random.once_in(4) => (row - 1) * rows.max(1),
        18 => numbers_of(rows) + random.between(1, row - 1),
        _ => {
            let around = [most - row, most - 1, most + 1, most + row];
            let asked = [MOST_ASKED - row, MOST_ASKED - 1, MOST_ASKED];
            random.one_of(&[&around[..], &asked[..]].concat())
        }
    };
    numbers.min(MOST_ASKED)
}

/// A good tree with one to three damages.
pub fn damaged(random: &mut Random) -> Asked {
    let mut asked = good(random);
    for _ in 0..random.one_of(&[1, 1, 1, 2, 3]) {
        damage(&mut asked, random);
    }
    asked
}

/// One damage, mostly to a header.
pub fn damage(asked: &mut Asked, random: &mut Random) {
    let length = asked.bytes.len() as u64;
    let Some(last) = asked.spots.last().filter(|_| length > 0) else {
        return;
    };
    let spot = if random.once_in(3) {
        *last
    } else {
        random.one_of(&asked.spots)
    };
    let (header, any) = (spot.address as usize, random.below(length) as usize);
    let width = id_bytes(spot.id).len();
    let size = header + width..header + spot.header as usize;
    let bytes = &mut asked.bytes;
    // After another damage the tree may be shorter than it was.
    if size.end > bytes.len() {
        return bytes.truncate(any);
    }
    let zeros = vec![0; random.between(1, 3) as usize];
    match random.below(18) {
        // A size that is a little larger or smaller.
        0..=2 => bytes[size.end - 1] = bytes[size.end - 1].wrapping_add(1),
        3..=4 => bytes[size.end - 1] = bytes[size.end - 1].wrapping_sub(1),
        // A size of all ones, of none but its marker, or of more than 32 bits.
        5 => drop(bytes.splice(size.clone(), size_of_ones(size.len() as u64))),
        6 => drop(bytes.splice(size.clone(), size_bytes(0, size.len() as u64))),
        7 => {
            let more = 1 << random.between(32, 55);
            bytes.splice(size, size_bytes(spot.payload + more, 1));
        }
        // Another id, of any kind and length.
        8..=9 => {
            let id = listed(random.below(LISTED));
            bytes.splice(header..header + width, id_bytes(id));
        }
        10 => bytes.truncate(any),
        11 => bytes.truncate(size.start),
        12 => drop(bytes.splice(header.., zeros)),
        13 => drop(bytes.splice(header..header, zeros)),
        14 => bytes[any] ^= 1 << random.below(8),
        15 => bytes[any] = random.one_of(&[0, 1, 0x40, 0x7F, 0x80, 0x81, 0xFF]),
        16 => drop(bytes.remove(any)),
        _ => bytes.insert(any, random.byte()),
    }
}

/// A size of so many bytes whose bits are all ones.
fn size_of_ones(width: u64) -> Vec<u8> {
    size_bytes((1 << (7 * width)) - 1, width)
}

/// A good tree, asked for with another start, size or parent: the payload of one
/// of its masters, one element, a few more bytes or less, or anything.
pub fn elsewhere(random: &mut Random) -> Asked {
    let mut asked = good(random);
    let end = asked.start + asked.size;
    let length = asked.bytes.len() as u64;
    let around = random.below(3);
    let spot = match asked.spots.len() {
        0 => None,
        _ => Some(random.one_of(&asked.spots)),
    };
    match (random.below(12), spot) {
        (0..=3, Some(spot)) => {
            asked.parent = spot.id;
            asked.start = spot.body();
            asked.size = spot.payload;
        }
        (4, Some(spot)) => {
            asked.start = spot.address;
            asked.size = spot.end() - spot.address;
        }
        (5, Some(spot)) => asked.size = spot.end() - asked.start,
        (6, Some(spot)) => {
            asked.start = spot.address;
            asked.size = end - spot.address;
        }
        (7, _) => asked.size = (asked.size + around).saturating_sub(1),
        (8, _) => asked.size = size(length, random),
        (9, _) => asked.start = (length + around).saturating_sub(1),
        (10, _) => asked.start = place(length, random).parse().unwrap_or(1 << 31),
        _ => asked.parent = parent(random),
    }
    asked
}

/// Ids that no header has, or that the recording ends in.
const NO_IDS: [&[u8]; 8] = [
    b"\x0F",
    b"\x08\0\0\0\0",
    b"\0",
    b"\0\0",
    b"\0\x01",
    b"\0\0\0\x80",
    b"\x10\0",
    b"\x40",
];

/// An element with an odd header in a few masters: an id or a size of any width
/// and pattern, with some bytes behind it.
pub fn odd(random: &mut Random) -> Asked {
    let id = match random.below(8) {
        0 => random.one_of(&NO_IDS).to_vec(),
        1 => {
            let width = random.between(1, 4);
            marked(width, random)
        }
        2..=3 => id_bytes(random.one_of(&MASTER)),
        4 => id_bytes(random.one_of(&INT)),
        5 => id_bytes(random.one_of(&UINT)),
        6 => id_bytes(random.one_of(&FLOAT)),
        _ => id_bytes(DATE[0]),
    };
    let width = random.one_of(&[1, 2, 3, 4, 5, 6, 7, 8, 1, 2, 3, 4, 5, 6, 7, 8, 9, 16]);
    let behind = random.one_of(&[0, 1, 4, 8, 9, 20]);
    let size = marked(width, random);
    let raw = [id, size, random.bytes(behind)].concat();
    let parent = parent(random);
    let mut nodes = forest(parent, 1, random);
    let mut id = random.one_of(masters(parent));
    let mut ids = vec![id];
    for _ in 0..random.one_of(&[0, 0, 1, 2, 13, 14, 15]) {
        id = random.one_of(masters(id));
        ids.push(id);
    }
    let mut body = Body::Leaf(raw);
    for id in ids.iter().rev() {
        body = Body::Master(vec![Node::new(*id, body)]);
    }
    if let Body::Master(odd) = body {
        nodes.extend(odd);
    }
    let mut asked = planted(&nodes, parent, random);
    // Mostly there is a row for the odd header.
    if !random.once_in(4) {
        asked.numbers = (asked.numbers + numbers_of(1)).min(MOST_ASKED);
    }
    asked
}

/// Any bytes and arguments.
pub fn anything(random: &mut Random) -> Asked {
    let length = random.below(21);
    let numbers = match random.below(4) {
        0 => random.below(MOST_ASKED + 1),
        _ => numbers_of(random.below(12)),
    };
    let start = match random.below(4) {
        0 => place(length, random).parse().unwrap_or(0),
        _ => random.below(4),
    };
    Asked {
        start,
        size: size(length, random),
        parent: parent(random),
        numbers,
        bytes: random.bytes(length),
        spots: Vec::new(),
    }
}

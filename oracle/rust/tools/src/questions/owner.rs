//! Questions about whose byte an address is, without a table: a whole list of small payloads
//! with every address, the trees of the full question, damages on the way to the address and
//! off it, chains of masters down to the bound, whole recordings, and broken lines.

use crate::asked::{anything, damage, damaged, elsewhere, good, odd, planted, whole, Asked};
use crate::broken::{self, Sort};
use crate::kind::parent;
use crate::list::List;
use crate::random::{hex, Random};
use crate::segment::{element, leaf, pieces, recorded, seek, segment, Piece, Size, ORIGIN};
use crate::tree::{chain, forest, id_bytes, row_of, size_bytes, written, Body, Node, Spot};
use crate::whose::address;
use question::{numbers_of, MOST_ROWS};
use tools::ids::{listed, LISTED, PARENTS, SEEK_HEAD};

/// The shares are fixed: of 20 questions 2 are from a walk through the list of owners, 3 are
/// about good trees, 2 about damaged ones, 4 about trees that are damaged at one side of the
/// address, 3 about chains of masters, 2 about whole recordings, 1 is about a huge element, 1
/// has odd arguments, 1 is about an odd header, many elements, anything or nothing, and 1 is a
/// broken line.
pub fn question(seed: u64, j: u64, random: &mut Random) -> Vec<u8> {
    let (round, turn) = (j / 20, j % 20);
    let (mut asked, known) = match turn {
        0..=1 => return OWNERS.walk(seed, round * 2 + turn),
        5..=6 => (damaged(random), None),
        7..=10 => beside(random),
        11..=13 => deep(random),
        14..=15 => (recording(random), None),
        16 => far(random),
        17 => (elsewhere(random), None),
        18 => other(random),
        _ => (good(random), None),
    };
    // A payload that reaches past 2^64.
    if random.once_in(32) {
        asked.size = u64::MAX - random.below(3);
    }
    let address = known.unwrap_or_else(|| address(&asked, random));
    let words = words(&asked, address);
    if turn < 19 {
        return words.join(" ").into_bytes();
    }
    use Sort::{Id, Number, Recording};
    let words: Vec<&str> = words.iter().map(String::as_str).collect();
    broken::broken(&words, &[Number, Number, Id, Number, Recording], random)
}

fn words(asked: &Asked, address: u64) -> [String; 6] {
    [
        "owner".to_string(),
        asked.start.to_string(),
        asked.size.to_string(),
        format!("{:X}", asked.parent),
        address.to_string(),
        hex(&asked.bytes),
    ]
}

fn line(asked: &Asked, address: u64) -> Vec<u8> {
    words(asked, address).join(" ").into_bytes()
}

/// A good tree and an address in it; then a damage to an element that holds the address, or
/// that stands before it or behind it.
fn beside(random: &mut Random) -> (Asked, Option<u64>) {
    let mut asked = good(random);
    if asked.spots.is_empty() {
        return (asked, None);
    }
    let address = address(&asked, random);
    let side = random.below(3);
    let fits = |spot: &&Spot| match side {
        0 => (spot.address..spot.end()).contains(&address),
        1 => spot.end() <= address,
        _ => spot.address > address,
    };
    let spots: Vec<Spot> = asked.spots.iter().filter(fits).copied().collect();
    if spots.is_empty() {
        return (asked, Some(address));
    }
    let spot = random.one_of(&spots);
    match random.below(4) {
        // The body is no text, and in a master no element that fits.
        0 => {
            let body = spot.body() as usize..spot.end() as usize;
            asked.bytes[body].fill(0xFF);
        }
        // The recording ends in the element.
        1 => {
            let kept = random.between(spot.address, spot.end());
            asked.bytes.truncate(kept as usize);
        }
        _ => {
            asked.spots = vec![spot];
            damage(&mut asked, random);
        }
    }
    (asked, Some(address))
}

/// Masters in each other down to a depth around the bound, and an address in the last ones.
/// One element may claim a byte more or less than it has, or have no id.
fn deep(random: &mut Random) -> (Asked, Option<u64>) {
    let (parent, depth) = (parent(random), random.between(14, 17));
    let beside = random.once_in(2);
    let nodes = chain(parent, depth, beside, random);
    let mut asked = planted(&nodes, parent, random);
    let last = asked.spots.len() - 3;
    let spot = random.one_of(&asked.spots[last..]);
    let ends = [spot.address, spot.body(), spot.end()];
    let address = random.one_of(&ends).saturating_sub(random.below(2));
    let wrong = match random.below(3) {
        0 => random.one_of(&asked.spots),
        _ => random.one_of(&asked.spots[last..]),
    };
    let (id, size) = (wrong.address as usize, wrong.body() as usize - 1);
    match random.below(6) {
        0..=1 => asked.bytes[size] = asked.bytes[size].wrapping_add(1),
        2 => asked.bytes[size] = asked.bytes[size].wrapping_sub(1),
        3 => asked.bytes[id] = random.one_of(&[0x00, 0x0F]),
        _ => {}
    }
    (asked, Some(address))
}

/// A payload without end, whose last element claims many bytes, and an address around the end
/// of these.
fn far(random: &mut Random) -> (Asked, Option<u64>) {
    let parent = parent(random);
    let mut asked = planted(&forest(parent, 1, random), parent, random);
    asked.bytes.truncate((asked.start + asked.size) as usize);
    let size = (1 << random.between(29, 55)) + random.below(9);
    let id = random.one_of(&[0xEC, 0x86, 0xAE, 0x1F43B675]);
    asked
        .bytes
        .extend([id_bytes(id), size_bytes(size, 8)].concat());
    let end = asked.bytes.len() as u64 + size;
    let behind = random.below(4);
    asked.bytes.extend(random.bytes(behind));
    asked.size = u64::MAX - random.below(20);
    let address = random.one_of(&[end - 1, end, end + 1, u64::MAX - 9]);
    (asked, Some(address))
}

/// A recording from its first byte on, as a viewer asks: an EBML header and a segment, whose
/// size may be all ones or a little wrong. It may be cut off.
fn recording(random: &mut Random) -> Asked {
    let count = random.between(1, 6);
    let children = (0..count).map(|_| child(random)).collect();
    let size = match random.below(6) {
        0..=1 => Size::Ones(random.one_of(&[1, 8])),
        2 => Size::Off(random.one_of(&[-1, 1])),
        _ => Size::Fits(random.one_of(&[1, 8])),
    };
    let front = element(0x1A45DFA3, vec![leaf(0x4282, b"matroska")]);
    let (mut bytes, spots) = recorded(&[front, segment(size, children)]);
    if random.once_in(4) {
        let kept = random.below(bytes.len() as u64);
        bytes.truncate(kept as usize);
    }
    let length = bytes.len() as u64;
    Asked {
        size: random.one_of(&[u64::MAX, u64::MAX, length, length + 1]),
        ..whole(bytes, spots, 0)
    }
}

/// A child of the segment: a seek head, Info, Tracks, a Cluster, Chapters, Tags or a Void.
fn child(random: &mut Random) -> Piece {
    let id = random.one_of(&[
        SEEK_HEAD, 0x1549A966, 0x1654AE6B, 0x1F43B675, 0x1F43B675, 0x1043A770, 0x1254C367, 0xEC,
    ]);
    let block = random.below(30);
    let block = leaf(0xA3, &random.bytes(block));
    match id {
        SEEK_HEAD => element(id, vec![seek(0x1654AE6B, ORIGIN, 2)]),
        0xEC => leaf(id, &[0; 9]),
        0x1F43B675 => element(id, vec![leaf(0xE7, &[0]), block.clone(), block]),
        _ => element(id, pieces(&forest(id, 3, random))),
    }
}

/// An odd header, any bytes, none, or about as many elements as a table has rows before the
/// address.
fn other(random: &mut Random) -> (Asked, Option<u64>) {
    let asked = match random.below(16) {
        0..=7 => odd(random),
        8..=11 => anything(random),
        12..=14 => Asked {
            start: random.below(2),
            size: random.one_of(&[0, 1, 2, u64::MAX]),
            ..whole(Vec::new(), Vec::new(), parent(random))
        },
        _ => {
            let parent = parent(random);
            let count = random.between(MOST_ROWS - 1, MOST_ROWS + 2);
            let asked = planted(&row_of(count, parent, random), parent, random);
            let last = asked.spots[count as usize - 1].address;
            return (asked, Some(last));
        }
    };
    (asked, None)
}

/// Small payloads with every address, chains of which one element claims more or less than it
/// has, each listed id under each parent, and trees cut off at every byte.
const OWNERS: List = List {
    length: SMALL + CHAINS + KINDS + CUTS,
    at: |place| {
        if place < SMALL {
            small(place)
        } else if place < SMALL + CHAINS {
            chained(place - SMALL)
        } else if place < SMALL + CHAINS + KINDS {
            listed_id(place - SMALL - CHAINS)
        } else {
            cut(place - SMALL - CHAINS - KINDS)
        }
    },
};

/// The same, and each small payload read: so the crate tells the rows that the judge holds the
/// owners of its addresses to.
pub const WHOLE: List = List {
    length: OWNERS.length + payloads(LONGEST),
    at: |place| match place.checked_sub(OWNERS.length) {
        None => (OWNERS.at)(place),
        Some(place) => {
            let bytes = small_payload(place);
            let (size, numbers) = (bytes.len(), numbers_of(bytes.len() as u64));
            format!("read 0 {size} 0 {numbers} {}", hex(&bytes)).into_bytes()
        }
    },
};

/// The bytes of small payloads. As an id they are a master, a text, an unsigned integer, bytes
/// of three ids, and none; as a size 0, 5, 3, 1, 2, 127, and none.
const BYTES: [u8; 7] = [0x80, 0x85, 0x83, 0x81, 0x82, 0xFF, 0x00];

/// So many bytes a small payload has at the most.
const LONGEST: u32 = 5;

/// How many payloads have up to so many bytes.
const fn payloads(longest: u32) -> u64 {
    let shorter = if longest == 0 {
        0
    } else {
        payloads(longest - 1)
    };
    shorter + (BYTES.len() as u64).pow(longest)
}

/// The small payload of a number, the shortest first.
fn small_payload(number: u64) -> Vec<u8> {
    let length = (0..LONGEST)
        .take_while(|length| payloads(*length) <= number)
        .count() as u32;
    let mut number = number - length.checked_sub(1).map_or(0, payloads);
    let mut bytes = Vec::new();
    for _ in 0..length {
        bytes.push(BYTES[(number % BYTES.len() as u64) as usize]);
        number /= BYTES.len() as u64;
    }
    bytes
}

/// How many addresses are asked for in each small payload: those of the longest one, and once
/// more with two behind them.
const ADDRESSES: u64 = 2 * LONGEST as u64 + 2;

const SMALL: u64 = payloads(LONGEST) * ADDRESSES;

/// Every small payload with every address, as it is and as the front of a payload without end.
fn small(place: u64) -> Vec<u8> {
    let (turn, number) = (place % ADDRESSES, place / ADDRESSES);
    let asked = whole(small_payload(number), Vec::new(), 0);
    match turn.checked_sub(LONGEST.into()) {
        None => line(&asked, turn),
        Some(address) => {
            let size = u64::MAX;
            line(&Asked { size, ..asked }, address)
        }
    }
}

/// Chains of 1 to 18 elements, and a level of each.
const LEVELS: u64 = 18 * 19 / 2;

/// What one element of a chain claims more than it has.
const MORE: [i8; 3] = [-1, 1, 2];

/// The chains with such an element, and those without.
const CLAIMS: u64 = LEVELS * MORE.len() as u64 + 18;

/// A chain has so many bytes at the most, with the one behind it.
const CHAIN: u64 = 17 * 2 + 3 + 1;

const CHAINS: u64 = CLAIMS * CHAIN;

/// Masters in each other with a leaf at the bottom, and an address.
fn chained(place: u64) -> Vec<u8> {
    let (address, claim) = (place % CHAIN, place / CHAIN);
    let (mut level, more) = (claim % LEVELS, MORE.get((claim / LEVELS) as usize));
    let mut depth = level;
    if more.is_some() {
        depth = 0;
        while level > depth {
            depth += 1;
            level -= depth;
        }
    }
    let mut node = Node::new(0xEC, Body::Leaf(vec![7]));
    for _ in 0..depth {
        node = Node::new(0xA0, Body::Master(vec![node]));
    }
    let (mut bytes, spots) = written(&[node]);
    if let Some(more) = more {
        // All sizes are small: the last byte of a header is its size.
        let size = spots[level as usize].body() as usize - 1;
        bytes[size] = bytes[size].wrapping_add_signed(*more);
    }
    bytes.push(0x0F);
    line(&whole(bytes, spots, 0), address)
}

const KINDS: u64 = LISTED * PARENTS.len() as u64 * 2;

/// An element of a listed id under a parent, with another one in it, whose header or own byte
/// is asked for: the id is a master there, or it is none.
fn listed_id(place: u64) -> Vec<u8> {
    let (pair, turn) = (place / 2, place % 2);
    let parent = PARENTS[(pair % PARENTS.len() as u64) as usize];
    let id = listed(pair / PARENTS.len() as u64);
    let within = Node::new(0xE0, Body::Leaf(vec![0xEC, 0x80]));
    let (bytes, spots) = written(&[Node::new(id, Body::Master(vec![within]))]);
    let address = spots[0].body() + 2 * turn;
    line(&whole(bytes, spots, parent), address)
}

/// Every tree of the list of cuts has fewer bytes.
const CUT_AT: u64 = 32;

const CUTS: u64 = 16 * CUT_AT * CUT_AT;

/// A small tree, cut off at a byte, and an address.
fn cut(place: u64) -> Vec<u8> {
    let (address, place) = (place % CUT_AT, place / CUT_AT);
    let mut random = Random::new(&[place / CUT_AT]);
    loop {
        let parent = random.one_of(&PARENTS);
        let (bytes, spots) = written(&forest(parent, 3, &mut random));
        if bytes.len() as u64 > CUT_AT / 2 && (bytes.len() as u64) < CUT_AT {
            let mut asked = whole(bytes, spots, parent);
            asked.bytes.truncate((place % CUT_AT) as usize);
            return line(&asked, address);
        }
    }
}

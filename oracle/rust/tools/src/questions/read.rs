//! Questions about the element table: a whole list of small payloads, trees good
//! and damaged, odd arguments and headers, and broken lines.

use crate::asked::{anything, damaged, elsewhere, good, odd, whole, Asked};
use crate::broken::{self, Sort};
use crate::list::List;
use crate::random::{hex, Random};
use crate::tree::{bad_body, forest, good_body, leaf, written, Body, Node};
use question::numbers_of;
use tools::ids::{kind, listed, LISTED, MASTER_KIND, PARENTS};

/// The shares are fixed: of 20 questions 3 are from a walk through the whole
/// list, 6 are about good trees, 5 about damaged ones, 2 have odd arguments, 2 an
/// odd header, 1 is about anything, and 1 is a broken line.
pub fn question(seed: u64, j: u64, random: &mut Random) -> Vec<u8> {
    let (round, turn) = (j / 20, j % 20);
    match turn {
        0..=2 => WHOLE.walk(seed, round * 3 + turn),
        3..=8 => line(&good(random)),
        9..=13 => line(&damaged(random)),
        14..=15 => line(&elsewhere(random)),
        16..=17 => line(&odd(random)),
        18 => line(&anything(random)),
        _ => {
            use Sort::{Count, Id, Number, Recording};
            let words = words(&good(random));
            let words: Vec<&str> = words.iter().map(String::as_str).collect();
            broken::broken(&words, &[Number, Number, Id, Count, Recording], random)
        }
    }
}

fn line(asked: &Asked) -> Vec<u8> {
    words(asked).join(" ").into_bytes()
}

fn words(asked: &Asked) -> [String; 6] {
    [
        "read".to_string(),
        asked.start.to_string(),
        asked.size.to_string(),
        format!("{:X}", asked.parent),
        asked.numbers.to_string(),
        hex(&asked.bytes),
    ]
}

/// Each listed id under each parent with four bodies, each overrun, and trees cut
/// off at every byte.
pub const WHOLE: List = List {
    length: SINGLES + OVERRUNS + CUTS,
    at: |place| {
        if place < SINGLES {
            line(&single(place))
        } else if place < SINGLES + OVERRUNS {
            line(&overrun(place - SINGLES))
        } else {
            line(&cut(place - SINGLES - OVERRUNS))
        }
    },
};

const SINGLES: u64 = LISTED * PARENTS.len() as u64 * 4;

/// One element of a listed id: a good body twice, a bad one, none.
fn single(place: u64) -> Asked {
    let mut random = Random::new(&[place]);
    let (pair, variant) = (place / 4, place % 4);
    let parent = PARENTS[(pair % PARENTS.len() as u64) as usize];
    let id = listed(pair / PARENTS.len() as u64);
    let kind = kind(id, parent);
    let body = match variant {
        0..=1 if kind == MASTER_KIND => Body::Master(vec![leaf(id, &mut random)]),
        0..=1 => Body::Leaf(good_body(kind, &mut random)),
        2 => Body::Leaf(bad_body(kind, &mut random)),
        _ => Body::Leaf(Vec::new()),
    };
    let (bytes, spots) = written(&[Node::new(id, body)]);
    whole(bytes, spots, parent)
}

/// The leaf at the bottom of an overrun.
const BOTTOMS: [(u32, &[u8]); 3] = [(0x45A3, b"A"), (0x83, &[7; 8]), (0xEC, &[])];

/// Chains of 1 to 17 masters or leaves, and a level of each.
const LEVELS: u64 = 17 * 18 / 2;

const OVERRUNS: u64 = LEVELS * 3 * (BEHIND.len() * BOTTOMS.len()) as u64;

/// What may stand behind an overrun: nothing, a letter, an element, and both.
const BEHIND: [&[u8]; 4] = [b"", b"B", b"\xEC\x80", b"B\xEC\x80"];

/// Masters in each other, of which one element claims one to three bytes more
/// than it has.
fn overrun(place: u64) -> Asked {
    let (mut level, place) = (place % LEVELS, place / LEVELS);
    let mut depth = 0;
    while level > depth {
        depth += 1;
        level -= depth;
    }
    let (more, place) = (1 + place % 3, place / 3);
    let (behind, bottom) = (place % 4, place / 4);
    let (id, body) = BOTTOMS[bottom as usize];
    let mut node = Node::new(id, Body::Leaf(body.to_vec()));
    for _ in 0..depth {
        node = Node::new(0x67C8, Body::Master(vec![node]));
    }
    let (mut bytes, spots) = written(&[node]);
    // All sizes are small: the last byte of a header is its size.
    bytes[spots[level as usize].body() as usize - 1] += more as u8;
    let size = bytes.len() as u64;
    bytes.extend(BEHIND[behind as usize]);
    // The element behind may need a row too.
    Asked {
        size,
        numbers: numbers_of(spots.len() as u64 + 1),
        ..whole(bytes, spots, 0)
    }
}

/// Every tree of the list of cuts has fewer bytes.
const CUT_AT: u64 = 64;

const CUTS: u64 = 64 * CUT_AT;

/// A small tree, cut off at a byte.
fn cut(place: u64) -> Asked {
    let mut random = Random::new(&[place / CUT_AT]);
    loop {
        let parent = random.one_of(&PARENTS);
        let (bytes, spots) = written(&forest(parent, 3, &mut random));
        if !bytes.is_empty() && (bytes.len() as u64) < CUT_AT {
            let mut asked = whole(bytes, spots, parent);
            asked.bytes.truncate((place % CUT_AT) as usize);
            return asked;
        }
    }
}

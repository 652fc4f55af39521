//! Questions about the search for a part: a whole list of small recordings, heads
//! and parts good, odd and damaged, and broken lines.

use crate::asked::{damage, numbers, Asked};
use crate::broken::{self, Sort};
use crate::found::{far, headed, long, met, nested, web, Made};
use crate::list::List;
use crate::random::{hex, Random};
use crate::segment::{element, head, leaf, recorded, seek, seek_to, segment, Piece, Size, ORIGIN};
use question::numbers_of;
use tools::ids::{PARTS, SEEK, SEEK_HEAD, SEEK_ID, SEEK_POSITION, SEGMENT};

/// The shares are fixed: of 20 questions 3 are from a walk through the whole list,
/// 3 are about parts that are met, 4 about heads, 1 about entries that are too far, 2 about
/// odd heads, 1 about heads in each other, 1 about a long chain, 1 about a web of heads, 3
/// are damaged, and 1 is a broken line.
pub fn question(seed: u64, j: u64, random: &mut Random) -> Vec<u8> {
    let (round, turn) = (j / 20, j % 20);
    let made = match turn {
        0..=2 => return WHOLE.walk(seed, round * 3 + turn),
        3..=5 => met(random),
        6..=9 => headed(false, random),
        10 => far(random),
        11..=12 => headed(true, random),
        13 => nested(random),
        14 => long(random),
        15 => web(random),
        16..=18 => any(random),
        _ => headed(false, random),
    };
    let mut asked = asked(&made, random);
    if (16..=18).contains(&turn) {
        for _ in 0..random.one_of(&[1, 1, 1, 2, 3]) {
            damage(&mut asked, random);
        }
    }
    let words = words(id(made.wanted, random), &asked);
    if turn < 19 {
        return words.join(" ").into_bytes();
    }
    let words: Vec<&str> = words.iter().map(String::as_str).collect();
    broken::broken(&words, &[Sort::Id, Sort::Count, Sort::Recording], random)
}

/// A recording of any sort. Long ones are rare.
fn any(random: &mut Random) -> Made {
    match random.below(40) {
        0..=11 => met(random),
        12..=27 => headed(false, random),
        28..=33 => headed(true, random),
        34 => far(random),
        35..=36 => nested(random),
        37..=38 => web(random),
        _ => long(random),
    }
}

fn asked(made: &Made, random: &mut Random) -> Asked {
    let (bytes, spots) = recorded(&made.pieces);
    Asked {
        start: 0,
        size: bytes.len() as u64,
        parent: 0,
        numbers: numbers(made.rows, random),
        bytes,
        spots,
    }
}

/// The id to ask for: mostly the one that may be there, else another part, and
/// seldom none of the four.
fn id(wanted: u32, random: &mut Random) -> u32 {
    match random.below(32) {
        0 => {
            let others = [
                SEEK_HEAD,
                SEGMENT,
                0x1549A966,
                0x1C53BB6B,
                0xEC,
                0,
                u32::MAX,
            ];
            let other = random.one_of(&others);
            random.one_of(&[wanted - 1, wanted + 1, other])
        }
        1..=3 => random.one_of(&PARTS).0,
        _ => wanted,
    }
}

fn words(id: u32, asked: &Asked) -> [String; 4] {
    [
        "part".to_string(),
        format!("{id:X}"),
        asked.numbers.to_string(),
        hex(&asked.bytes),
    ]
}

/// Every way in which three heads lead to each other, entries of every length,
/// overruns, entries to every place, chains with entries that are too far, and recordings
/// cut off at every byte.
pub const WHOLE: List = List {
    length: GRAPHS + FORMS + OVERRUNS + AIMS + FARS + CUTS,
    at: |place| {
        if place < GRAPHS {
            return small(TAGS, &graph(place));
        }
        let place = place - GRAPHS;
        if place < FORMS {
            return small(TAGS, &form(place));
        }
        let place = place - FORMS;
        if place < OVERRUNS {
            return small(TAGS, &overrun(place));
        }
        let place = place - OVERRUNS;
        if place < AIMS {
            return small(TAGS, &aim(place));
        }
        let place = place - AIMS;
        if place < FARS {
            return small(TAGS, &too_far(place));
        }
        cut(place - FARS)
    },
};

const TAGS: u32 = 0x1254C367;

/// A question with a table of two rows.
fn small(id: u32, pieces: &[Piece]) -> Vec<u8> {
    let (bytes, _) = recorded(pieces);
    format!("part {id:X} {} {}", numbers_of(2), hex(&bytes)).into_bytes()
}

/// The marks of the heads and of the parts that they name.
const HEADS: u64 = 10;
const PLACES: u64 = 20;

/// One head, two and three.
const GRAPHS: u64 = 4 + 6 * 6 + 8 * 8 * 8;

/// Heads of which each leads to one of them or to none, and names the part at a
/// place of its own or not.
fn graph(place: u64) -> Vec<Piece> {
    let (heads, mut place) = match place {
        0..=3 => (1, place),
        4..=39 => (2, place - 4),
        _ => (3, place - 40),
    };
    let mut children = Vec::new();
    for own in 0..heads {
        let (next, names) = (place / 2 % (heads + 1), place % 2 == 1);
        place /= 2 * (heads + 1);
        let mut seeks = Vec::new();
        if names {
            seeks.push(seek(TAGS, PLACES + own, 1));
        }
        if next < heads {
            seeks.push(seek(SEEK_HEAD, HEADS + next, 1));
        }
        children.extend([Piece::Mark(HEADS + own), head(seeks)]);
        children.extend([Piece::Mark(PLACES + own), element(TAGS, Vec::new())]);
    }
    vec![segment(Size::Fits(1), children)]
}

const FORMS: u64 = 10 * 10 * 2 * 2 * 2;

/// An id and a position of 0 to 9 bytes, in either order, for the part or for a
/// further head, with zeros or ones before the id.
fn form(place: u64) -> Vec<Piece> {
    let (id_bytes, place) = ((place % 10) as usize, place / 10);
    let (width, place) = (place % 10, place / 10);
    let (first, linked, filled) = (place % 2 == 0, place / 2 % 2 == 0, place / 4);
    let (id, mark) = if linked {
        (SEEK_HEAD, HEADS)
    } else {
        (TAGS, PLACES)
    };
    let front = if filled == 0 { 0 } else { 0xFF };
    let all = [vec![front; 5], id.to_be_bytes().to_vec()].concat();
    let id = leaf(SEEK_ID, &all[9 - id_bytes..]);
    let position = Piece::Position {
        mark,
        more: 0,
        width,
    };
    let position = element(SEEK_POSITION, vec![position]);
    let members = if first {
        vec![id, position]
    } else {
        vec![position, id]
    };
    let children = vec![
        head(vec![element(SEEK, members)]),
        Piece::Mark(PLACES),
        element(TAGS, vec![leaf(0xEC, &[])]),
        Piece::Mark(HEADS),
        head(vec![seek(TAGS, PLACES, 1)]),
    ];
    vec![segment(Size::Fits(1), children)]
}

const OVERRUNS: u64 = 16 * 13 * 5;

/// A segment of 0 to 15 bytes, a child of 2 to 14, and something behind it.
fn overrun(place: u64) -> Vec<Piece> {
    let (size, place) = (place % 16, place / 16);
    let (child, behind) = (place % 13, place / 13);
    let mut bytes = vec![0x18, 0x53, 0x80, 0x67, 0x80 + size as u8];
    let mut pieces = Vec::new();
    bytes.extend([0xEC, 0x80 + child as u8]);
    // The child's bytes are there, or no more than the header is.
    if behind > 0 {
        bytes.extend(vec![0; child as usize]);
    }
    pieces.push(Piece::Bytes(bytes));
    match behind {
        0..=1 => {}
        2 => pieces.push(element(TAGS, Vec::new())),
        3 => pieces.push(leaf(0xEC, &[])),
        _ => {
            let position = Piece::Bytes(vec![child as u8 + 21]);
            pieces.push(head(vec![seek_to(TAGS, position)]));
            pieces.push(element(TAGS, vec![leaf(0xEC, &[])]));
        }
    }
    pieces
}

/// Positions from the segment's start on, and those around 2^64.
const NEAR: u64 = 96;
const AIMS: u64 = (NEAR + 32) * 2;

/// An entry for the part or for a further head that names each place in turn.
fn aim(place: u64) -> Vec<Piece> {
    let (id, place) = if place % 2 == 0 {
        (TAGS, place / 2)
    } else {
        (SEEK_HEAD, place / 2)
    };
    let position = if place < NEAR {
        Piece::Bytes(place.to_be_bytes().to_vec())
    } else {
        Piece::Position {
            mark: ORIGIN,
            more: (place - NEAR).wrapping_sub(8),
            width: 8,
        }
    };
    let part = element(TAGS, vec![leaf(0xEC, &[])]);
    let inner = head(vec![seek(TAGS, PLACES, 1)]);
    let children = vec![
        head(vec![seek_to(id, position)]),
        leaf(0xEC, &[0x80]),
        Piece::Mark(PLACES),
        part.clone(),
        inner.clone(),
        element(0xEC, vec![inner]),
    ];
    vec![part, segment(Size::Fits(1), children)]
}

const FARS: u64 = 4 * 5 * 2 * 2;

/// A chain of one to four heads in either order, of which one or none names the part at 2^64,
/// and the last may name a further head there.
fn too_far(place: u64) -> Vec<Piece> {
    let (heads, place) = (place % 4 + 1, place / 4);
    let (holder, place) = (place % 5, place / 5);
    let (linked, backward) = (place % 2 == 1, place / 2 == 1);
    let past = Piece::Position {
        mark: ORIGIN,
        more: 0,
        width: 8,
    };
    let mut chain = Vec::new();
    for own in 0..heads {
        let mut seeks = Vec::new();
        if own == holder {
            seeks.push(seek_to(TAGS, past.clone()));
        }
        if own + 1 < heads {
            seeks.push(seek(SEEK_HEAD, HEADS + own + 1, 1));
        } else if linked {
            seeks.push(seek_to(SEEK_HEAD, past.clone()));
        }
        chain.push(vec![Piece::Mark(HEADS + own), head(seeks)]);
    }
    if backward {
        chain[1..].reverse();
    }
    vec![segment(Size::Fits(1), chain.concat())]
}

/// Every recording of the list of cuts has fewer bytes.
const CUT_AT: u64 = 96;

const CUTS: u64 = 72 * CUT_AT * 2;

/// A small recording, cut off at a byte. The part that it may have is asked for,
/// or any.
fn cut(place: u64) -> Vec<u8> {
    let (wanted, place) = (place % 2 == 0, place / 2);
    let mut random = Random::new(&[place / CUT_AT]);
    loop {
        let made = match random.below(4) {
            0 => met(&mut random),
            1 => nested(&mut random),
            _ => headed(false, &mut random),
        };
        let (mut bytes, _) = recorded(&made.pieces);
        if !bytes.is_empty() && (bytes.len() as u64) < CUT_AT {
            bytes.truncate((place % CUT_AT) as usize);
            let id = if wanted {
                made.wanted
            } else {
                random.one_of(&PARTS).0
            };
            let numbers = numbers_of(made.rows + 1);
            return format!("part {id:X} {numbers} {}", hex(&bytes)).into_bytes();
        }
    }
}

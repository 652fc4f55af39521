//! Questions about the whole recording at once: parts of every sort before, between and behind
//! seek heads, several of each, stale entries, overruns, small and broken tables, the same as a
//! live recorder leaves them, and a whole list of small recordings.

use crate::asked::{damage, numbers, Asked};
use crate::broken::{self, Sort};
use crate::fields;
use crate::found::{
    self, before, contents, entry, other, refused, usual, BEHIND, HEADS, NO_HEADERS, OTHERS, PLACES,
};
use crate::list::List;
use crate::live::{cluster, in_file, in_front, pieces_at, rows_of, unknown, width};
use crate::random::{hex, Random};
use crate::segment::{
    count, element, head, leaf, pieces, recorded, seek, seek_to, segment, shuffled, Piece, Size,
    ORIGIN,
};
use crate::tree::{chain, forest};
use question::numbers_of;
use tools::ids::*;

/// A recording, and how many rows its parts of each sort need.
struct Made {
    pieces: Vec<Piece>,
    rows: [u64; 5],
}

impl Made {
    fn new(pieces: Vec<Piece>) -> Made {
        let mut rows = [0; 5];
        most_rows(&pieces, &mut rows);
        Made { pieces, rows }
    }
}

/// The most rows of the parts of each sort, wherever they stand.
fn most_rows(pieces: &[Piece], rows: &mut [u64; 5]) {
    for piece in pieces {
        if let Piece::Element { id, within, .. } = piece {
            match FIVE.iter().position(|(_, part, _)| part == id) {
                Some(number) => rows[number] = rows[number].max(count(within)),
                None => most_rows(within, rows),
            }
        }
    }
}

/// The shares are fixed: of 20 questions 3 are from a walk through the whole list, 4 about
/// recordings without a head, 5 about those with heads, 1 about odd entries, 1 about several
/// wrong entries, 1 about overruns, 1 is of the recordings of the search, 3 are damaged, and 1
/// is a broken line.
pub fn question(seed: u64, j: u64, random: &mut Random) -> Vec<u8> {
    let (round, turn) = (j / 20, j % 20);
    let made = match turn {
        0..=2 => return PLAIN.walk(seed, round * 3 + turn),
        3..=6 => several(random),
        7..=11 => headed(false, random),
        12 => headed(true, random),
        13 => wrong(random),
        14 => overrun(random),
        15 => searched(random),
        16..=18 => match random.below(3) {
            0 => several(random),
            _ => headed(random.once_in(4), random),
        },
        _ => headed(false, random),
    };
    line(made, turn, (16..=18).contains(&turn), random)
}

/// The line of a question: with one to three damages, or a broken one.
fn line(made: Made, turn: u64, damaged: bool, random: &mut Random) -> Vec<u8> {
    let (bytes, spots) = recorded(&made.pieces);
    let mut asked = Asked {
        start: 0,
        size: bytes.len() as u64,
        parent: 0,
        numbers: 0,
        bytes,
        spots,
    };
    if damaged {
        for _ in 0..random.one_of(&[1, 1, 1, 2, 3]) {
            damage(&mut asked, random);
        }
    }
    let words = words(tables(made.rows, random), &asked.bytes);
    if turn < 19 {
        return words.join(" ").into_bytes();
    }
    use Sort::{Count, Recording};
    let words: Vec<&str> = words.iter().map(String::as_str).collect();
    let sorts = [Count, Count, Count, Count, Count, Recording];
    broken::broken(&words, &sorts, random)
}

fn words(tables: [u64; 5], bytes: &[u8]) -> Vec<String> {
    let mut words = vec!["open".to_string()];
    words.extend(tables.map(|numbers| numbers.to_string()));
    words.push(hex(bytes));
    words
}

/// Tables for so many rows: they are full or have room, and once in three one of them is of
/// any length.
fn tables(rows: [u64; 5], random: &mut Random) -> [u64; 5] {
    let mut tables = rows.map(|rows| numbers_of(rows + random.one_of(&[0, 0, 1, 3])));
    if random.once_in(3) {
        let odd = random.below(5) as usize;
        tables[odd] = numbers(rows[odd], random);
    }
    if random.once_in(40) {
        let odd = random.below(5) as usize;
        tables[odd] = random.one_of(&[0, 7, 8, 15, 16]);
    }
    tables
}

/// Which of the five.
fn any_number(random: &mut Random) -> usize {
    random.below(5) as usize
}

/// A part with what it holds.
fn part(number: usize, random: &mut Random) -> Piece {
    let (_, id, parent) = FIVE[number];
    let within = match random.below(40) {
        0..=7 => Vec::new(),
        8..=21 if id == INFO => usual_info(random),
        8..=21 => usual(id, random),
        22..=33 => pieces(&fields::payload(parent, random)),
        34..=36 => pieces(&forest(parent, 2, random)),
        37 => {
            let depth = random.one_of(&[14, 15, 16, 16]);
            pieces(&chain(parent, depth, false, random))
        }
        38 => vec![leaf(0xEC, &[]), refused(random)],
        _ => contents(id, random),
    };
    element(id, within)
}

/// The usual content of Info, and once in three a master that is none there.
fn usual_info(random: &mut Random) -> Vec<Piece> {
    let mut within = vec![
        leaf(INFO_SCALE, &[0x0F, 0x42, 0x40]),
        leaf(INFO_DURATION, &5400f32.to_be_bytes()),
        leaf(INFO_TITLE, b"A"),
        leaf(INFO_MUXING, b"m"),
        leaf(INFO_WRITING, b"w"),
    ];
    if random.once_in(3) {
        within.push(leaf(random.one_of(&[0xE0, 0xAE, TAG]), &[0]));
    }
    within
}

/// A child of the segment: mostly one of the parts.
fn child(random: &mut Random) -> Piece {
    if random.once_in(4) {
        return other(random);
    }
    part(any_number(random), random)
}

/// A segment without a head, with several parts of each sort.
fn several(random: &mut Random) -> Made {
    let mut children = Vec::new();
    for _ in 0..random.one_of(&[0, 1, 2, 2, 3, 4, 5, 6, 8]) {
        let new = child(random);
        // The same sort again, mostly shorter.
        if random.once_in(4) {
            let id = match new {
                Piece::Element { id, .. } => id,
                _ => INFO,
            };
            let number = FIVE.iter().position(|(_, part, _)| *part == id);
            let again = match number {
                Some(number) if random.once_in(2) => part(number, random),
                _ => element(id, Vec::new()),
            };
            children.push(again);
        }
        children.push(new);
    }
    Made::new(around(shuffled(children, random), random))
}

/// One to three heads that name some of the parts, and parts before the first of them.
fn headed(odd: bool, random: &mut Random) -> Made {
    let heads = random.one_of(&[1, 1, 1, 2, 2, 3]);
    let mut numbers: Vec<usize> = (0..5).filter(|_| !random.once_in(4)).collect();
    for _ in 0..random.one_of(&[0, 0, 1, 2]) {
        numbers.push(any_number(random));
    }
    let mut seeks: Vec<Vec<Piece>> = vec![Vec::new(); heads as usize];
    for (number, mark) in numbers.iter().zip(PLACES..) {
        for _ in 0..random.one_of(&[0, 1, 1, 1, 1, 1, 2]) {
            let which = random.below(heads) as usize;
            seeks[which].push(named(FIVE[*number].1, mark, odd, random));
        }
    }
    if random.once_in(8) {
        // Another element stands at the place.
        let which = random.below(heads) as usize;
        let id = FIVE[any_number(random)].1;
        let mark = random.one_of(&[PLACES, PLACES + 1, HEADS, OTHERS, BEHIND]);
        seeks[which].push(seek(id, mark, 2));
    }
    for (which, own) in seeks.iter_mut().enumerate() {
        let next = which as u64 + 1;
        if next < heads {
            own.push(named(SEEK_HEAD, HEADS + next, odd, random));
        } else if random.once_in(16) {
            own.push(named(SEEK_HEAD, HEADS + random.below(heads), odd, random));
        }
    }
    let mut behind = Vec::new();
    for (number, mark) in numbers.iter().zip(PLACES..) {
        behind.push(vec![Piece::Mark(mark), part(*number, random)]);
    }
    let mut first = Vec::new();
    for (own, mark) in seeks.into_iter().zip(HEADS..) {
        let own = vec![Piece::Mark(mark), head(shuffled(own, random))];
        if mark == HEADS {
            first = own;
        } else {
            behind.push(own);
        }
    }
    for mark in OTHERS..OTHERS + random.below(3) {
        behind.push(vec![Piece::Mark(mark), other(random)]);
    }
    let mut children = Vec::new();
    for _ in 0..random.one_of(&[0, 0, 0, 1, 2, 3]) {
        children.push(child(random));
    }
    children.extend(first);
    children.extend(shuffled(behind, random).concat());
    Made::new(around(children, random))
}

/// An entry for the element at a mark. The position of one that is not odd has room.
fn named(id: u32, mark: u64, odd: bool, random: &mut Random) -> Piece {
    if odd {
        return entry(id, mark, true, random);
    }
    seek(id, mark, random.one_of(&[2, 2, 2, 3, 4, 8]))
}

/// A head whose entries for several parts are wrong, each in its own way.
fn wrong(random: &mut Random) -> Made {
    let ways = |random: &mut Random| random.one_of(&[0, 0, 1, 2, 3, 4, 5]);
    let ways = [(); 5].map(|()| ways(random));
    let mut children = Vec::new();
    for _ in 0..random.below(3) {
        children.push(child(random));
    }
    children.extend(ordered(&ways));
    Made::new(around(children, random))
}

/// A segment that ends within its last child, which mostly is a part.
fn overrun(random: &mut Random) -> Made {
    let mut children: Vec<Piece> = (0..random.below(3)).map(|_| child(random)).collect();
    let last = if random.once_in(6) {
        head(vec![seek(FIVE[4].1, PLACES, 2)])
    } else {
        child(random)
    };
    let length = recorded(std::slice::from_ref(&last)).0.len() as u64;
    children.push(last);
    children.push(Piece::Mark(PLACES));
    let less = random.below(length.max(1) + 1) as i64;
    Made::new(vec![
        segment(Size::Off(-less), children),
        part(4, random),
        other(random),
    ])
}

/// A recording of the search.
fn searched(random: &mut Random) -> Made {
    let made = match random.below(10) {
        0..=2 => found::met(random),
        3..=4 => found::headed(false, random),
        5 => found::headed(true, random),
        6 => found::far(random),
        7 => found::nested(random),
        8 => found::web(random),
        _ => found::long(random),
    };
    Made::new(made.pieces)
}

/// What stands before the segment, the segment, and sometimes more behind it.
fn around(children: Vec<Piece>, random: &mut Random) -> Vec<Piece> {
    let mut pieces = before(random);
    let near = random.between(1, 9) as i64;
    let size = match random.below(20) {
        0 => Size::Ones(random.between(1, 8)),
        1 => Size::Off(-near),
        2 => Size::Off(near),
        3 => Size::Fits(8),
        _ => Size::Fits(1),
    };
    pieces.push(segment(size, children));
    pieces.push(Piece::Mark(BEHIND));
    match random.below(16) {
        0..=1 => pieces.push(part(any_number(random), random)),
        2 => pieces.push(head(Vec::new())),
        3..=4 => pieces.push(Piece::Bytes(random.one_of(&NO_HEADERS).to_vec())),
        _ => {}
    }
    pieces
}

/// The shares of live questions are fixed: of 20 questions 4 are from a walk through their whole
/// list, 6 about recordings without a head, 2 about a segment of known size that ends within its
/// last child, 4 about recordings with heads, 2 are plain ones, 1 is damaged, and 1 is a broken
/// line. The word does not stand in front yet.
pub fn live(seed: u64, j: u64, random: &mut Random) -> Vec<u8> {
    let (round, turn) = (j / 20, j % 20);
    let made = match turn {
        0..=3 => return ENDLESS.walk(seed, round * 4 + turn),
        4..=9 => recorder(false, random),
        10..=11 => cut_short(random),
        12..=15 => recorder(true, random),
        16..=17 => return question(seed, j, random),
        _ => recorder(random.once_in(2), random),
    };
    line(made, turn, turn == 18, random)
}

/// A recording of a live recorder, with a head or without: parts and Clusters of unknown size in
/// turn, sometimes a second recording behind it.
fn recorder(headed: bool, random: &mut Random) -> Made {
    let mut children = Vec::new();
    let mut seeks = Vec::new();
    for mark in PLACES..PLACES + random.one_of(&[1, 2, 3, 4, 5, 6]) {
        let number = any_number(random);
        let mut own = part(number, random);
        // A size in a payload may not be unknown.
        if let Piece::Element { within, .. } = &mut own {
            if random.once_in(16) {
                let id = random.one_of(&[CLUSTER, SEGMENT, 0xEC, 0xA0]);
                within.push(unknown(id, Vec::new(), random));
            }
        }
        children.push(vec![Piece::Mark(mark), own]);
        if !random.once_in(3) {
            seeks.push(named(FIVE[number].1, mark, random.once_in(16), random));
        }
    }
    for mark in OTHERS..OTHERS + random.below(4) {
        let new = match random.below(12) {
            0..=7 => cluster(true, random),
            8 => cluster(false, random),
            9..=10 => other(random),
            _ => {
                let id = random.one_of(&[0xEC, INFO, 0x1254C367, SEEK_HEAD, SEGMENT, EBML]);
                unknown(id, Vec::new(), random)
            }
        };
        children.push(vec![Piece::Mark(mark), new]);
    }
    let mut children = shuffled(children, random);
    if headed {
        match random.below(8) {
            0 => seeks.push(seek(FIVE[any_number(random)].1, OTHERS, 2)),
            1 => seeks.push(seek(SEEK_HEAD, OTHERS, 2)),
            2 => seeks.push(unknown(0xEC, Vec::new(), random)),
            _ => {}
        }
        let place = random.below(children.len() as u64 + 1) as usize;
        let place = random.one_of(&[0, place]);
        children.insert(place, vec![Piece::Mark(HEADS), head(seeks)]);
    }
    let size = match random.below(12) {
        0..=1 => Size::Fits(width(random)),
        2 => Size::Off(-(random.between(1, 12) as i64)),
        _ => Size::Ones(width(random)),
    };
    let mut pieces = in_file(random);
    pieces.push(segment(size, children.concat()));
    match random.below(10) {
        0 => pieces.push(element(EBML, Vec::new())),
        1 => {
            let second = vec![part(any_number(random), random)];
            pieces.push(unknown(SEGMENT, second, random));
        }
        _ => {}
    }
    Made::new(pieces)
}

/// A segment of known size that ends within its last child, with a Cluster of unknown size
/// before it.
fn cut_short(random: &mut Random) -> Made {
    let last = child(random);
    let length = recorded(std::slice::from_ref(&last)).0.len() as u64;
    let less = random.below(length.max(1) + 1) as i64;
    let mut children = vec![part(any_number(random), random)];
    if !random.once_in(4) {
        children.push(cluster(true, random));
    }
    children.push(last);
    Made::new(vec![segment(Size::Off(-less), children)])
}

/// The small recordings in both modes.
pub const WHOLE: List = List {
    length: PLAIN.length + ENDLESS.length,
    at: |place| match place < PLAIN.length {
        true => (PLAIN.at)(place),
        false => in_front(&(ENDLESS.at)(place - PLAIN.length)),
    },
};

/// Every row of up to four small pieces, the same of up to two in a segment of every small size,
/// a head with one or two entries to every place, heads of which every entry is right or wrong
/// in its own way, tables of every small length, and recordings cut off at every byte.
const PLAIN: List = List {
    length: ROWS + SIZES + AIMS + ORDERS + TABLES + CUTS,
    at: |place| {
        if place < ROWS {
            return small(&within(&pieces_at(&PIECES, place, 4).concat()));
        }
        let place = place - ROWS;
        if place < SIZES {
            return small(&sized(&PIECES, place));
        }
        let place = place - SIZES;
        if place < AIMS {
            return small(&aim(place));
        }
        let place = place - AIMS;
        if place < ORDERS {
            return small(&orders(place));
        }
        let place = place - ORDERS;
        if place < TABLES {
            return tabled(place);
        }
        cut(place - TABLES)
    },
};

/// A question with five tables of one row.
fn small(bytes: &[u8]) -> Vec<u8> {
    let words = words([numbers_of(1); 5], bytes);
    words.join(" ").into_bytes()
}

/// Info empty and with a master that is none there, Tracks with one that is, Attachments,
/// Chapters, Tags empty, with a row, with one that is refused, and claiming two bytes more, a
/// Void, a Cluster and an empty head.
const PIECES: [&[u8]; 12] = [
    b"\x15\x49\xA9\x66\x80",
    b"\x15\x49\xA9\x66\x83\xE0\x81\0",
    b"\x16\x54\xAE\x6B\x82\xE0\x80",
    b"\x19\x41\xA4\x69\x80",
    b"\x10\x43\xA7\x70\x83\x45\xB9\x80",
    b"\x12\x54\xC3\x67\x80",
    b"\x12\x54\xC3\x67\x82\xEC\x80",
    b"\x12\x54\xC3\x67\x82\xB5\x80",
    b"\x12\x54\xC3\x67\x84\xEC\x80",
    b"\xEC\x80",
    b"\x1F\x43\xB6\x75\x83\xA3\x81\0",
    b"\x11\x4D\x9B\x74\x80",
];

const ROWS: u64 = rows_of(PIECES.len() as u64, 4);

/// A segment around some bytes.
fn within(bytes: &[u8]) -> Vec<u8> {
    let size = 0x80 + bytes.len() as u8;
    [&[0x18, 0x53, 0x80, 0x67, size], bytes].concat()
}

/// Segments of 0 to 31 bytes.
const SIZES: u64 = 32 * rows_of(PIECES.len() as u64, 2);

/// A row of up to two pieces behind the header of a segment of known size.
fn sized(pieces: &[&[u8]], place: u64) -> Vec<u8> {
    let (size, place) = (place % 32, place / 32);
    let header = [0x18, 0x53, 0x80, 0x67, 0x80 + size as u8];
    [header.to_vec(), pieces_at(pieces, place, 2).concat()].concat()
}

/// The ids that an entry names, and the places.
const NAMED: [u32; 4] = [INFO, 0x1654AE6B, 0x1254C367, SEEK_HEAD];
const TARGETED: u64 = 12;
const ENTRIES: u64 = NAMED.len() as u64 * TARGETED;
const AIMS: u64 = 4 * (ENTRIES + ENTRIES * ENTRIES);

/// A head with one entry or two that name each of the places, behind nothing, an empty part, one
/// that is refused, or a longer one.
fn aim(place: u64) -> Vec<u8> {
    let (front, mut place) = (place % 4, place / 4);
    let entry = |place: u64| {
        let id = NAMED[(place % 4) as usize];
        let (mark, more, width) = match place / 4 {
            // Each element, the second byte of one, its payload, the end, and around 2^64.
            mark @ 0..=6 => (PLACES + mark, 0, 1),
            7 => (PLACES + 2, 1, 1),
            8 => (PLACES + 2, 5, 1),
            9 => (BEHIND, 0, 1),
            10 => (ORIGIN, u64::MAX, 8),
            _ => (ORIGIN, 0, 8),
        };
        seek_to(id, Piece::Position { mark, more, width })
    };
    let mut seeks = Vec::new();
    if place >= ENTRIES {
        place -= ENTRIES;
        seeks.push(entry(place / ENTRIES));
        place %= ENTRIES;
    }
    seeks.push(entry(place));
    let tags = |within| element(0x1254C367, within);
    let mut children = vec![Piece::Mark(PLACES)];
    match front {
        0 => {}
        1 => children.push(tags(Vec::new())),
        2 => children.push(element(INFO, vec![leaf(INFO_DURATION, &[])])),
        _ => children.push(element(0x1654AE6B, vec![leaf(0xD7, &[1])])),
    }
    let marked = [
        head(seeks),
        element(INFO, vec![leaf(0xE0, &[0])]),
        tags(vec![leaf(0xEC, &[])]),
        head(vec![seek(0x1254C367, PLACES + 5, 1)]),
        tags(Vec::new()),
        element(0x1654AE6B, vec![element(0xE0, Vec::new())]),
    ];
    for (mark, piece) in (PLACES + 1..).zip(marked) {
        children.extend([Piece::Mark(mark), piece]);
    }
    let pieces = [segment(Size::Fits(1), children), Piece::Mark(BEHIND)];
    recorded(&pieces).0
}

const ORDERS: u64 = 6 * 6 * 6 * 6 * 6;

/// Entries for all five, each right or wrong in one of the ways.
fn orders(place: u64) -> Vec<u8> {
    let ways = [1, 6, 36, 216, 1296].map(|base| place / base % 6);
    recorded(&[segment(Size::Fits(1), ordered(&ways))]).0
}

/// A head and the five parts behind it, the last ones first. An entry is right, there is none,
/// another element stands at its place, it is too far, the part is refused, or it has two rows.
fn ordered(ways: &[u64; 5]) -> Vec<Piece> {
    let mut seeks = Vec::new();
    let mut parts = Vec::new();
    for (number, way) in ways.iter().enumerate().rev() {
        let id = FIVE[number].1;
        let mark = PLACES + number as u64;
        let past = Piece::Position {
            mark: ORIGIN,
            more: 0,
            width: 8,
        };
        match way {
            1 => {}
            2 => seeks.push(seek(id, PLACES + 5, 1)),
            3 => seeks.push(seek_to(id, past)),
            _ => seeks.push(seek(id, mark, 1)),
        }
        let within = match way {
            4 => vec![leaf(0xB5, &[])],
            5 => vec![leaf(0xEC, &[]), leaf(0xEC, &[])],
            _ => vec![leaf(0xEC, &[])],
        };
        parts.extend([Piece::Mark(mark), element(id, within)]);
    }
    let mut children = vec![head(seeks), Piece::Mark(PLACES + 5), leaf(0xEC, &[])];
    children.extend(parts);
    children
}

const TABLES: u64 = 4 * 4 * 4 * 4 * 4;

/// All five parts with a row in each, and tables of every small length.
fn tabled(place: u64) -> Vec<u8> {
    let lengths = [1, 4, 16, 64, 256].map(|base| [0, 7, 8, 16][(place / base % 4) as usize]);
    let parts = FIVE.map(|(_, id, _)| element(id, vec![leaf(0xEC, &[])]));
    let (bytes, _) = recorded(&[segment(Size::Fits(1), parts.to_vec())]);
    words(lengths, &bytes).join(" ").into_bytes()
}

/// Every recording of the list of cuts has fewer bytes.
const CUT_AT: u64 = 128;

const CUTS: u64 = 24 * CUT_AT;

/// A small recording, cut off at a byte.
fn cut(place: u64) -> Vec<u8> {
    let mut random = Random::new(&[place / CUT_AT]);
    loop {
        let made = match random.below(3) {
            0 => several(&mut random),
            _ => headed(false, &mut random),
        };
        let (mut bytes, _) = recorded(&made.pieces);
        if (CUT_AT / 2..CUT_AT).contains(&(bytes.len() as u64)) {
            bytes.truncate((place % CUT_AT) as usize);
            let words = words(made.rows.map(numbers_of), &bytes);
            return words.join(" ").into_bytes();
        }
    }
}

/// The same for live mode: rows of up to four pieces in a Segment of unknown size, of up to two
/// in one of every small size, of up to three of which the last is cut off, and a head that
/// names every place among elements of unknown size.
const ENDLESS: List = List {
    length: LIVE_ROWS + LIVE_SIZES + LIVE_CUTS + LIVE_AIMS,
    at: |place| {
        if place < LIVE_ROWS {
            let row = pieces_at(&LIVE_PIECES, place, 4).concat();
            return small(&[LIVE_PIECES[0], &row].concat());
        }
        let place = place - LIVE_ROWS;
        if place < LIVE_SIZES {
            return small(&sized(&LIVE_PIECES, place));
        }
        let place = place - LIVE_SIZES;
        if place < LIVE_CUTS {
            let (left, place) = ((place % 5) as usize, place / 5);
            let mut row = pieces_at(&LIVE_PIECES, place, 3);
            if let Some(last) = row.last_mut() {
                *last = &last[..left.min(last.len())];
            }
            return small(&[LIVE_PIECES[0], &row.concat()].concat());
        }
        small(&live_aim(place - LIVE_CUTS))
    },
};

/// Segment and Cluster of unknown size, Info, Tags empty and with a row, both of unknown size, a
/// Void with a size and without, a block, an EBML header, and an empty head.
const LIVE_PIECES: [&[u8]; 12] = [
    b"\x18\x53\x80\x67\xFF",
    b"\x1F\x43\xB6\x75\xFF",
    b"\x15\x49\xA9\x66\x83\xE0\x81\0",
    b"\x12\x54\xC3\x67\x80",
    b"\x12\x54\xC3\x67\x82\xEC\x80",
    b"\x15\x49\xA9\x66\xFF",
    b"\x12\x54\xC3\x67\xFF",
    b"\xEC\x80",
    b"\xEC\xFF",
    b"\xA3\x81\0",
    b"\x1A\x45\xDF\xA3\x80",
    b"\x11\x4D\x9B\x74\x80",
];

const LIVE_ROWS: u64 = rows_of(LIVE_PIECES.len() as u64, 4);
const LIVE_SIZES: u64 = 32 * rows_of(LIVE_PIECES.len() as u64, 2);
const LIVE_CUTS: u64 = 5 * rows_of(LIVE_PIECES.len() as u64, 3);

/// Places from the segment's start on.
const NEAR: u64 = 80;
const LIVE_AIMS: u64 = NEAR * 3 * 2;

fn live_aim(place: u64) -> Vec<u8> {
    let (position, place) = (place % NEAR, place / NEAR);
    let id = [INFO, 0x1254C367, SEEK_HEAD][(place % 3) as usize];
    let size = [Size::Ones(1), Size::Fits(2)][(place / 3) as usize];
    let entry = seek_to(id, Piece::Bytes(vec![position as u8]));
    let rest = [1, 9, 8, 4, 1, 2, 6, 0, 5, 3, 11].map(|number| LIVE_PIECES[number]);
    let front = Piece::Bytes([LIVE_PIECES[3], LIVE_PIECES[1]].concat());
    let children = vec![front, head(vec![entry]), Piece::Bytes(rest.concat())];
    recorded(&[segment(size, children)]).0
}

//! Questions in live mode. Of the search: recordings as a live recorder leaves them, with
//! Segments and Clusters of unknown size, cut, damaged and odd, and a whole list of small ones.
//! Of payloads: the plain questions, with unknown sizes put into them.

use crate::asked::{damage, numbers, Asked};
use crate::broken::{self, Sort};
use crate::found::{
    any_part, before, contents, entry, other, Made, HEADS, NO_HEADERS, OTHERS, PLACES,
};
use crate::list::List;
use crate::random::{hex, Random};
use crate::segment::{count, element, head, leaf, recorded, seek, segment, Piece, Size};
use crate::tree::{id_bytes, size_bytes};
use crate::{open, part, Kind};
use question::{numbers_of, LIVE_WORDS};
use tools::ids::*;

/// The j-th live question of a word, whose plain questions are given.
pub fn question(word: &str, plain: Kind, seed: u64, j: u64, random: &mut Random) -> Vec<u8> {
    if j % 20 == 19 && random.once_in(3) {
        return no_question(word, random);
    }
    let line = match word {
        "part" => searched(seed, j, random),
        "open" => open::live(seed, j, random),
        _ => with_unknown(plain(seed, j, random), random),
    };
    in_front(&line)
}

/// A question with the word in front.
pub fn in_front(line: &[u8]) -> Vec<u8> {
    [question::LIVE, line].concat()
}

/// The word in front of what can't have it, or not as it has to stand there.
fn no_question(word: &str, random: &mut Random) -> Vec<u8> {
    let rest = match word {
        "part" => "1254C367 8 18538067FF",
        "open" => "8 8 8 8 8 18538067FF",
        "owner" => "0 2 0 0 ECFF",
        "whose" => "0 2 0 0 8 ECFF",
        _ => "0 2 0 8 ECFF",
    };
    let other = random.one_of(&[
        "header 0 ECFF",
        "kind EC 0",
        "utf8 41",
        "body EC 0 2 0 0 EC80",
        "range 0,0,0,2,0,6,0,1 0 EC80",
        "tracktype 1",
        "label unset - -",
    ]);
    let line = match random.below(12) {
        0 => "live".to_string(),
        1 => "live ".to_string(),
        2 => format!("live live {word} {rest}"),
        3 => format!("live  {word} {rest}"),
        4 => format!("live\t{word} {rest}"),
        5 => format!("Live {word} {rest}"),
        6 => format!("lives {word} {rest}"),
        7 => format!("{word} live {rest}"),
        8 => format!("{word} {rest} live"),
        9 => format!("live {word}"),
        _ => format!("live {other}"),
    };
    line.into_bytes()
}

/// The shares are fixed: of 20 questions 4 are from a walk through the whole list, 5 about
/// recordings without a head, 2 about a segment that ends within what stands last in it, 4 about
/// recordings with heads, 2 are those of the plain search, 2 are damaged, and 1 is a broken line.
fn searched(seed: u64, j: u64, random: &mut Random) -> Vec<u8> {
    let (round, turn) = (j / 20, j % 20);
    let made = match turn {
        0..=3 => return SEARCHES.walk(seed, round * 4 + turn),
        4..=8 => recorder(false, random),
        9..=10 => overrun(random),
        11..=14 if random.once_in(16) => overlapping(random),
        11..=14 => recorder(true, random),
        15..=16 => return part::question(seed, j, random),
        17..=18 => recorder(random.once_in(2), random),
        _ => recorder(false, random),
    };
    let (bytes, spots) = recorded(&made.pieces);
    let mut asked = Asked {
        start: 0,
        size: bytes.len() as u64,
        parent: 0,
        numbers: numbers(made.rows, random),
        bytes,
        spots,
    };
    if turn == 17 || turn == 18 {
        for _ in 0..random.one_of(&[1, 1, 2]) {
            damage(&mut asked, random);
        }
    } else if random.once_in(3) {
        // The recorder was stopped.
        let length = asked.bytes.len() as u64;
        asked.bytes.truncate(random.below(length + 1) as usize);
    }
    let id = match random.below(8) {
        0 => any_part(random),
        _ => made.wanted,
    };
    let words = [
        "part".to_string(),
        format!("{id:X}"),
        asked.numbers.to_string(),
        hex(&asked.bytes),
    ];
    if turn < 19 {
        return words.join(" ").into_bytes();
    }
    let words: Vec<&str> = words.iter().map(String::as_str).collect();
    broken::broken(&words, &[Sort::Id, Sort::Count, Sort::Recording], random)
}

/// The width of an unknown size: that of some recorders, or any.
pub fn width(random: &mut Random) -> u64 {
    random.one_of(&[1, 1, 2, 2, 3, 4, 5, 6, 7, 8, 8, 8])
}

/// An element of unknown size.
pub fn unknown(id: u32, within: Vec<Piece>, random: &mut Random) -> Piece {
    let size = Size::Ones(width(random));
    Piece::Element { id, size, within }
}

/// A recording of a live recorder, with a head or without.
fn recorder(headed: bool, random: &mut Random) -> Made {
    let wanted = any_part(random);
    let (mut children, mut rows) = (Vec::new(), 0);
    // Once in 40 a long one.
    let most = if random.once_in(40) { 90 } else { 7 };
    for mark in OTHERS..OTHERS + random.below(most) {
        children.push(vec![Piece::Mark(mark), child(random)]);
    }
    let parts = random.one_of(&[0, 1, 1, 1, 2]);
    for mark in PLACES..PLACES + parts {
        let within = contents(wanted, random);
        rows = count(&within);
        let place = random.below(children.len() as u64 + 1) as usize;
        children.insert(place, vec![Piece::Mark(mark), element(wanted, within)]);
    }
    if headed {
        let mut seeks = vec![entry(wanted, PLACES, random.once_in(4), random)];
        match random.below(8) {
            0 => seeks.push(seek(wanted, OTHERS + random.below(4), 2)),
            1 => seeks.push(seek(SEEK_HEAD, OTHERS + random.below(4), 2)),
            2 => seeks.push(seek(SEEK_HEAD, HEADS + 1, 2)),
            3 => seeks.push(seek(wanted, OTHERS + 100, 2)),
            4 => seeks = vec![seek(any_part(random), PLACES, 2)],
            5 => seeks.push(unknown(0xEC, Vec::new(), random)),
            _ => {}
        }
        let place = random.one_of(&[0, 0, 0, children.len()]);
        children.insert(place, vec![Piece::Mark(HEADS), head(seeks)]);
        if random.once_in(2) {
            let more = vec![entry(wanted, PLACES, false, random)];
            children.push(vec![Piece::Mark(HEADS + 1), head(more)]);
        }
    }
    let size = match random.below(20) {
        0..=2 => Size::Fits(width(random)),
        3 => Size::Off(-(random.between(1, 12) as i64)),
        4 => Size::Off(random.between(1, 12) as i64),
        _ => Size::Ones(width(random)),
    };
    let mut pieces = in_file(random);
    pieces.push(segment(size, children.concat()));
    pieces.extend(behind(wanted, random));
    Made {
        pieces,
        wanted,
        rows,
    }
}

/// A head that stands in a Void and runs over the header of the Cluster behind it: the bytes of
/// an unknown size are a position too.
fn overlapping(random: &mut Random) -> Made {
    let wanted = any_part(random);
    let more = random.below(5);
    let position = [id_bytes(SEEK_POSITION), vec![0x84 + more as u8]].concat();
    let named = [id_bytes(SEEK_ID), vec![0x84], id_bytes(wanted), position].concat();
    let seek_size = named.len() as u64 + 4 + more;
    let entry = [id_bytes(SEEK), size_bytes(seek_size, 1), named].concat();
    let size = size_bytes(3 + seek_size, 1);
    let inner = [id_bytes(SEEK_HEAD), size, entry].concat();
    let within = vec![Piece::Mark(HEADS + 1), Piece::Bytes(inner)];
    let children = vec![
        element(0xEC, within),
        cluster(true, random),
        head(vec![seek(SEEK_HEAD, HEADS + 1, 2)]),
        element(wanted, Vec::new()),
    ];
    let size = Size::Ones(width(random));
    Made {
        pieces: vec![segment(size, children)],
        wanted,
        rows: 0,
    }
}

/// A segment of known size that ends within the last element, behind a Cluster of unknown size.
fn overrun(random: &mut Random) -> Made {
    let wanted = any_part(random);
    let [length, more] = [random.below(9), random.below(5)];
    let within = vec![Piece::Bytes(random.bytes(length))];
    let small = random.one_of(&[0xEC, 0xBF, 0xA0, 0xA3, 0xE7, 0x40FF]);
    let wide = random.one_of(&[0x1654AE6A, 0x1F43B674, EBML, SEGMENT, CLUSTER, SEEK_HEAD]);
    let child = random.one_of(&[
        0x1549A966, 0x1C53BB6B, 0x1654AE6B, 0x1043A770, 0x1941A469, TAGS,
    ]);
    let id = random.one_of(&[small, small, wide, child, child]);
    let last = match random.below(6) {
        0 => unknown(id, within, random),
        1 => Piece::Element {
            id,
            size: Size::Off(more as i64),
            within,
        },
        _ => element(id, within),
    };
    let less = random.below(length + 3) as i64;
    let inner = unknown(SEGMENT, vec![cluster(true, random)], random);
    let front = match random.below(4) {
        0 => vec![inner],
        1 => vec![element(any_part(random), Vec::new()), cluster(true, random)],
        _ => vec![cluster(true, random)],
    };
    let children = [front, vec![last]].concat();
    Made {
        pieces: vec![segment(Size::Off(-less), children)],
        wanted,
        rows: 0,
    }
}

/// What stands before the segment.
pub fn in_file(random: &mut Random) -> Vec<Piece> {
    let first = element(EBML, vec![leaf(0x4282, b"webm"), leaf(0x4287, &[4])]);
    match random.below(16) {
        0..=6 => vec![first],
        7..=10 => Vec::new(),
        11..=12 => before(random),
        13 => {
            let cluster = cluster(true, random);
            vec![first, cluster]
        }
        14 => vec![unknown(CLUSTER, blocks(random), random), first],
        _ => {
            let id = random.one_of(&[EBML, 0xEC, 0x1549A966, 0x1654AE6B, SEEK_HEAD]);
            vec![unknown(id, Vec::new(), random)]
        }
    }
}

/// What stands behind it: mostly nothing, else a second recording, or no header.
fn behind(wanted: u32, random: &mut Random) -> Vec<Piece> {
    let second = vec![element(wanted, Vec::new())];
    let sought = Piece::Mark(OTHERS + 100);
    match random.below(12) {
        0 => vec![element(EBML, Vec::new()), unknown(SEGMENT, second, random)],
        1 => vec![sought, unknown(SEGMENT, second, random)],
        2 => vec![element(SEGMENT, second)],
        3 => vec![unknown(EBML, second, random)],
        4 => vec![Piece::Bytes(random.one_of(&NO_HEADERS).to_vec())],
        5 => vec![sought, unknown(0xEC, second, random)],
        _ => Vec::new(),
    }
}

/// A child of the segment.
fn child(random: &mut Random) -> Piece {
    match random.below(24) {
        0..=9 => cluster(true, random),
        10..=12 => cluster(false, random),
        13..=15 => other(random),
        16 => {
            let id = any_part(random);
            element(id, contents(id, random))
        }
        17 => element(0x1C53BB6B, vec![element(0xBB, vec![leaf(0xB3, &[1])])]),
        18 => leaf(0xEC, &random.bytes(3)),
        19 => element(SEGMENT, vec![cluster(true, random)]),
        20 => unknown(
            SEGMENT,
            vec![cluster(true, random), cluster(true, random)],
            random,
        ),
        21 => element(random.one_of(&[EBML, SEEK_HEAD]), Vec::new()),
        22 => Piece::Element {
            id: random.one_of(&[0xEC, 0x1654AE6A, 0x1C53BB6B]),
            size: Size::Fits(random.between(2, 8)),
            within: vec![Piece::Bytes(vec![0; 127])],
        },
        _ => {
            let id = random.one_of(&[0xEC, EBML, 0x1549A966, 0x1C53BB6B, SEEK_HEAD, 0x1254C367]);
            unknown(id, Vec::new(), random)
        }
    }
}

/// A Cluster, of unknown size or not.
pub fn cluster(endless: bool, random: &mut Random) -> Piece {
    let within = blocks(random);
    if endless {
        return unknown(CLUSTER, within, random);
    }
    element(CLUSTER, within)
}

/// What stands in a Cluster.
fn blocks(random: &mut Random) -> Vec<Piece> {
    let mut within = Vec::new();
    if !random.once_in(4) {
        within.push(leaf(0xE7, &random.bytes(2)));
    }
    for _ in 0..random.below(5) {
        within.push(block(random));
    }
    within
}

/// The bytes of frames that look like elements.
const FRAMES: [&[u8]; 6] = [
    b"\x12\x54\xC3\x67\x80",
    b"\x16\x54\xAE\x6B\x80\xEC\x80",
    b"\x1F\x43\xB6\x75\xFF",
    b"\x1A\x45\xDF\xA3\x80",
    b"\x18\x53\x80\x67\xFF",
    b"\x1C\x53\xBB\x6B\x80",
];

/// One of them.
fn block(random: &mut Random) -> Piece {
    let length = random.below(9);
    match random.below(32) {
        0..=6 => leaf(0xA3, &random.bytes(length)),
        7 => leaf(0xA3, &random.bytes(40 * length)),
        8..=13 => leaf(0xA3, random.one_of(&FRAMES)),
        14..=17 => element(
            0xA0,
            vec![leaf(0xA1, &random.bytes(length)), leaf(0x9B, &[9])],
        ),
        18..=20 => leaf(0xEC, &random.bytes(length)),
        21..=22 => leaf(0xBF, &random.bytes(4)),
        23 => leaf(0xA7, &[1]),
        24 => leaf(random.one_of(&[0x40FF, 0x1654AE6A, 0x1F43B674, 0x81]), &[0]),
        25 => Piece::Element {
            id: 0xA3,
            size: Size::Fits(random.between(2, 8)),
            within: vec![Piece::Bytes(vec![0; 127])],
        },
        // More than there is.
        26 => Piece::Element {
            id: 0xA3,
            size: Size::Off(random.between(1, 40) as i64),
            within: vec![Piece::Bytes(random.bytes(length))],
        },
        27 => element(any_part(random), Vec::new()),
        28 => unknown(random.one_of(&[0xA0, 0xA3, 0xEC, 0xBF]), Vec::new(), random),
        _ => leaf(0xAB, &[1, 2]),
    }
}

/// Where the headers of a payload stand: the address, the bytes of the id and of the size, and the
/// depth.
#[derive(Clone, Copy)]
struct Spot {
    at: usize,
    id: usize,
    size: usize,
    depth: u64,
}

/// A plain question about a payload, mostly with an unknown size in it or one that is nearly so.
fn with_unknown(line: Vec<u8>, random: &mut Random) -> Vec<u8> {
    let Some((mut bytes, spots, front)) = payload(&line) else {
        return line;
    };
    if spots.is_empty() {
        return line;
    }
    // Once in three the deepest one, which may be too deep.
    let deepest = spots.iter().max_by_key(|spot| spot.depth).copied();
    let chosen = deepest.filter(|_| random.once_in(3));
    let Spot { at, id, size, .. } = chosen.unwrap_or_else(|| random.one_of(&spots));
    let (place, header) = (at + id..at + id + size, at..at + id + size);
    let wide = width(random);
    let ones = size_bytes((1 << (7 * wide)) - 1, wide);
    match random.below(20) {
        // The size is unknown, in its own width or in another.
        0..=3 => drop(bytes.splice(place.clone(), ones_of(place.len()))),
        4 => drop(bytes.splice(place, ones)),
        // An element of unknown size stands in its place, or before it.
        5..=6 => {
            let id = random.one_of(&[CLUSTER, SEGMENT, CLUSTER, SEGMENT, 0xEC, 0xA0, EBML]);
            let unknown = [id_bytes(id), ones].concat();
            if random.once_in(2) {
                bytes.splice(header, unknown);
            } else {
                bytes.splice(at..at, unknown);
            }
        }
        // A size of all ones, but for its width or for a bit.
        7 => {
            let more = wide.max(2);
            let known = size_bytes((1 << (7 * (more - 1))) - 1, more);
            bytes.splice(place, known);
        }
        8 => drop(bytes.splice(place, size_bytes((1 << (7 * wide)) - 2, wide))),
        _ => return line,
    }
    [front, hex(&bytes).into_bytes()].concat()
}

/// All ones in so many bytes of a size.
fn ones_of(width: usize) -> Vec<u8> {
    size_bytes((1 << (7 * width)) - 1, width as u64)
}

/// The recording of a question, the headers in the payload that it names, and the words before
/// the recording; `None` if it is a broken one.
fn payload(line: &[u8]) -> Option<(Vec<u8>, Vec<Spot>, Vec<u8>)> {
    question::parse(line)?;
    let text = std::str::from_utf8(line).ok()?;
    let words: Vec<&str> = text.split(' ').collect();
    let digits = words.last().filter(|digits| **digits != "-")?;
    let pairs = (0..digits.len()).step_by(2);
    let bytes = pairs.map(|place| u8::from_str_radix(&digits[place..place + 2], 16));
    let bytes: Vec<u8> = bytes.collect::<Result<_, _>>().ok()?;
    let parent = match words[0] {
        "attachment" => ATTACHED_FILE,
        "edition" | "chapter" | "display" => EDITION,
        "tag" | "uid" | "simple" => TAG,
        "audio" => AUDIO,
        "track" => TRACK,
        "info" | "family" => INFO,
        _ => u32::from_str_radix(words[3], 16).ok()?,
    };
    let mut spots = Vec::new();
    let (start, size) = (words[1].parse().ok()?, words[2].parse().ok()?);
    headers(&bytes, start, size, parent, 0, &mut spots);
    let front = line[..line.len() - digits.len()].to_vec();
    Some((bytes, spots, front))
}

/// Collects the headers of a master that can be read.
fn headers(bytes: &[u8], at: u64, size: u64, parent: u32, depth: u64, spots: &mut Vec<Spot>) {
    let (mut at, mut left) = (at, size);
    while left > 0 && depth < 40 && spots.len() < 5_000 {
        let Some((id, id_width)) = number(bytes, at, 4) else {
            return;
        };
        let Some((marked, size_width)) = number(bytes, at + id_width, 8) else {
            return;
        };
        let (size, header) = (marked - (1 << (7 * size_width)), id_width + size_width);
        spots.push(Spot {
            at: at as usize,
            id: id_width as usize,
            size: size_width as usize,
            depth,
        });
        if kind(id as u32, parent) == MASTER_KIND {
            headers(bytes, at + header, size, id as u32, depth + 1, spots);
        }
        at += header + size;
        left = left.saturating_sub(header + size);
    }
}

/// A number with its marker, and how many bytes it has.
fn number(bytes: &[u8], at: u64, most: u32) -> Option<(u64, u64)> {
    let rest = bytes.get(usize::try_from(at).ok()?..)?;
    let width = rest.first()?.leading_zeros() + 1;
    let own = rest.get(..width as usize).filter(|_| width <= most)?;
    let value = own.iter().fold(0, |sum, byte| sum << 8 | u64::from(*byte));
    Some((value, width.into()))
}

/// The small recordings and the small payloads.
pub const WHOLE: List = List {
    length: SEARCHES.length + PAYLOADS,
    at: |place| {
        in_front(&match place < SEARCHES.length {
            true => (SEARCHES.at)(place),
            false => small_payload(place - SEARCHES.length),
        })
    },
};

/// Every row of up to five small pieces, the same of up to three in a segment of every small
/// size and cut off in the last of them, sizes of every width, every listed id in a Cluster and
/// in a Segment, and entries that name every place.
const SEARCHES: List = List {
    length: ROWS + KNOWN + CUTS + WIDTHS + LISTED_IDS + AIMS,
    at: |place| {
        let bytes = if place < ROWS {
            row(place, 5)
        } else if place < ROWS + KNOWN {
            known(place - ROWS)
        } else if place < ROWS + KNOWN + CUTS {
            cut(place - ROWS - KNOWN)
        } else if place < ROWS + KNOWN + CUTS + WIDTHS {
            widths(place - ROWS - KNOWN - CUTS)
        } else if place < ROWS + KNOWN + CUTS + WIDTHS + LISTED_IDS {
            any_listed(place - ROWS - KNOWN - CUTS - WIDTHS)
        } else {
            aim(place - ROWS - KNOWN - CUTS - WIDTHS - LISTED_IDS)
        };
        format!("part {TAGS:X} {} {}", numbers_of(2), hex(&bytes)).into_bytes()
    },
};

const TAGS: u32 = 0x1254C367;

/// Segment and Cluster of unknown size, the part, a Void, a block, a Void of unknown size, an
/// EBML header, Cues, a Segment of five bytes, a CRC-32, a block whose bytes are missing, and an
/// empty head.
const PIECES: [&[u8]; 12] = [
    b"\x18\x53\x80\x67\xFF",
    b"\x1F\x43\xB6\x75\xFF",
    b"\x12\x54\xC3\x67\x80",
    b"\xEC\x80",
    b"\xA3\x81\0",
    b"\xEC\xFF",
    b"\x1A\x45\xDF\xA3\x80",
    b"\x1C\x53\xBB\x6B\x80",
    b"\x18\x53\x80\x67\x85",
    b"\xBF\x80",
    b"\xA3\x84\0",
    b"\x11\x4D\x9B\x74\x80",
];

/// How many rows of up to so many of the pieces there are.
pub const fn rows_of(pieces: u64, most: u32) -> u64 {
    (pieces.pow(most + 1) - 1) / (pieces - 1)
}

const ROWS: u64 = rows_of(PIECES.len() as u64, 5);

/// A row of up to so many pieces, the short ones first.
fn row(place: u64, most: u32) -> Vec<u8> {
    pieces_at(&PIECES, place, most).concat()
}

pub fn pieces_at<'a>(all: &[&'a [u8]], mut place: u64, most: u32) -> Vec<&'a [u8]> {
    let base = all.len() as u64;
    let mut count = 0;
    while count < most && place >= base.pow(count) {
        place -= base.pow(count);
        count += 1;
    }
    let mut row = Vec::new();
    for _ in 0..count {
        row.push(all[(place % base) as usize]);
        place /= base;
    }
    row
}

/// Segments of 0 to 23 bytes.
const KNOWN: u64 = 24 * rows_of(PIECES.len() as u64, 3);

/// A row of up to three pieces behind the header of a segment of known size.
fn known(place: u64) -> Vec<u8> {
    let (size, place) = (place % 24, place / 24);
    let header = [0x18, 0x53, 0x80, 0x67, 0x80 + size as u8];
    [header.to_vec(), row(place, 3)].concat()
}

const CUTS: u64 = 2 * 5 * rows_of(PIECES.len() as u64, 3);

/// A row of up to three pieces in a Segment and in a Cluster in it, both of unknown size, of
/// which the last one is cut off.
fn cut(place: u64) -> Vec<u8> {
    let (within, place) = (place % 2, place / 2);
    let (left, place) = ((place % 5) as usize, place / 5);
    let mut pieces = pieces_at(&PIECES, place, 3);
    if let Some(last) = pieces.last_mut() {
        *last = &last[..left.min(last.len())];
    }
    let outer = &PIECES[..1 + within as usize];
    [outer.concat(), pieces.concat()].concat()
}

const WIDTHS: u64 = 8 * 8 * 4 * 4;

/// A Segment and a Cluster with sizes of every width: all ones, one less, all ones of the next
/// smaller width, and 0.
fn widths(place: u64) -> Vec<u8> {
    let (segment, place) = (place % 8 + 1, place / 8);
    let (cluster, place) = (place % 8 + 1, place / 8);
    let size = |width: u64, sort: u64| {
        let ones = |width: u64| (1u64 << (7 * width)) - 1;
        let size = [ones(width), ones(width) - 1, ones(width - 1), 0][sort as usize];
        let marked = size | 1 << (7 * width);
        marked.to_be_bytes()[8 - width as usize..].to_vec()
    };
    let [first, second] = [size(segment, place % 4), size(cluster, place / 4)];
    let [outer, inner] = [SEGMENT, CLUSTER].map(id_bytes);
    let rest = [PIECES[4], PIECES[2]].concat();
    [outer, first, inner, second, rest].concat()
}

const LISTED_IDS: u64 = LISTED * 2 * 2 * 2;

/// A listed id behind a block in a Cluster, or in a Segment, of size 0 or of unknown size, with
/// the part behind it or in a block of its own.
fn any_listed(place: u64) -> Vec<u8> {
    let (in_cluster, place) = (place % 2 == 0, place / 2);
    let (size, place) = (if place % 2 == 0 { 0x80 } else { 0xFF }, place / 2);
    let (last, place) = (place % 2 == 0, place / 2);
    let front = if in_cluster {
        &PIECES[..2]
    } else {
        &PIECES[..1]
    };
    let block = if in_cluster { PIECES[4] } else { PIECES[3] };
    let part = if last { PIECES[2] } else { &[0xA3, 0x85] };
    let id = id_bytes(listed(place));
    [&front.concat(), block, &id, &[size], part, PIECES[2]].concat()
}

/// Places from the segment's start on.
const NEAR: u64 = 64;
const AIMS: u64 = NEAR * 2 * 2;

/// A head whose entry names each place in turn, for the part or for a further head, in a Segment
/// of unknown size or not: among Clusters, a Segment and Voids of unknown size.
fn aim(place: u64) -> Vec<u8> {
    let (position, place) = (place % NEAR, place / NEAR);
    let (id, place) = ([TAGS, SEEK_HEAD][(place % 2) as usize], place / 2);
    let size = [Size::Ones(1), Size::Fits(2)][place as usize];
    let position = Piece::Bytes(vec![position as u8]);
    let entry = crate::segment::seek_to(id, position);
    let rest = [
        PIECES[1], PIECES[4], PIECES[5], PIECES[2], PIECES[1], PIECES[0], PIECES[11],
    ];
    let within = vec![head(vec![entry]), Piece::Bytes(rest.concat())];
    recorded(&[segment(size, within)]).0
}

/// The pieces of small payloads: elements of unknown size, a Void, a master of two bytes, and a
/// size that is all ones of another width.
const INNER: [&[u8]; 8] = [
    b"\xEC\xFF",
    b"\xEC\x80",
    b"\x1F\x43\xB6\x75\xFF",
    b"\x18\x53\x80\x67\xFF",
    b"\xA0\x82",
    b"\xA0\xFF",
    b"\xEC\x40\x7F",
    b"\xEC\x7F\xFF",
];

/// Each payload is read with a table of 0 to 3 rows, and the owners of its first bytes are
/// asked for.
const PAYLOADS: u64 = rows_of(INNER.len() as u64, 4) * (4 + OWNERS);
const OWNERS: u64 = 12;

fn small_payload(place: u64) -> Vec<u8> {
    let (sort, place) = (place % (4 + OWNERS), place / (4 + OWNERS));
    let bytes = pieces_at(&INNER, place, 4).concat();
    let (length, digits) = (bytes.len(), hex(&bytes));
    if sort < 4 {
        let numbers = numbers_of(sort);
        return format!("read 0 {length} 0 {numbers} {digits}").into_bytes();
    }
    format!("owner 0 {length} 0 {} {digits}", sort - 4).into_bytes()
}

/// Whether a word takes live mode.
pub fn takes_it(word: &str) -> bool {
    LIVE_WORDS.contains(&word)
}

//! Questions about records: a whole list of small ones, payloads good, spoilt and
//! damaged, odd arguments and indices, and broken lines.

use crate::asked::{damage, numbers, Asked};
use crate::body::size;
use crate::broken::{self, Sort};
use crate::fields::{masters_of, payload, spoilt};
use crate::header::place;
use crate::info;
use crate::label::{label_at, type_at, LABELS, TYPES};
use crate::list::{walked, List};
use crate::random::{hex, Random};
use crate::track;
use crate::tree::{id_bytes, size_bytes, written, Node};
use question::{numbers_of, MOST_ROWS};
use tools::ids::*;

/// What a question names behind the table: the masters that lead to the record, and
/// whether a list's member or a family is asked for.
#[derive(Clone, Copy)]
pub struct Word {
    name: &'static str,
    path: &'static [u32],
    list: bool,
    families: bool,
}

const ATTACHMENT_WORD: Word = word("attachment", &[ATTACHED_FILE]);
const EDITION_WORD: Word = word("edition", &[EDITION]);
const CHAPTER_WORD: Word = word("chapter", &[EDITION, CHAPTER]);
const DISPLAY_WORD: Word = word("display", &[EDITION, CHAPTER, DISPLAY]);
const TAG_WORD: Word = word("tag", &[TAG]);
const UID_WORD: Word = Word {
    list: true,
    ..word("uid", &[TAG])
};
const SIMPLE_WORD: Word = word("simple", &[TAG, SIMPLE]);
const AUDIO_WORD: Word = word("audio", &[AUDIO]);
pub const TRACK_WORD: Word = word("track", &[TRACK]);
pub const INFO_WORD: Word = word("info", &[INFO]);
pub const FAMILY_WORD: Word = Word {
    families: true,
    ..word("family", &[INFO])
};

const fn word(name: &'static str, path: &'static [u32]) -> Word {
    Word {
        name,
        path,
        list: false,
        families: false,
    }
}

/// Those of the whole list, of which tracks have one of their own.
const WORDS: [Word; 8] = [
    ATTACHMENT_WORD,
    EDITION_WORD,
    CHAPTER_WORD,
    DISPLAY_WORD,
    TAG_WORD,
    UID_WORD,
    SIMPLE_WORD,
    AUDIO_WORD,
];

pub fn attachment(seed: u64, j: u64, random: &mut Random) -> Vec<u8> {
    question(ATTACHMENT_WORD, seed, j, random)
}

pub fn edition(seed: u64, j: u64, random: &mut Random) -> Vec<u8> {
    question(EDITION_WORD, seed, j, random)
}

pub fn chapter(seed: u64, j: u64, random: &mut Random) -> Vec<u8> {
    question(CHAPTER_WORD, seed, j, random)
}

pub fn display(seed: u64, j: u64, random: &mut Random) -> Vec<u8> {
    question(DISPLAY_WORD, seed, j, random)
}

pub fn tag(seed: u64, j: u64, random: &mut Random) -> Vec<u8> {
    question(TAG_WORD, seed, j, random)
}

pub fn uid(seed: u64, j: u64, random: &mut Random) -> Vec<u8> {
    question(UID_WORD, seed, j, random)
}

pub fn simple(seed: u64, j: u64, random: &mut Random) -> Vec<u8> {
    question(SIMPLE_WORD, seed, j, random)
}

pub fn audio(seed: u64, j: u64, random: &mut Random) -> Vec<u8> {
    question(AUDIO_WORD, seed, j, random)
}

/// The walk is through the tracks' own whole list.
pub fn track(seed: u64, j: u64, random: &mut Random) -> Vec<u8> {
    let (round, turn) = (j / 20, j % 20);
    if turn < 2 {
        return track::WHOLE.walk(seed, round * 2 + turn);
    }
    unwalked(TRACK_WORD, turn, random)
}

/// The same of Info, and of its families.
pub fn info(seed: u64, j: u64, random: &mut Random) -> Vec<u8> {
    let (round, turn) = (j / 20, j % 20);
    if turn < 2 {
        return info::WHOLE.walk(seed, round * 2 + turn);
    }
    unwalked(INFO_WORD, turn, random)
}

pub fn family(_seed: u64, j: u64, random: &mut Random) -> Vec<u8> {
    unwalked(FAMILY_WORD, j % 20, random)
}

/// The shares are fixed: of 20 questions 2 are from a walk through the word's part of
/// the whole list, 11 are about good payloads, 1 about a part's payload behind its
/// header, 2 about one with an odd element, 2 are damaged, 1 has an odd start or size,
/// and 1 is a broken line.
fn question(word: Word, seed: u64, j: u64, random: &mut Random) -> Vec<u8> {
    let (round, turn) = (j / 20, j % 20);
    if turn < 2 {
        return small(&word, seed, round * 2 + turn);
    }
    unwalked(word, turn, random)
}

/// A question that is not from a walk.
fn unwalked(word: Word, turn: u64, random: &mut Random) -> Vec<u8> {
    // Mostly there is such a record; one payload in 16 is of another sort.
    let sort = match random.below(16) {
        0 => random.one_of(&WORDS).path[0],
        _ => word.path[0],
    };
    let mut nodes = payload(sort, random);
    for _ in 0..8 {
        if random.once_in(12) || there(&word, &nodes) {
            break;
        }
        nodes = payload(sort, random);
    }
    if (14..=15).contains(&turn) {
        spoilt(&mut nodes, sort, random);
    }
    let indices = indices(&word, &nodes, random);
    let mut asked = planted(&nodes, sort, turn == 13, random);
    match turn {
        16..=17 => {
            for _ in 0..random.one_of(&[1, 1, 1, 2, 3]) {
                damage(&mut asked, random);
            }
        }
        18 => elsewhere(&mut asked, random),
        _ => {}
    }
    let words = words(&word, &asked, &indices);
    if turn < 19 {
        return words.join(" ").into_bytes();
    }
    use Sort::{Count, Number, Recording};
    let mut sorts = vec![Number, Number, Count];
    sorts.extend(word.path.iter().map(|_| Number));
    if word.list {
        sorts.extend([Sort::List, Number]);
    }
    if word.families {
        sorts.push(Number);
    }
    sorts.push(Recording);
    let words: Vec<&str> = words.iter().map(String::as_str).collect();
    broken::broken(&words, &sorts, random)
}

pub fn words(word: &Word, asked: &Asked, indices: &[String]) -> Vec<String> {
    let mut words = vec![
        word.name.to_string(),
        asked.start.to_string(),
        asked.size.to_string(),
        asked.numbers.to_string(),
    ];
    words.extend_from_slice(indices);
    words.push(hex(&asked.bytes));
    words
}

/// Elements in a recording. Something may stand before them: anything, or the header
/// of the part that they are, and behind them.
fn planted(nodes: &[Node], record: u32, part: bool, random: &mut Random) -> Asked {
    let (payload, spots) = written(nodes);
    let size = payload.len() as u64;
    let before = random.one_of(&[0, 0, 0, 1, 2, 7]);
    let mut bytes = random.bytes(before);
    if part {
        let owner = PARTS.iter().find(|(_, own)| *own == record);
        let id = owner.map_or(record, |(part, _)| *part);
        bytes.extend(id_bytes(id));
        bytes.extend(size_bytes(size, random.between(1, 8)));
    }
    let start = bytes.len() as u64;
    bytes.extend(payload);
    let after = random.one_of(&[0, 0, 1, 9]);
    bytes.extend(random.bytes(after));
    Asked {
        start,
        size,
        parent: record,
        numbers: numbers(spots.len() as u64, random),
        bytes,
        spots: spots.iter().map(|spot| spot.moved(start)).collect(),
    }
}

/// Another start or size: one record alone, its payload, a few more bytes or less, or
/// anything.
fn elsewhere(asked: &mut Asked, random: &mut Random) {
    let length = asked.bytes.len() as u64;
    let around = random.below(3);
    let spot = match asked.spots.len() {
        0 => None,
        _ => Some(random.one_of(&asked.spots)),
    };
    match (random.below(8), spot) {
        (0, Some(spot)) => {
            asked.start = spot.address;
            asked.size = spot.end() - spot.address;
        }
        (1, Some(spot)) => {
            asked.start = spot.body();
            asked.size = spot.payload;
        }
        (2, Some(spot)) => asked.size = spot.end() - asked.start,
        (3, _) => asked.size = 0,
        (4, _) => asked.size = (asked.size + around).saturating_sub(1),
        (5, _) => asked.size = size(length, random),
        (6, _) => asked.start = (length + around).saturating_sub(1),
        _ => asked.start = place(length, random).parse().unwrap_or(1 << 31),
    }
}

/// Whether the payload has a record of the sort that is asked for.
fn there(word: &Word, nodes: &[Node]) -> bool {
    if word.families {
        return info::families(nodes) > 0;
    }
    let mut now = vec![nodes];
    for id in word.path.iter().filter(|id| !is_whole(**id)) {
        now = now
            .iter()
            .flat_map(|nodes| masters_of(nodes, *id))
            .collect();
    }
    if word.list {
        now = now
            .iter()
            .filter_map(|nodes| masters_of(nodes, TARGETS).pop())
            .collect();
        let lists = LISTS.map(|(_, id)| id);
        let mut members = now.into_iter().flatten();
        return members.any(|node| lists.contains(&node.id));
    }
    !now.is_empty()
}

/// The lists of a tag's targets.
const LISTS: [(&str, u32); 4] = [
    ("track", TRACK_UID),
    ("edition", TAG_EDITION_UID),
    ("chapter", TAG_CHAPTER_UID),
    ("attachment", ATTACHMENT_UID),
];

/// The words of the indices, from the outside in. Mostly they lead to a record.
pub fn indices(word: &Word, nodes: &[Node], random: &mut Random) -> Vec<String> {
    let mut words = Vec::new();
    let mut now = Some(nodes);
    for (level, id) in word.path.iter().enumerate() {
        let all = match now {
            Some(nodes) if is_whole(*id) => vec![nodes],
            Some(nodes) => masters_of(nodes, *id),
            None => Vec::new(),
        };
        // Mostly one that leads on.
        let rest = Word {
            path: &word.path[level + 1..],
            families: false,
            ..*word
        };
        let leading: Vec<u64> = (0..)
            .zip(&all)
            .filter(|(_, nodes)| there(&rest, nodes))
            .map(|(place, _)| place)
            .collect();
        // Of audio there is one, so that few indices are odd ones; so it is of Info.
        let odd = if is_whole(*id) { 2 } else { 8 };
        let index = match leading.len() {
            0 => index(all.len() as u64, random),
            _ if random.once_in(odd) => index(all.len() as u64, random),
            _ => random.one_of(&leading),
        };
        now = all.get(index as usize).copied();
        words.push(index.to_string());
    }
    if word.list {
        let targets = now.and_then(|nodes| masters_of(nodes, TARGETS).pop());
        let count = |id: u32| {
            let nodes = targets.unwrap_or(&[]).iter();
            nodes.filter(|node| node.id == id).count() as u64
        };
        // Mostly a list that has members.
        let full: Vec<_> = LISTS.into_iter().filter(|(_, id)| count(*id) > 0).collect();
        let (name, id) = match full.len() {
            0 => random.one_of(&LISTS),
            _ if random.once_in(16) => random.one_of(&LISTS),
            _ => random.one_of(&full),
        };
        words.push(name.to_string());
        words.push(index(count(id), random).to_string());
    }
    if word.families {
        words.push(index(info::families(nodes), random).to_string());
    }
    words
}

/// Whether a payload of that sort is itself the record.
fn is_whole(id: u32) -> bool {
    id == AUDIO || id == INFO
}

/// An index among so many: mostly one that is there, else behind the last one, and
/// seldom a huge one.
fn index(count: u64, random: &mut Random) -> u64 {
    match random.below(40) {
        0 => count,
        1 => count + random.below(3),
        2 => random.one_of(&[u64::MAX, 1 << 63, 1 << 32, MOST_ROWS]),
        // It is there if only 32 bits count.
        3 => (1 << 32) + random.below(count.max(1)),
        _ => random.below(count.max(1)),
    }
}

/// Every order of up to three children of each record, the list's members of tags of
/// up to two, payloads cut off at every byte, the track types, and labels.
pub const WHOLE: List = List {
    length: ORDERS + MEMBERS + CUTS + TYPES + LABELS,
    at: |place| {
        if place < ORDERS {
            return order(place);
        }
        let place = place - ORDERS;
        if place < MEMBERS {
            return member(place);
        }
        let place = place - MEMBERS;
        if place < CUTS {
            return cut(place);
        }
        let place = place - CUTS;
        if place < TYPES {
            return format!("tracktype {}", type_at(place)).into_bytes();
        }
        label_at(place - TYPES)
    },
};

/// So many children are put in every order.
pub const ITEMS: usize = 8;

/// Up to three of them.
pub const ONE_ORDER: u64 = 1 + 8 + 8 * 8 + 8 * 8 * 8;

const ORDERS: u64 = 7 * ONE_ORDER;

/// Children of audio, in a track and as a payload of their own.
pub const AUDIO_ITEMS: [&[u8]; ITEMS] = [
    b"\xB5\x84\x47\x2C\x44\x00",
    b"\xB5\x88\x40\xE7\x70\x00\x00\x00\x00\x00",
    b"\xB5\x84\x7F\xC0\x00\x00",
    b"\xB5\x84\x80\x00\x00\x00",
    b"\x9F\x80",
    b"\x9F\x81\x02",
    b"\x62\x64\x81\x10",
    b"\xE1\x83\x9F\x81\x06",
];

/// The children of each record, as bytes: fields set and empty, a master nested in
/// its own sort with a field in it, and others.
const CHILDREN: [(Word, [&[u8]; ITEMS]); 7] = [
    (
        ATTACHMENT_WORD,
        [
            b"\x46\x7E\x81d",
            b"\x46\x6E\x81n",
            b"\x46\x6E\x80",
            b"\x46\x60\x81m",
            b"\x46\x5C\x81\xFF",
            b"\x46\xAE\x81\x01",
            b"\x61\xA7\x84\x46\x6E\x81x",
            b"\xEC\x80",
        ],
    ),
    (
        EDITION_WORD,
        [
            b"\x45\xBC\x81\x07",
            b"\x45\xBD\x80",
            b"\x45\xBD\x81\x02",
            b"\x45\xDB\x81\x01",
            b"\x45\xDD\x82\x01\x00",
            b"\xB6\x80",
            b"\xB6\x82\xB6\x80",
            b"\x45\xB9\x84\x45\xBC\x81\x09",
        ],
    ),
    (
        CHAPTER_WORD,
        [
            b"\x73\xC4\x81\x05",
            b"\x91\x84\x3B\x9A\xCA\x00",
            b"\x92\x80",
            b"\x98\x81\x02",
            b"\x45\x98\x81\x00",
            b"\x6E\x67\x82\xC0\x80",
            b"\xB6\x8B\x73\xC4\x81\x06\x91\x81\x01\x80\x82\x80\x80",
            b"\x80\x82\x80\x80",
        ],
    ),
    (
        DISPLAY_WORD,
        [
            b"\x85\x81A",
            b"\x85\x80",
            b"\x43\x7C\x83eng",
            b"\x43\x7C\x80",
            b"\x43\x7D\x82en",
            b"\x43\x7D\x80",
            b"\x80\x83\x85\x81B",
            b"\x43\x7E\x82us",
        ],
    ),
    (
        TAG_WORD,
        [
            b"\x63\xC0\x80",
            b"\x63\xC0\x84\x68\xCA\x81\x32",
            b"\x63\xC0\x87\x63\xC5\x80\x63\xCA\x81t",
            b"\x63\xC0\x90\x63\xC5\x81\x01\x63\xC9\x81\x02\x63\xC4\x81\x03\x63\xC6\x81\x04",
            b"\x67\xC8\x80",
            b"\x67\xC8\x83\x67\xC8\x80",
            b"\x68\xCA\x81\x0A",
            b"\x63\xC5\x81\x09",
        ],
    ),
    (
        SIMPLE_WORD,
        [
            b"\x45\xA3\x81A",
            b"\x44\x7A\x83eng",
            b"\x44\x7B\x82en",
            b"\x44\x84\x81\x00",
            b"\x44\x84\x81\x02",
            b"\x44\x87\x81B",
            b"\x44\x85\x81\xFF",
            b"\x67\xC8\x87\x45\xA3\x81C\x44\x87\x80",
        ],
    ),
    (AUDIO_WORD, AUDIO_ITEMS),
];

/// The n-th order of up to three of some children.
pub fn in_order(items: &[&[u8]; ITEMS], mut place: u64) -> Vec<u8> {
    let mut count = 0;
    while place >= 1 << (3 * count) {
        place -= 1 << (3 * count);
        count += 1;
    }
    let item = |n: u32| items[(place >> (3 * n)) as usize % ITEMS];
    (0..count).flat_map(item).copied().collect()
}

/// A payload with masters around some bytes, from the outside in.
pub fn wrapped(path: &[u32], mut bytes: Vec<u8>) -> Vec<u8> {
    for id in path.iter().rev() {
        let size = size_bytes(bytes.len() as u64, 1);
        bytes = [id_bytes(*id), size, bytes].concat();
    }
    bytes
}

/// A question about the first record, with a table of 16 rows.
pub fn first(word: &Word, more: &[String], bytes: &[u8]) -> Vec<u8> {
    let asked = Asked {
        start: 0,
        size: bytes.len() as u64,
        parent: 0,
        numbers: numbers_of(16),
        bytes: bytes.to_vec(),
        spots: Vec::new(),
    };
    let zeros = word.path.iter().map(|_| "0".to_string());
    let indices: Vec<String> = zeros.chain(more.iter().cloned()).collect();
    words(word, &asked, &indices).join(" ").into_bytes()
}

/// The n-th question of a walk through a word's part of the whole list.
fn small(word: &Word, seed: u64, n: u64) -> Vec<u8> {
    let orders = if word.list { MEMBERS } else { ONE_ORDER };
    let place = walked(orders + CUT_EACH * CUT_AT, seed, n);
    if place >= orders {
        let (each, at) = ((place - orders) / CUT_AT, (place - orders) % CUT_AT);
        let own = WORDS.iter().position(|other| other.name == word.name);
        return cut((each * 8 + own.unwrap_or(0) as u64) * CUT_AT + at);
    }
    let own = CHILDREN
        .iter()
        .position(|(other, _)| other.name == word.name);
    match own {
        Some(own) => order(own as u64 * ONE_ORDER + place),
        None => member(place),
    }
}

fn order(place: u64) -> Vec<u8> {
    let (word, items) = &CHILDREN[(place / ONE_ORDER) as usize];
    let within = in_order(items, place % ONE_ORDER);
    // An audio payload is the record itself, and stands in no master.
    let path = word.path.strip_prefix(&[AUDIO]).unwrap_or(word.path);
    first(word, &[], &wrapped(path, within))
}

/// Up to two children of a tag, each list and the first two members of it.
const MEMBERS: u64 = (1 + 8 + 8 * 8) * 4 * 2;

fn member(place: u64) -> Vec<u8> {
    let (index, place) = (place % 2, place / 2);
    let list = ["track", "edition", "chapter", "attachment"][(place % 4) as usize];
    let (_, items) = CHILDREN[4];
    let within = in_order(&items, place / 4);
    let more = [list.to_string(), index.to_string()];
    first(&UID_WORD, &more, &wrapped(&[TAG], within))
}

/// Every payload of the list of cuts has fewer bytes.
const CUT_AT: u64 = 72;

/// So many payloads of each record are cut off.
const CUT_EACH: u64 = 10;

const CUTS: u64 = 8 * CUT_EACH * CUT_AT;

/// A small payload, cut off at a byte.
fn cut(place: u64) -> Vec<u8> {
    let mut random = Random::new(&[place / CUT_AT]);
    let word = WORDS[(place / CUT_AT % 8) as usize];
    loop {
        let nodes = payload(word.path[0], &mut random);
        let size = written(&nodes).0.len() as u64;
        if there(&word, &nodes) && size > 0 && size < CUT_AT {
            return cut_off(&word, &nodes, place % CUT_AT, &mut random);
        }
    }
}

/// The question for a payload whose bytes end there, with a table that just fits.
pub fn cut_off(word: &Word, nodes: &[Node], at: u64, random: &mut Random) -> Vec<u8> {
    let (mut bytes, spots) = written(nodes);
    let size = bytes.len() as u64;
    let indices = indices(word, nodes, random);
    bytes.truncate(at as usize);
    let asked = Asked {
        start: 0,
        size,
        parent: 0,
        numbers: numbers_of(spots.len() as u64),
        bytes,
        spots,
    };
    words(word, &asked, &indices).join(" ").into_bytes()
}

//! Payloads of Tracks, with the fields of tracks, video and audio in any order and
//! number, and a whole list of small questions about them.

use crate::fields::{self, masters_of, payload};
use crate::label::{type_at, TYPES};
use crate::list::List;
use crate::random::Random;
use crate::record::{cut_off, first, in_order, wrapped};
use crate::record::{AUDIO_ITEMS, ITEMS, ONE_ORDER, TRACK_WORD};
use crate::tree::{good_body, id_bytes, leaf, size_bytes, unknown_id, wide, written, Body, Node};
use tools::ids::*;

/// The fields of each level, but for the five marks.
const TRACK_FIELDS: [u32; 14] = [
    TRACK_NUMBER,
    TRACK_OWN_UID,
    TRACK_TYPE,
    TRACK_ENABLED,
    TRACK_DEFAULT,
    TRACK_FORCED,
    TRACK_LACING,
    TRACK_DURATION,
    TRACK_NAME,
    TRACK_ISO,
    TRACK_IETF,
    TRACK_CODEC,
    TRACK_PRIVATE,
    TRACK_CODEC_NAME,
];

const VIDEO_FIELDS: [u32; 7] = [
    VIDEO_WIDTH,
    VIDEO_HEIGHT,
    VIDEO_SHOWN_WIDTH,
    VIDEO_SHOWN_HEIGHT,
    VIDEO_INTERLACED,
    VIDEO_STEREO,
    VIDEO_GAMMA,
];

const AUDIO_FIELDS: [u32; 3] = [AUDIO_RATE, AUDIO_CHANNELS, AUDIO_DEPTH];

/// The old stereo mode and the other rate, which are fields of nothing.
const OLD_STEREO: u32 = 0x53B9;
const OTHER_RATE: u32 = 0x78B5;

/// Ids that are no fields: neighbours of the schema, masters among them, fields of
/// other records, a checksum and a void.
const OTHERS: [u32; 20] = [
    OLD_STEREO,
    OTHER_RATE,
    TRACK_UID,
    DISPLAY_ISO,
    DISPLAY_IETF,
    SIMPLE_IETF,
    0x9D,
    0x53C0,
    0x54B2,
    0x54B3,
    0x55B0,
    0x55EE,
    0x6D80,
    0xE2,
    0x3A9697,
    0x234E7A,
    0x2383E3,
    0x55A9,
    0xBF,
    0xEC,
];

fn fields_of(id: u32) -> &'static [u32] {
    match id {
        VIDEO => &VIDEO_FIELDS,
        AUDIO => &AUDIO_FIELDS,
        _ => &TRACK_FIELDS,
    }
}

/// A track, or the video or audio of one, with what stands in it.
pub fn master(id: u32, levels: u64, random: &mut Random) -> Node {
    let within = children(id, levels, random);
    wide(id, Body::Master(within), random)
}

/// The children of a level: once in four each of its fields, and some of them, its
/// masters and others besides. A master is nested in itself for so many levels more.
fn children(id: u32, levels: u64, random: &mut Random) -> Vec<Node> {
    let fields = fields_of(id);
    let mut nodes = Vec::new();
    if random.once_in(4) {
        for id in fields {
            put(&mut nodes, field(*id, random), random);
        }
    }
    for _ in 0..random.one_of(&[0, 1, 2, 2, 3, 3, 4, 5, 6, 8]) {
        let node = match random.below(16) {
            0..=1 => stray(id, levels, random),
            2 if levels > 0 => {
                let nested = random.one_of(&[id, id, 0x8F, 0x55B0]);
                let within = children(id, levels - 1, random);
                wide(nested, Body::Master(within), random)
            }
            3..=6 if id == TRACK => {
                let inner = random.one_of(&[VIDEO, VIDEO, AUDIO]);
                master(inner, levels.min(1), random)
            }
            7..=8 if id == TRACK => field(random.one_of(&TRACK_MARKS), random),
            _ => field(random.one_of(fields), random),
        };
        // The same again, or another one of that id.
        if random.once_in(6) {
            put(&mut nodes, node.clone(), random);
        }
        if random.once_in(6) && kind(node.id, id) != MASTER_KIND {
            put(&mut nodes, field(node.id, random), random);
        }
        put(&mut nodes, node, random);
    }
    nodes
}

/// Puts an element somewhere among others.
fn put(nodes: &mut Vec<Node>, node: Node, random: &mut Random) {
    let place = random.below(nodes.len() as u64 + 1) as usize;
    nodes.insert(place, node);
}

/// Something that is no field of a level: a field of another one, or of none.
pub fn stray(parent: u32, levels: u64, random: &mut Random) -> Node {
    match random.below(8) {
        0..=2 => {
            let level = random.one_of(&[TRACK, VIDEO, AUDIO]);
            field(random.one_of(fields_of(level)), random)
        }
        3 if levels > 0 => {
            let level = random.one_of(&[TRACK, VIDEO, AUDIO]);
            master(level, levels - 1, random)
        }
        // What a field is easily taken for.
        4..=5 if parent == VIDEO => field(OLD_STEREO, random),
        4..=5 if parent == AUDIO => field(OTHER_RATE, random),
        4 => leaf(parent, random),
        5 => field(unknown_id(random), random),
        _ => field(random.one_of(&OTHERS), random),
    }
}

/// An element with a good body.
fn field(id: u32, random: &mut Random) -> Node {
    let body = match id {
        TRACK_TYPE => track_type(random),
        VIDEO_INTERLACED => interlaced(random),
        VIDEO_STEREO | OLD_STEREO => stereo(random),
        TRACK_PRIVATE if random.once_in(2) => b"avcC".to_vec(),
        _ if TRACK_MARKS.contains(&id) => mark(random),
        _ if kind(id, 0) == MASTER_KIND => return Node::new(id, Body::Master(Vec::new())),
        _ => return fields::field(id, random),
    };
    wide(id, Body::Leaf(body), random)
}

/// A number in as few bytes as it needs, which for 0 are none, or in more.
fn bytes_of(number: u64, random: &mut Random) -> Vec<u8> {
    let needed = 8 - u64::from(number.leading_zeros()) / 8;
    let width = match random.below(4) {
        0 => random.between(needed, 8),
        1 => needed,
        _ => needed.max(1),
    };
    number.to_be_bytes()[8 - width as usize..].to_vec()
}

/// A type: mostly one that has a name.
fn track_type(random: &mut Random) -> Vec<u8> {
    let number = match random.below(4) {
        0 => random.one_of(&[0, 4, 15, 19, 31, 33, 99, 257, 1 << 32 | 2, u64::MAX]),
        1 => random.one_of(&[1, 2]),
        _ => random.one_of(&[1, 2, 3, 16, 17, 18, 32]),
    };
    bytes_of(number, random)
}

/// 0 to 3, and numbers whose last byte is one of these.
fn interlaced(random: &mut Random) -> Vec<u8> {
    let number = match random.below(4) {
        0 => random.one_of(&[4, 255, 256, 257, 258, 1 << 32 | 1, u64::MAX]),
        _ => random.below(4),
    };
    bytes_of(number, random)
}

/// 0 to 16, and numbers whose last byte is one of these.
fn stereo(random: &mut Random) -> Vec<u8> {
    let number = match random.below(4) {
        0 => random.one_of(&[0, 14, 15, 255, 256, 259, 1 << 32 | 3, u64::MAX]),
        _ => random.below(17),
    };
    bytes_of(number, random)
}

/// The bytes of a mark: none, one, or many of which the first or the last is 0.
fn mark(random: &mut Random) -> Vec<u8> {
    match random.below(10) {
        0 => Vec::new(),
        1..=2 => vec![0],
        3..=4 => vec![1],
        5 => vec![2],
        6 => vec![0, 1],
        7 => vec![1, 0],
        8 => {
            let count = random.between(9, 20);
            [vec![0], random.bytes(count)].concat()
        }
        _ => {
            let count = random.between(1, 20);
            random.bytes(count)
        }
    }
}

/// Every order of up to three children of a track, of its video and of its audio,
/// payloads cut off at every byte, and numbers as types, interlacings and stereo modes.
pub const WHOLE: List = List {
    length: ORDERS + CUTS + 3 * TYPES,
    at: |place| {
        if place < ORDERS {
            return order(place);
        }
        let place = place - ORDERS;
        if place < CUTS {
            return cut(place);
        }
        numbered(place - CUTS)
    },
};

const ORDERS: u64 = CHILDREN.len() as u64 * ONE_ORDER;

/// The children that are put in every order, as bytes, with the masters around them:
/// numbers, flags, marks, texts, settings, video and audio, set and empty.
const CHILDREN: [(&[u32], [&[u8]; ITEMS]); 8] = [
    (
        &[TRACK],
        [
            b"\xD7\x81\x05",
            b"\xD7\x80",
            b"\x73\xC5\x81\x09",
            b"\x83\x81\x01",
            b"\x83\x81\x63",
            b"\x83\x80",
            b"\x23\xE3\x83\x84\x3B\x9A\xCA\x00",
            b"\xAE\x86\xD7\x81\x07\x83\x81\x02",
        ],
    ),
    (
        &[TRACK],
        [
            b"\xB9\x81\x00",
            b"\xB9\x81\x02",
            b"\x88\x81\x00",
            b"\x88\x81\x01",
            b"\x55\xAA\x80",
            b"\x55\xAA\x81\x01",
            b"\x9C\x80",
            b"\x9C\x82\x01\x00",
        ],
    ),
    (
        &[TRACK],
        [
            b"\x55\xAB\x80",
            b"\x55\xAB\x81\x01",
            b"\x55\xAB\x82\x00\x01",
            b"\x55\xAC\x81\x02",
            b"\x55\xAD\x81\x00",
            b"\x55\xAE\x83\xFF\x00\x00",
            b"\x55\xAF\x80",
            b"\x55\xAF\x81\x01",
        ],
    ),
    (
        &[TRACK],
        [
            b"\x53\x6E\x81n",
            b"\x53\x6E\x80",
            b"\x22\xB5\x9C\x83eng",
            b"\x22\xB5\x9D\x82en",
            b"\x22\xB5\x9D\x80",
            b"\x86\x81V",
            b"\x63\xA2\x81\xFF",
            b"\x25\x86\x88\x81c",
        ],
    ),
    (
        &[TRACK],
        [
            b"\xE0\x80",
            b"\xE0\x83\xB0\x81\x05",
            b"\xE0\x84\x54\xB0\x81\x06",
            b"\xE1\x80",
            b"\xE1\x83\x9F\x81\x02",
            b"\xE1\x86\xB5\x84\x47\x2C\x44\x00",
            b"\xE0\x85\xE0\x83\xB0\x81\x07",
            b"\xB0\x81\x08",
        ],
    ),
    (
        &[TRACK, VIDEO],
        [
            b"\xB0\x82\x07\x80",
            b"\xBA\x82\x04\x38",
            b"\x54\xB0\x81\x10",
            b"\x54\xBA\x80",
            b"\x9A\x80",
            b"\x9A\x81\x01",
            b"\x9A\x81\x02",
            b"\x9A\x81\x03",
        ],
    ),
    (
        &[TRACK, VIDEO],
        [
            b"\x53\xB8\x80",
            b"\x53\xB8\x81\x0E",
            b"\x53\xB8\x81\x0F",
            b"\x53\xB9\x81\x01",
            b"\x2F\xB5\x23\x84\x3F\x80\x00\x00",
            b"\x2F\xB5\x23\x88\x40\x01\x99\x99\x99\x99\x99\x9A",
            b"\x2F\xB5\x23\x84\x7F\xC0\x00\x00",
            b"\x55\xB0\x84\x53\xB8\x81\x03",
        ],
    ),
    (&[TRACK, AUDIO], AUDIO_ITEMS),
];

fn order(place: u64) -> Vec<u8> {
    let (path, items) = &CHILDREN[(place / ONE_ORDER) as usize];
    let within = in_order(items, place % ONE_ORDER);
    first(&TRACK_WORD, &[], &wrapped(path, within))
}

/// Every payload of the list of cuts has fewer bytes.
const CUT_AT: u64 = 96;

/// So many payloads are cut off.
const CUTS: u64 = 20 * CUT_AT;

/// A small payload, cut off at a byte.
fn cut(place: u64) -> Vec<u8> {
    let mut random = Random::new(&[place / CUT_AT]);
    loop {
        let nodes = payload(TRACK, &mut random);
        let size = written(&nodes).0.len() as u64;
        let small = (CUT_AT / 2..CUT_AT).contains(&size);
        if small && !masters_of(&nodes, TRACK).is_empty() {
            return cut_off(&TRACK_WORD, &nodes, place % CUT_AT, &mut random);
        }
    }
}

/// A number as a track's type, and as an interlacing and a stereo mode of its video.
fn numbered(place: u64) -> Vec<u8> {
    let (path, id): (&[u32], u32) = match place % 3 {
        0 => (&[TRACK], TRACK_TYPE),
        1 => (&[TRACK, VIDEO], VIDEO_INTERLACED),
        _ => (&[TRACK, VIDEO], VIDEO_STEREO),
    };
    let number = type_at(place / 3);
    let needed = 8 - u64::from(number.leading_zeros()) / 8;
    let body = number.to_be_bytes()[8 - needed as usize..].to_vec();
    let element = [id_bytes(id), size_bytes(needed, 1), body].concat();
    first(&TRACK_WORD, &[], &wrapped(path, element))
}

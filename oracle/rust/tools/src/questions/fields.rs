//! Payloads of records: Attachments, Chapters, Tags and audio, with their fields in
//! any order and number, fields where they do not belong, and odd bodies.

use crate::info;
use crate::random::Random;
use crate::track;
use crate::tree::{bad_body, chain, good_body, leaf, unknown_id, wide, Body, Node};
use crate::utf8;
use tools::ids::*;

/// The levels at which fields stand, each with the ids that are fields of it and the
/// masters that lead on.
struct Level {
    id: u32,
    fields: &'static [u32],
    masters: &'static [u32],
}

const LEVELS: [Level; 8] = [
    Level {
        id: ATTACHED_FILE,
        fields: &[FILE_DESCRIPTION, FILE_NAME, FILE_MIME, FILE_DATA],
        masters: &[],
    },
    Level {
        id: EDITION,
        fields: &[
            EDITION_UID,
            EDITION_HIDDEN,
            EDITION_DEFAULT,
            EDITION_ORDERED,
        ],
        masters: &[CHAPTER],
    },
    Level {
        id: CHAPTER,
        fields: &[
            CHAPTER_UID,
            CHAPTER_START,
            CHAPTER_END,
            CHAPTER_HIDDEN,
            CHAPTER_ENABLED,
            CHAPTER_SEGMENT,
            CHAPTER_EDITION,
        ],
        masters: &[DISPLAY],
    },
    Level {
        id: DISPLAY,
        fields: &[DISPLAY_STRING, DISPLAY_ISO, DISPLAY_IETF],
        masters: &[],
    },
    Level {
        id: TAG,
        fields: &[],
        masters: &[TARGETS, SIMPLE],
    },
    Level {
        id: TARGETS,
        fields: &[
            TARGET_NUMBER,
            TARGET_TYPE,
            TRACK_UID,
            TAG_EDITION_UID,
            TAG_CHAPTER_UID,
            ATTACHMENT_UID,
        ],
        masters: &[],
    },
    Level {
        id: SIMPLE,
        fields: &[
            SIMPLE_NAME,
            SIMPLE_ISO,
            SIMPLE_IETF,
            SIMPLE_DEFAULT,
            SIMPLE_TEXT,
            SIMPLE_BINARY,
        ],
        masters: &[],
    },
    Level {
        id: AUDIO,
        fields: &[AUDIO_RATE, AUDIO_CHANNELS, AUDIO_DEPTH],
        masters: &[],
    },
];

/// Ids that are no fields: neighbours of the schema, a checksum and a void.
const OTHERS: [u32; 10] = [
    0x46AE, 0x4675, 0x437E, 0x8F, 0x6944, 0x89, 0x78B5, 0x7D7B, 0xBF, 0xEC,
];

/// The ids that are flags.
const FLAGS: [u32; 10] = [
    EDITION_HIDDEN,
    EDITION_DEFAULT,
    EDITION_ORDERED,
    CHAPTER_HIDDEN,
    CHAPTER_ENABLED,
    SIMPLE_DEFAULT,
    TRACK_ENABLED,
    TRACK_DEFAULT,
    TRACK_FORCED,
    TRACK_LACING,
];

/// The ids that are languages.
const LANGUAGES: [u32; 6] = [
    DISPLAY_ISO,
    DISPLAY_IETF,
    SIMPLE_ISO,
    SIMPLE_IETF,
    TRACK_ISO,
    TRACK_IETF,
];

fn level(id: u32) -> &'static Level {
    let found = LEVELS.iter().find(|level| level.id == id);
    found.expect("every record has a level")
}

/// A master of an id, or what may stand beside it, with so many levels in it.
type Grown = fn(u32, u64, &mut Random) -> Node;

/// The payload of a part whose records have that id, or of audio or Info.
pub fn payload(record: u32, random: &mut Random) -> Vec<Node> {
    if record == AUDIO {
        return children(AUDIO, 1, random);
    }
    if record == INFO {
        return info::payload(random);
    }
    let (master, stray): (Grown, Grown) = if record == TRACK {
        (track::master, track::stray)
    } else {
        (master, stray)
    };
    let count = random.one_of(&[0, 1, 1, 1, 1, 2, 2, 3, 5]);
    let mut nodes = Vec::new();
    for _ in 0..count {
        if random.once_in(8) {
            nodes.push(stray(record, 1, random));
        }
        nodes.push(master(record, 2, random));
        if random.once_in(8) {
            nodes.push(stray(record, 1, random));
        }
    }
    nodes
}

/// A master of a level, with what stands in it.
fn master(id: u32, levels: u64, random: &mut Random) -> Node {
    let within = children(id, levels, random);
    wide(id, Body::Master(within), random)
}

/// The children of a level: its fields, some of them several times, its masters, and
/// others. A master is nested in itself for so many levels more.
fn children(id: u32, levels: u64, random: &mut Random) -> Vec<Node> {
    let level = level(id);
    let mut nodes = Vec::new();
    for _ in 0..random.one_of(&[0, 1, 2, 2, 3, 3, 4, 5, 6, 8]) {
        let node = match random.below(16) {
            0..=1 => stray(id, levels, random),
            2 if levels > 0 => {
                let nested = if random.once_in(2) { id } else { 0x8F };
                let within = children(id, levels - 1, random);
                wide(nested, Body::Master(within), random)
            }
            3..=8 if !level.masters.is_empty() => {
                let inner = random.one_of(level.masters);
                master(inner, levels.min(1), random)
            }
            _ if level.fields.is_empty() => continue,
            _ => field(random.one_of(level.fields), random),
        };
        // The same again, or another one of that id.
        if random.once_in(6) {
            nodes.push(node.clone());
        }
        if random.once_in(6) && level.fields.contains(&node.id) {
            nodes.push(field(node.id, random));
        }
        nodes.push(node);
    }
    nodes
}

/// Something that is no field of a level: a field of another one, or of none.
fn stray(parent: u32, levels: u64, random: &mut Random) -> Node {
    match random.below(8) {
        // The other rate.
        0..=1 if parent == AUDIO => field(0x78B5, random),
        0..=2 => {
            let number = random.below(LEVELS.len() as u64) as usize;
            let ids = LEVELS[number].fields;
            let id = match ids.len() {
                0 => TRACK_UID,
                _ => random.one_of(ids),
            };
            field(id, random)
        }
        3 if levels > 0 => {
            let number = random.below(LEVELS.len() as u64) as usize;
            master(LEVELS[number].id, levels - 1, random)
        }
        4 => leaf(parent, random),
        5 => {
            let id = unknown_id(random);
            let body = good_body(kind(id, parent), random);
            wide(id, Body::Leaf(body), random)
        }
        _ => {
            let id = random.one_of(&OTHERS);
            let body = match kind(id, parent) {
                MASTER_KIND => Body::Master(Vec::new()),
                kind => Body::Leaf(good_body(kind, random)),
            };
            wide(id, body, random)
        }
    }
}

/// A field with a good body.
pub fn field(id: u32, random: &mut Random) -> Node {
    let body = match kind(id, 0) {
        UINT_KIND if FLAGS.contains(&id) => flag(random),
        UINT_KIND => number(id, random),
        FLOAT_KIND => float(random),
        STRING_KIND | UTF8_KIND => text(id, random),
        kind => good_body(kind, random),
    };
    wide(id, Body::Leaf(body), random)
}

/// A flag of 0 to 8 bytes: 0, 1, 2, and one whose last byte is 0.
fn flag(random: &mut Random) -> Vec<u8> {
    let body: &[u8] = match random.below(10) {
        0 => &[],
        1..=2 => &[0],
        3..=4 => &[1],
        5 => &[2],
        6 => &[0xFF],
        7 => &[1, 0],
        8 => &[0, 0, 0, 0, 0, 0, 0, 0],
        _ => &[0x80, 0, 0, 0, 0, 0, 0, 0],
    };
    body.to_vec()
}

/// A number of 0 to 8 bytes: a level's, a time, one around a boundary, anything.
fn number(id: u32, random: &mut Random) -> Vec<u8> {
    let number = match random.below(8) {
        0 if id == TARGET_NUMBER => random.one_of(&[10, 20, 30, 40, 50, 60, 70]),
        0 => return Vec::new(),
        1 => random.one_of(&[0, 1, 49, 51, 71]),
        2 => 1_000_000 * random.below(100_000),
        3 => random.one_of(&[1 << 31, 1 << 32, 1 << 63, (1 << 32) - 1, u64::MAX]),
        4 => random.number(),
        _ => random.below(200),
    };
    let needed = 8 - number.leading_zeros() as u64 / 8;
    let width = match random.below(4) {
        0 => random.between(needed, 8),
        _ => needed,
    };
    number.to_be_bytes()[8 - width as usize..].to_vec()
}

/// A float of 4 or 8 bytes: rates, zeros, infinities, NaNs, anything.
fn float(random: &mut Random) -> Vec<u8> {
    let rates = [
        44_100.0,
        48_000.0,
        0.0,
        -0.0,
        1.0,
        -1.0,
        f64::INFINITY,
        f64::NEG_INFINITY,
        1e-40,
        1e300,
        0.1,
    ];
    let nans_4 = [0x7FC00000, 0xFFC00000, 0x7F800001, 0xFFBFFFFF, u32::MAX];
    let nans_8 = [
        0x7FF8_0000_0000_0000,
        0xFFF8_0000_0000_0001,
        0x7FF0_0000_0000_0001,
        0xFFF7_FFFF_FFFF_FFFF,
        u64::MAX,
    ];
    match random.below(8) {
        0 => random.one_of(&nans_4).to_be_bytes().to_vec(),
        1 => random.one_of(&nans_8).to_be_bytes().to_vec(),
        2 => random.bytes(4),
        3 => random.bytes(8),
        4..=5 => (random.one_of(&rates) as f32).to_be_bytes().to_vec(),
        _ => random.one_of(&rates).to_be_bytes().to_vec(),
    }
}

/// A text: empty, a language, anything.
fn text(id: u32, random: &mut Random) -> Vec<u8> {
    let language = LANGUAGES.contains(&id);
    match random.below(8) {
        0 => Vec::new(),
        1 => vec![0],
        2..=5 if language => random.one_of(&["eng", "en", "und", "en-US"]).into(),
        _ => utf8::text(random),
    }
}

/// Puts one more element among the rows: a body that is refused, a signed integer of
/// length 0, or masters in each other down to a row of about depth 16.
pub fn spoilt(nodes: &mut Vec<Node>, record: u32, random: &mut Random) {
    if record == INFO {
        return info::spoilt(nodes, random);
    }
    let added = match random.below(10) {
        0..=4 => {
            let ids = [
                0x83,
                AUDIO_RATE,
                0x4461,
                FILE_NAME,
                FILE_MIME,
                CHAPTER_UID,
                DISPLAY_STRING,
                DISPLAY_ISO,
                SIMPLE_NAME,
                SIMPLE_TEXT,
                EDITION_HIDDEN,
            ];
            let id = random.one_of(&ids);
            let body = bad_body(kind(id, record), random);
            vec![Node::new(id, Body::Leaf(body))]
        }
        5 => vec![Node::new(random.one_of(&INT), Body::Leaf(Vec::new()))],
        _ => {
            let depth = random.one_of(&[11, 12, 13, 13, 14, 14, 15, 15, 16]);
            chain(record, depth, true, random)
        }
    };
    insert(nodes, added, 3, random);
}

/// Puts elements somewhere, mostly into a master.
fn insert(nodes: &mut Vec<Node>, added: Vec<Node>, levels: u64, random: &mut Random) {
    let masters: Vec<usize> = (0..nodes.len())
        .filter(|place| matches!(nodes[*place].body, Body::Master(_)))
        .collect();
    if levels > 0 && !masters.is_empty() && !random.once_in(4) {
        let place = random.one_of(&masters);
        if let Body::Master(within) = &mut nodes[place].body {
            return insert(within, added, levels - 1, random);
        }
    }
    let place = random.below(nodes.len() as u64 + 1) as usize;
    nodes.splice(place..place, added);
}

/// The children of the masters of an id among some elements.
pub fn masters_of(nodes: &[Node], id: u32) -> Vec<&[Node]> {
    let mut found = Vec::new();
    for node in nodes {
        if let Body::Master(within) = &node.body {
            if node.id == id {
                found.push(&within[..]);
            }
        }
    }
    found
}

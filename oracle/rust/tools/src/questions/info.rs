//! Payloads of Info, with their fields in any order and number and fields of others among them,
//! and a whole list of small questions about them and about their families.

use crate::fields;
use crate::list::List;
use crate::random::Random;
use crate::record::{cut_off, first, in_order, FAMILY_WORD, INFO_WORD, ITEMS, ONE_ORDER};
use crate::tree::{
    bad_body, chain, id_bytes, leaf, size_bytes, unknown_id, wide, written, Body, Node,
};
use tools::ids::*;

/// The fields, of which the families gather.
const FIELDS: [u32; 10] = [
    INFO_UID,
    INFO_PREVIOUS,
    INFO_NEXT,
    INFO_FAMILY,
    INFO_TITLE,
    INFO_DURATION,
    INFO_SCALE,
    INFO_DATE,
    INFO_MUXING,
    INFO_WRITING,
];

/// The one master that may stand in Info, a chapter translation.
const TRANSLATION: u32 = 0x6924;

/// Ids that are no fields: names of files, members of a translation, neighbours of the schema,
/// masters that are none here, a checksum and a void.
const OTHERS: [u32; 16] = [
    0x7384, 0x3C83AB, 0x3E83BB, 0x69FC, 0x69BF, 0x69A5, 0x4488, 0x4445, 0x2AD7B2, TRACK, VIDEO,
    EDITION, TAG, SEEK_HEAD, 0xBF, 0xEC,
];

/// The payload of an Info.
pub fn payload(random: &mut Random) -> Vec<Node> {
    children(1, random)
}

/// Once in four each of its fields, and some of them and others besides. In a translation the
/// same may stand, and is no field.
fn children(levels: u64, random: &mut Random) -> Vec<Node> {
    let mut nodes = Vec::new();
    if random.once_in(4) {
        for id in FIELDS {
            put(&mut nodes, field(id, random), random);
        }
    }
    for _ in 0..random.one_of(&[0, 1, 2, 2, 3, 3, 4, 5, 6, 8]) {
        let node = match random.below(16) {
            0..=1 => stray(random),
            2 if levels > 0 => {
                let within = children(levels - 1, random);
                wide(TRANSLATION, Body::Master(within), random)
            }
            3..=5 => field(INFO_FAMILY, random),
            6..=7 => field(random.one_of(&[INFO_DURATION, INFO_SCALE]), random),
            _ => field(random.one_of(&FIELDS), random),
        };
        // The same again, or another one of that id.
        if random.once_in(6) {
            put(&mut nodes, node.clone(), random);
        }
        if random.once_in(6) && FIELDS.contains(&node.id) {
            put(&mut nodes, field(node.id, random), random);
        }
        put(&mut nodes, node, random);
    }
    nodes
}

/// Puts an element somewhere among others.
fn put(nodes: &mut Vec<Node>, node: Node, random: &mut Random) {
    let place = random.below(nodes.len() as u64 + 1) as usize;
    nodes.insert(place, node);
}

/// Something that is no field.
fn stray(random: &mut Random) -> Node {
    match random.below(8) {
        0 => leaf(INFO, random),
        1 => fields::field(unknown_id(random), random),
        2 => {
            let ids = [
                TRACK_NAME,
                SIMPLE_NAME,
                TRACK_DURATION,
                AUDIO_RATE,
                FILE_NAME,
            ];
            fields::field(random.one_of(&ids), random)
        }
        // Some bytes that would be elements in a master.
        3 => {
            let bytes = random.one_of(&[&b"\xEC\x80"[..], b"\x0F", b"", b"\x7B\xA9\x81t"]);
            let id = random.one_of(&[VIDEO, AUDIO, EDITION, TAG, SEGMENT, SEEK_HEAD]);
            wide(id, Body::Leaf(bytes.to_vec()), random)
        }
        _ => {
            let id = random.one_of(&OTHERS);
            match kind(id, INFO) {
                BINARY_KIND => wide(id, Body::Leaf(uid(random)), random),
                _ => fields::field(id, random),
            }
        }
    }
}

/// An element with a good body.
fn field(id: u32, random: &mut Random) -> Node {
    let body = match id {
        INFO_UID | INFO_PREVIOUS | INFO_NEXT | INFO_FAMILY => uid(random),
        INFO_DURATION => duration(random),
        INFO_SCALE => scale(random),
        INFO_DATE => date(random),
        _ => return fields::field(id, random),
    };
    wide(id, Body::Leaf(body), random)
}

/// The bytes of a uid: sixteen, none, or more or less of them.
fn uid(random: &mut Random) -> Vec<u8> {
    let length = random.one_of(&[0, 1, 2, 15, 16, 16, 16, 17]);
    random.bytes(length)
}

/// A duration of 4 or 8 bytes: those of films, and around what 64 bits of nanoseconds hold.
fn duration(random: &mut Random) -> Vec<u8> {
    let lengths = [
        5_400_000.0,
        1.0,
        0.5,
        1234.567,
        18_446_744_073_709.55,
        18_446_744_073_709.56,
        18_446_744_073_709_551_615.0,
        9_007_199_254_740_993.0,
        -5.0,
        0.0,
        -0.0,
        1e300,
        -1e300,
        1e-9,
        f64::INFINITY,
    ];
    match random.below(4) {
        0 => random.one_of(&lengths).to_be_bytes().to_vec(),
        1 => (random.one_of(&lengths) as f32).to_be_bytes().to_vec(),
        2 => ((random.below(10_000_000) as f64) / 1000.0)
            .to_be_bytes()
            .to_vec(),
        _ => match fields::field(INFO_DURATION, random).body {
            Body::Leaf(body) => body,
            Body::Master(_) => unreachable!("a duration is a leaf"),
        },
    }
}

/// A scale: mostly that of most recordings.
fn scale(random: &mut Random) -> Vec<u8> {
    let number = match random.below(8) {
        0 => return Vec::new(),
        1 => random.one_of(&[0, 1, 128, 255, 1_000_001, 10_000_000]),
        2 => random.one_of(&[1 << 32, 1 << 53, (1 << 53) + 1, 1 << 63, u64::MAX]),
        3 => random.number(),
        _ => 1_000_000,
    };
    let needed = 8 - u64::from(number.leading_zeros()) / 8;
    let width = random.one_of(&[needed, needed, 8]);
    number.to_be_bytes()[8 - width as usize..].to_vec()
}

/// A date of both signs.
fn date(random: &mut Random) -> Vec<u8> {
    let number = match random.below(6) {
        0 => random.one_of(&[0, 1, -1, i64::MAX, i64::MIN]),
        1 => random.number() as i64,
        2 => -(random.below(1 << 50) as i64),
        _ => random.below(1 << 60) as i64,
    };
    number.to_be_bytes().to_vec()
}

/// Puts one more element among the others: a field that is refused, a signed integer of length
/// 0, or masters in each other down to a row of about depth 16.
pub fn spoilt(nodes: &mut Vec<Node>, random: &mut Random) {
    let added = match random.below(8) {
        0..=4 => {
            let id = random.one_of(&FIELDS);
            vec![Node::new(id, Body::Leaf(bad_body(kind(id, INFO), random)))]
        }
        5 => vec![Node::new(random.one_of(&INT), Body::Leaf(Vec::new()))],
        _ => {
            let depth = random.one_of(&[13, 14, 15, 15, 16, 16]);
            chain(INFO, depth, true, random)
        }
    };
    let place = random.below(nodes.len() as u64 + 1) as usize;
    nodes.splice(place..place, added);
}

/// How many families a payload has.
pub fn families(nodes: &[Node]) -> u64 {
    nodes.iter().filter(|node| node.id == INFO_FAMILY).count() as u64
}

/// Every order of up to three children, those of up to two with their families, every field with
/// a body of 0 to 16 bytes, and payloads cut off at every byte.
pub const WHOLE: List = List {
    length: ORDERS + MEMBERS + WIDTHS + CUTS,
    at: |place| {
        if place < ORDERS {
            return order(place);
        }
        let place = place - ORDERS;
        if place < MEMBERS {
            return member(place);
        }
        let place = place - MEMBERS;
        if place < WIDTHS {
            return width(place);
        }
        cut(place - WIDTHS)
    },
};

const ORDERS: u64 = CHILDREN.len() as u64 * ONE_ORDER;

/// The children that are put in every order, as bytes: uids and families, durations and scales,
/// dates and texts, set and empty; and what is no field.
const CHILDREN: [[&[u8]; ITEMS]; 4] = [
    [
        b"\x73\xA4\x81\x01",
        b"\x73\xA4\x80",
        b"\x3C\xB9\x23\x81\x02",
        b"\x3E\xB9\x23\x81\x03",
        b"\x44\x44\x81\x04",
        b"\x44\x44\x80",
        b"\x69\x24\x84\x44\x44\x81\x05",
        b"\xE0\x81\x00",
    ],
    [
        b"\x44\x89\x84\x40\xA0\x00\x00",
        b"\x44\x89\x88\x40\x14\x00\x00\x00\x00\x00\x00",
        b"\x44\x89\x84\x7F\xC0\x00\x00",
        b"\x44\x89\x84\xC0\xA0\x00\x00",
        b"\x44\x89\x88\x43\xF0\x00\x00\x00\x00\x00\x00",
        b"\x2A\xD7\xB1\x80",
        b"\x2A\xD7\xB1\x83\x0F\x42\x40",
        b"\x2A\xD7\xB1\x88\xFF\xFF\xFF\xFF\xFF\xFF\xFF\xFF",
    ],
    [
        b"\x44\x61\x88\x00\x00\x00\x00\x00\x00\x00\x00",
        b"\x44\x61\x88\xFF\xFF\xFF\xFF\xFF\xFF\xFF\xFF",
        b"\x44\x61\x88\x80\x00\x00\x00\x00\x00\x00\x01",
        b"\x7B\xA9\x81t",
        b"\x7B\xA9\x80",
        b"\x4D\x80\x81m",
        b"\x57\x41\x81w",
        b"\x69\x24\x84\x7B\xA9\x81x",
    ],
    [
        b"\x7B\xA9\x81\x00",
        b"\x4D\x80\x80",
        b"\x57\x41\x80",
        b"\x2A\xD7\xB1\x81\x01",
        b"\x44\x89\x84\x3F\x80\x00\x00",
        b"\x69\x24\x86\x69\x24\x83\x7B\xA9\x80",
        b"\xFB\x80",
        b"\xEC\x80",
    ],
];

fn order(place: u64) -> Vec<u8> {
    let items = &CHILDREN[(place / ONE_ORDER) as usize];
    first(&INFO_WORD, &[], &in_order(items, place % ONE_ORDER))
}

/// Up to two children, and the first three families of them.
const MEMBERS: u64 = (1 + 8 + 8 * 8) * 3;

fn member(place: u64) -> Vec<u8> {
    let within = in_order(&CHILDREN[0], place / 3);
    first(&FAMILY_WORD, &[(place % 3).to_string()], &within)
}

const WIDTHS: u64 = FIELDS.len() as u64 * 17;

/// A field with so many bytes, which are digits.
fn width(place: u64) -> Vec<u8> {
    let (id, width) = (FIELDS[(place / 17) as usize], place % 17);
    let body = b"0123456789ABCDEF"[..width as usize].to_vec();
    let bytes = [id_bytes(id), size_bytes(width, 1), body].concat();
    first(&INFO_WORD, &[], &bytes)
}

/// Every payload of the list of cuts has fewer bytes.
const CUT_AT: u64 = 96;

const CUTS: u64 = 20 * CUT_AT;

/// A small payload, cut off at a byte.
fn cut(place: u64) -> Vec<u8> {
    let mut random = Random::new(&[place / CUT_AT]);
    let word = [INFO_WORD, INFO_WORD, FAMILY_WORD][(place / CUT_AT % 3) as usize];
    loop {
        let nodes = payload(&mut random);
        let size = written(&nodes).0.len() as u64;
        if (CUT_AT / 2..CUT_AT).contains(&size) {
            return cut_off(&word, &nodes, place % CUT_AT, &mut random);
        }
    }
}

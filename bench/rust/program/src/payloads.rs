//! The payloads that are read, the same in every run.

use crate::inputs::{name, Chance, HEAD, NAMES, TRACK};
use matroska::opened::ids::*;
use matroska::opened::number::{number_of, MASTER};

/// Elements one after the other, and the id of their parent.
pub struct Payload {
    pub name: &'static str,
    pub bytes: Vec<u8>,
    pub parent: u32,
}

impl Payload {
    pub fn size(&self) -> u64 {
        self.bytes.len() as u64
    }
}

/// All payloads. None has more than 4,096 elements, nor one deeper than 15.
pub fn payloads() -> Vec<Payload> {
    let chance = &mut Chance::new(5);
    vec![
        Payload {
            name: "a recording's head",
            bytes: elements(chance, &[INFO, TRACKS, CHAPTERS, TAGS], SEGMENT),
            parent: SEGMENT,
        },
        Payload {
            name: "siblings of two bytes",
            bytes: SIBLING.repeat(4_096),
            parent: SEGMENT,
        },
        Payload {
            name: "nested to depth 15",
            bytes: nested(15).repeat(256),
            parent: EDITIONENTRY,
        },
        Payload {
            name: "a leaf of 1 MiB",
            bytes: attachments(chance),
            parent: ATTACHMENTS,
        },
        Payload {
            name: "texts",
            bytes: (0..NAMES)
                .flat_map(|_| element(TAGSTRING, &name(chance)))
                .collect(),
            parent: SIMPLETAG,
        },
    ]
}

/// A leaf of two bytes: an empty Void.
pub const SIBLING: [u8; 2] = [0xEC, 0x80];

/// A chapter's id in so many atoms, each in the one before.
pub fn nested(depth: usize) -> Vec<u8> {
    (0..depth).fold(element(CHAPTERUID, &[1]), |body, _| {
        element(CHAPTERATOM, &body)
    })
}

/// An attached file of 1 MiB, and 16 small ones.
fn attachments(chance: &mut Chance) -> Vec<u8> {
    let data = element(FILEDATA, &bytes(chance, 1 << 20));
    let small = elements(chance, &[ATTACHEDFILE; 16], ATTACHMENTS);
    [element(ATTACHEDFILE, &data), small].concat()
}

/// An element: its id, its size in as few bytes as that takes, and its body.
pub fn element(id: u32, body: &[u8]) -> Vec<u8> {
    [&id_bytes(id), &size(body.len()), body].concat()
}

/// The bytes of an id with its marker.
pub fn id_bytes(id: u32) -> Vec<u8> {
    let id = id.to_be_bytes();
    let first = id.iter().take_while(|&&byte| byte == 0).count();
    id[first..].to_vec()
}

/// A size behind its marker. One of all ones would mean an unknown size to others.
fn size(size: usize) -> Vec<u8> {
    let width = (1..8).find(|width| (size + 1) >> (7 * width) == 0);
    wide(size, width.unwrap_or(8))
}

/// A size behind its marker, in so many bytes.
pub fn wide(size: usize, width: usize) -> Vec<u8> {
    let marked = size as u64 | 1 << (7 * width);
    marked.to_be_bytes()[8 - width..].to_vec()
}

/// An entry of a seek head; it has the same length for every position.
pub fn entry(id: u32, position: u64) -> Vec<u8> {
    let id = element(SEEKID, &id.to_be_bytes());
    let position = element(SEEKPOSITION, &position.to_be_bytes());
    element(SEEK, &[id, position].concat())
}

/// Elements of these ids, each with a body of its kind.
pub fn elements(chance: &mut Chance, ids: &[u32], parent: u32) -> Vec<u8> {
    let mut all = Vec::new();
    for (place, &id) in ids.iter().enumerate() {
        let body = match number_of(id, Some(parent)) {
            MASTER => elements(chance, &children(id, place), id),
            2 | 3 => {
                let width = 1 + chance.below(4);
                bytes(chance, width)
            }
            4 => b"eng".to_vec(),
            5 => name(chance),
            7 | 8 => bytes(chance, 8),
            _ => bytes(chance, 16),
        };
        all.extend(element(id, &body));
    }
    all
}

pub fn bytes(chance: &mut Chance, count: usize) -> Vec<u8> {
    (0..count).map(|_| chance.below(256) as u8).collect()
}

/// What a master of a recording's head holds, in a usual order; of three tracks the first is a video.
fn children(id: u32, place: usize) -> Vec<u32> {
    match id {
        TRACKENTRY => {
            let other = if place == 0 { AUDIO } else { VIDEO };
            TRACK.into_iter().filter(|&id| id != other).collect()
        }
        CHAPTERS => vec![EDITIONENTRY],
        EDITIONENTRY => [vec![EDITIONUID, EDITIONFLAGDEFAULT], vec![CHAPTERATOM; 40]].concat(),
        TAGS => vec![TAG; 12],
        TAG => [vec![TARGETS], vec![SIMPLETAG; 5]].concat(),
        _ => {
            let listed = HEAD.iter().find(|(parent, _)| *parent == id);
            listed.map_or(Vec::new(), |(_, children)| children.to_vec())
        }
    }
}

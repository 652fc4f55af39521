//! Reads headers by ours and by the crate: the answers first, then the times.

use crate::inputs::{Chance, Pairs};
use crate::ours::{self, Header};
use crate::payloads::{id_bytes, wide};
use crate::reads::number;
use crate::timing::Report;
use matroska::opened::ids::SEGMENT;
use matroska::opened::number::{number_of, MASTER};
use matroska::opened::read_element_id_size;
use std::hint::black_box;
use std::process::exit;

/// Headers one after the other, without their payloads.
pub struct Headers {
    name: &'static str,
    bytes: Vec<u8>,
    places: Vec<u64>,
}

/// How many headers of any length there are.
const ANY: usize = 16_384;

/// How many bytes of noise there are: a header is read at each.
const NOISE: usize = 65_536;

/// The marker of an id of one to four octets.
const MARKERS: [u32; 4] = [0x80, 0x4000, 0x20_0000, 0x1000_0000];

/// Both mixes of headers.
pub fn headers(recording: &Pairs) -> Vec<Headers> {
    let chance = &mut Chance::new(7);
    vec![head(recording, chance), any(chance)]
}

impl Headers {
    fn new(name: &'static str) -> Headers {
        Headers {
            name,
            bytes: Vec::new(),
            places: Vec::new(),
        }
    }

    fn push(&mut self, id: u32, size: usize, octets: usize) {
        self.places.push(self.bytes.len() as u64);
        self.bytes.extend(id_bytes(id));
        self.bytes.extend(wide(size, octets));
    }
}

/// The ids of a recording's head. A part has a size of eight octets, another master one of two, and a leaf one of one.
fn head(recording: &Pairs, chance: &mut Chance) -> Headers {
    let mut headers = Headers::new("a recording's head");
    for (&id, &parent) in recording.ids.iter().zip(&recording.parents) {
        match number_of(id, Some(parent)) {
            MASTER if parent == SEGMENT => headers.push(id, chance.below(1 << 20), 8),
            MASTER => headers.push(id, chance.below(1 << 10), 2),
            _ => headers.push(id, chance.below(44), 1),
        }
    }
    headers
}

/// Any id of one to four octets with any size of one to eight.
fn any(chance: &mut Chance) -> Headers {
    let mut headers = Headers::new("any of 2 to 12 bytes");
    for _ in 0..ANY {
        let marker = MARKERS[chance.below(MARKERS.len())];
        let id = marker | chance.below(marker as usize) as u32;
        let octets = 1 + chance.below(8);
        let size = chance.below(1 << (7 * octets).min(32));
        headers.push(id, size, octets);
    }
    headers
}

/// What a header says, or the number of the refusal.
type Said = Result<Header, u64>;

fn by_crate(recording: &[u8], at: u64) -> Said {
    let (id, size, length) =
        read_element_id_size(&mut &recording[at as usize..]).map_err(|error| number(&error))?;
    Ok(Header {
        id: id.into(),
        size,
        length,
    })
}

/// Every header, every place of noise, and the same with the recording cut soon after.
pub fn check(headers: &[Headers]) {
    for headers in headers {
        let Headers { name, bytes, .. } = headers;
        for &at in &headers.places {
            same(name, bytes, at);
        }
        let each = headers.places.iter().map(|&at| by_crate(bytes, at));
        let all = each.map(|said| added(&said)).fold(0, u64::wrapping_add);
        if ours::headers(bytes, &headers.places) != all {
            eprintln!("bench: headers, {name}: ours in one call are not those of the crate");
            exit(1);
        }
    }
    let chance = &mut Chance::new(8);
    // Half of the bytes are small, so that long and too long ids and sizes are met.
    let noise: Vec<u8> = (0..NOISE)
        .map(|_| chance.below(256) >> (8 * chance.below(2)).min(chance.below(9)))
        .map(|byte| byte as u8)
        .collect();
    for at in 0..=noise.len() {
        let end = noise.len().min(at + chance.below(16));
        same("noise", &noise, at as u64);
        same("noise, cut", &noise[..end], at as u64);
    }
}

fn same(name: &str, recording: &[u8], at: u64) {
    let (ours, theirs) = (ours::header(recording, at), by_crate(recording, at));
    if ours != theirs {
        eprintln!("bench: header at {at}, {name}: ours {ours:?}, the crate {theirs:?}");
        exit(1);
    }
}

/// The sum of a header's numbers.
fn added(said: &Said) -> u64 {
    let Ok(header) = said else { return 0 };
    let both = header.id.wrapping_add(header.size);
    both.wrapping_add(header.length)
}

/// The sum of the numbers of all headers.
fn sum(headers: &Headers, read: impl Fn(&[u8], u64) -> Said) -> u64 {
    let Headers { bytes, places, .. } = black_box(headers);
    let each = places.iter().map(|&at| added(&read(bytes, at)));
    each.fold(0, u64::wrapping_add)
}

pub fn time(headers: &Headers, report: &mut Report) {
    let count = headers.places.len();
    report.compare(
        &format!("header, {}", headers.name),
        &format!("a header ({count} in {} bytes)", headers.bytes.len()),
        count,
        sum(headers, by_crate),
        &[
            (
                "ours, all in one call",
                Box::new(|| {
                    let Headers { bytes, places, .. } = black_box(headers);
                    ours::headers(bytes, places)
                }),
            ),
            (
                "ours, one call each",
                Box::new(|| sum(headers, ours::header)),
            ),
            ("the crate's header", Box::new(|| sum(headers, by_crate))),
        ],
    );
}

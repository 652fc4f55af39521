//! Reads bodies of each kind by ours and by the crate: the answers first, then the times.

use crate::inputs::{name, Chance};
use crate::ours::{self, Body, Sum};
use crate::payloads::bytes;
use crate::reads::number;
use crate::timing::Report;
use matroska::opened::ids::SEGMENT;
use matroska::opened::number::listed;
use matroska::opened::{Element, ElementType};
use std::hint::black_box;
use std::process::exit;

/// Bodies of one kind, one after the other: of each the id, the place and the size.
pub struct Bodies {
    name: &'static str,
    bytes: Vec<u8>,
    ids: Vec<u32>,
    places: Vec<u64>,
    sizes: Vec<u64>,
}

/// How many bodies there are of each kind.
const COUNT: usize = 4_096;

/// The parent of all: one that changes no kind.
const PARENT: u32 = SEGMENT;

/// How many bodies of each kind are read with a wrong size, cut and damaged before the timing.
const BROKEN: usize = 1_000;

/// The kinds, each with its number and with how a body is made.
type Make = fn(&mut Chance) -> Vec<u8>;
const KINDS: [(&str, u64, Make); 7] = [
    ("unsigned", 3, |chance| some(chance, 1, 8)),
    ("signed", 2, |chance| some(chance, 1, 8)),
    ("float", 7, |chance| {
        let length = 4 + 4 * chance.below(2);
        bytes(chance, length)
    }),
    ("date", 8, |chance| bytes(chance, 8)),
    ("string", 4, |chance| {
        let length = 3 + chance.below(18);
        (0..length).map(|_| b'A' + chance.below(26) as u8).collect()
    }),
    ("UTF-8", 5, name),
    ("binary", 6, |chance| some(chance, 4, 64)),
];

/// Any bytes, as few or as many as that.
fn some(chance: &mut Chance, few: usize, many: usize) -> Vec<u8> {
    let length = few + chance.below(many - few + 1);
    bytes(chance, length)
}

/// All bodies. The ids are any of the list that have the kind.
pub fn bodies() -> Vec<Bodies> {
    let chance = &mut Chance::new(9);
    KINDS
        .map(|(name, number, make)| {
            let listed: Vec<u32> = listed()
                .into_iter()
                .filter_map(|(id, kind)| (kind == number).then_some(id))
                .collect();
            let mut bodies = Bodies {
                name,
                bytes: Vec::new(),
                ids: Vec::new(),
                places: Vec::new(),
                sizes: Vec::new(),
            };
            for _ in 0..COUNT {
                let body = make(chance);
                bodies.ids.push(chance.one_of(&listed));
                bodies.places.push(bodies.bytes.len() as u64);
                bodies.sizes.push(body.len() as u64);
                bodies.bytes.extend(body);
            }
            bodies
        })
        .into()
}

/// A body's value, or the number of the refusal. Of a text and of bytes it is what stands there.
#[derive(Debug, PartialEq)]
enum Value {
    Signed(i64),
    Unsigned(u64),
    /// The bits; none for NaN.
    Float(Option<u64>),
    Date(i64),
    Text(Vec<u8>),
    Bytes(Vec<u8>),
    Master,
}

fn float(value: f64) -> Value {
    Value::Float((!value.is_nan()).then(|| value.to_bits()))
}

fn by_ours(recording: &[u8], id: u32, at: u64, size: u64) -> Result<Value, u64> {
    let body = ours::body(recording, id, PARENT, at, size);
    let part = |body: &Body| {
        assert_eq!(body.at, at, "a part stands where it was asked for");
        recording[at as usize..][..body.length as usize].to_vec()
    };
    match (body.refused, body.kind) {
        (0, 1) => Ok(Value::Master),
        (0, 2) => Ok(Value::Signed(body.signed)),
        (0, 3) => Ok(Value::Unsigned(body.unsigned)),
        (0, 5) => Ok(Value::Text(part(&body))),
        (0, 6) => Ok(Value::Bytes(part(&body))),
        (0, 7) => Ok(float(body.float)),
        (0, 8) => Ok(Value::Date(body.signed)),
        (refused, _) => Err(refused),
    }
}

fn read(recording: &[u8], id: u32, at: u64, size: u64) -> matroska::opened::Result<ElementType> {
    Element::parse_body(&mut &recording[at as usize..], id, size, Some(PARENT))
}

fn by_crate(recording: &[u8], id: u32, at: u64, size: u64) -> Result<Value, u64> {
    let body = read(recording, id, at, size).map_err(|error| number(&error))?;
    Ok(match body {
        ElementType::Master(_) => Value::Master,
        ElementType::Int(value) => Value::Signed(value),
        ElementType::UInt(value) => Value::Unsigned(value),
        ElementType::String(text) | ElementType::UTF8(text) => Value::Text(text.into_bytes()),
        ElementType::Binary(bytes) => Value::Bytes(bytes),
        ElementType::Float(value) => float(value),
        ElementType::Date(date) => Value::Date(date.into()),
    })
}

/// Every body; and some with another size, in a recording that is cut, and in one that is damaged.
pub fn check(bodies: &[Bodies]) {
    let chance = &mut Chance::new(10);
    for bodies in bodies {
        let Bodies { name, bytes, .. } = bodies;
        for (id, at, size) in bodies.each() {
            same(name, bytes, id, at, size);
        }
        for _ in 0..BROKEN {
            let place = chance.below(COUNT);
            let (id, at) = (bodies.ids[place], bodies.places[place]);
            let size = bodies.sizes[place];
            // Of no bytes a signed integer is 0 by ours and refused by the crate (docs/DIFFERENCES.md).
            same(name, bytes, id, at, 1 + chance.below(70) as u64);
            let end = at as usize + chance.below(size as usize + 1);
            same(name, &bytes[..end], id, at, size);
            let mut damaged = bytes[at as usize..][..size as usize].to_vec();
            let byte = chance.below(damaged.len());
            damaged[byte] ^= 1 << chance.below(8);
            same(name, &damaged, id, 0, size);
        }
        if bodies.in_one_call() != bodies.one_by_one() || bodies.in_one_call() != bodies.crates() {
            eprintln!("bench: bodies, {name}: the sums of ours and of the crate's differ");
            exit(1);
        }
    }
}

fn same(name: &str, recording: &[u8], id: u32, at: u64, size: u64) {
    let ours = by_ours(recording, id, at, size);
    let theirs = by_crate(recording, id, at, size);
    if ours != theirs {
        eprintln!(
            "bench: body of {id:X}, {size} bytes at {at}, {name}: ours {ours:?}, the crate {theirs:?}"
        );
        exit(1);
    }
}

impl Bodies {
    fn each(&self) -> impl Iterator<Item = (u32, u64, u64)> + '_ {
        let places = self.places.iter().zip(&self.sizes);
        let each = self.ids.iter().zip(places);
        each.map(|(&id, (&at, &size))| (id, at, size))
    }

    fn in_one_call(&self) -> u64 {
        let Bodies {
            bytes,
            ids,
            places,
            sizes,
            ..
        } = black_box(self);
        ours::bodies(bytes, PARENT, ids, places, sizes).number()
    }

    fn one_by_one(&self) -> u64 {
        let bodies = black_box(self);
        let mut sum = Sum::default();
        for (id, at, size) in bodies.each() {
            let body = ours::body(&bodies.bytes, id, PARENT, at, size);
            match body.kind {
                2 | 8 => sum.signed(body.signed),
                3 => sum.unsigned(body.unsigned),
                5 | 6 => sum.unsigned(body.length),
                7 => sum.float(body.float),
                _ => {}
            }
        }
        sum.number()
    }

    fn crates(&self) -> u64 {
        let bodies = black_box(self);
        let mut sum = Sum::default();
        for (id, at, size) in bodies.each() {
            // What was copied is looked at, so that no copy is left out.
            match read(&bodies.bytes, id, at, size) {
                Ok(ElementType::Int(value)) => sum.signed(value),
                Ok(ElementType::UInt(value)) => sum.unsigned(value),
                Ok(ElementType::String(text) | ElementType::UTF8(text)) => {
                    sum.unsigned(black_box(&text).len() as u64);
                }
                Ok(ElementType::Binary(bytes)) => sum.unsigned(black_box(&bytes).len() as u64),
                Ok(ElementType::Float(value)) => sum.float(value),
                Ok(ElementType::Date(date)) => sum.signed(date.into()),
                Ok(ElementType::Master(_)) | Err(_) => {}
            }
        }
        sum.number()
    }
}

pub fn time(bodies: &Bodies, report: &mut Report) {
    report.compare(
        &format!("body, {}", bodies.name),
        &format!("a body ({COUNT} in {} bytes)", bodies.bytes.len()),
        COUNT,
        bodies.crates(),
        &[
            ("ours, all in one call", Box::new(|| bodies.in_one_call())),
            ("ours, one call each", Box::new(|| bodies.one_by_one())),
            ("the crate's body", Box::new(|| bodies.crates())),
        ],
    );
}

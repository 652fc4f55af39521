//! Info, built by the crate's `Info::parse` from a payload in which every text and every run of
//! bytes is replaced by its own address and length. The crate builds it from bytes alone, so the
//! retold tree is written down again.

use super::records::{agree, byte_range, nth, number, option_range, range, unset, Numbers, Source};
use super::{call, float, Outcome, Reader};
use crate::ebml::{Element, ElementType};
use crate::{ids, Info, Parseable};
use question::Payload;
use std::time::Duration;

/// The scale of an Info that has none.
const SCALE: u64 = 1_000_000;

/// An Info payload is itself the record, so there is only the 0th.
fn read(payload: &Payload, k: u64) -> Outcome<Source<'_>> {
    let source = Source::read(payload, ids::INFO)?;
    nth(std::iter::once(()), k)?;
    Ok(source)
}

/// What the crate makes of some bytes from a place on.
fn parsed(bytes: &[u8], at: u64, size: u64) -> Outcome<Info> {
    call(|| Info::parse(&mut Reader::at(bytes, at), size))
}

/// The same of a payload that is written down.
fn parsed_again(elements: &[Element]) -> Outcome<Info> {
    let bytes = written(elements);
    parsed(&bytes, 0, bytes.len() as u64)
}

/// Info with ranges, checked against what the crate makes of the bytes.
fn built(source: &Source) -> Outcome<Info> {
    let built = parsed_again(&source.retell(Numbers::True))?;
    let payload = source.payload;
    let own = parsed(&payload.bytes, payload.start, payload.size)?;
    let bytes = |range: &Option<Vec<u8>>| range.as_deref().map(|range| source.bytes(range));
    let families = built.family_uids.iter().map(|range| source.bytes(range));
    agree(
        own == Info {
            uid: bytes(&built.uid),
            prev_uid: bytes(&built.prev_uid),
            next_uid: bytes(&built.next_uid),
            family_uids: families.collect(),
            title: built.title.as_deref().map(|range| source.text(range)),
            muxing_app: source.text(&built.muxing_app),
            writing_app: source.text(&built.writing_app),
            ..built.clone()
        },
    )?;
    Ok(built)
}

pub(crate) fn info(payload: &Payload, k: u64) -> Outcome<String> {
    let source = read(payload, k)?;
    let now = built(&source)?;
    let empty = parsed(&[], 0, 0)?;
    let bytes = |now: &Option<Vec<u8>>, empty: &Option<Vec<u8>>| match now {
        None => unset(now, empty),
        Some(range) => byte_range(range, &[]),
    };
    let scale = scale(&source)?;
    let duration = duration(&source);
    // The crate shows the product of both in nanoseconds.
    let shown = duration.map(|duration| nanoseconds(duration, scale.unwrap_or(SCALE)));
    agree(now.duration == shown.map(Duration::from_nanos))?;
    let duration = match duration {
        None => unset(now.duration, empty.duration)?,
        Some(duration) => float(duration),
    };
    let date = match now.date_utc.clone() {
        None => unset(&now.date_utc, &empty.date_utc)?,
        Some(date) => i64::from(date).to_string(),
    };
    Ok(format!(
        "uid {} previous {} next {} families {} title {} duration {} scale {} date {} muxing {} \
         writing {} {}",
        bytes(&now.uid, &empty.uid)?,
        bytes(&now.prev_uid, &empty.prev_uid)?,
        bytes(&now.next_uid, &empty.next_uid)?,
        now.family_uids.len(),
        option_range(now.title.as_deref(), empty.title.as_deref())?,
        duration,
        number(scale, None)?,
        date,
        range(&now.muxing_app, &empty.muxing_app)?,
        range(&now.writing_app, &empty.writing_app)?,
        source.rows()
    ))
}

pub(crate) fn family(payload: &Payload, k: u64, i: u64) -> Outcome<String> {
    let source = read(payload, k)?;
    let uid = nth(built(&source)?.family_uids.into_iter(), i)?;
    Ok(format!("uid {} {}", byte_range(&uid, &[])?, source.rows()))
}

/// The float of the last Duration. That there is one, and how long it is, has to be what the
/// crate shows.
fn duration(source: &Source) -> Option<f64> {
    let mut floats = source.elements.iter().rev();
    floats.find_map(|element| match element.val {
        ElementType::Float(number) if element.id == ids::DURATION => Some(number),
        _ => None,
    })
}

/// The last scale, which the crate keeps to itself. With a Duration of 1 behind all else it
/// shows the scale as its duration, and another one if it is set and every number is changed.
fn scale(source: &Source) -> Outcome<Option<u64>> {
    let mut numbers = source.elements.iter().rev();
    let scale = numbers.find_map(|element| match element.val {
        ElementType::UInt(number) if element.id == ids::TIMECODESCALE => Some(number),
        _ => None,
    });
    let shown = |numbers| {
        let mut elements = source.retell(numbers);
        elements.push(Element {
            id: ids::DURATION,
            size: 0,
            val: ElementType::Float(1.0),
        });
        parsed_again(&elements).map(|info| info.duration)
    };
    let of = |scale| Some(Duration::from_nanos(nanoseconds(1.0, scale)));
    agree(shown(Numbers::True)? == of(scale.unwrap_or(SCALE)))?;
    agree(scale.is_some() == (shown(Numbers::Other)? != of(SCALE)))?;
    Ok(scale)
}

/// A product in nanoseconds: none if it is negative or no number, and at most 2^64-1.
fn nanoseconds(duration: f64, scale: u64) -> u64 {
    let product = duration * scale as f64;
    match product {
        product if product.is_nan() || product <= 0.0 => 0,
        product if product >= 2f64.powi(64) => u64::MAX,
        product => product as u64,
    }
}

/// The bytes of a tree, with sizes of eight bytes.
fn written(elements: &[Element]) -> Vec<u8> {
    let mut bytes = Vec::new();
    for element in elements {
        let id = element.id.to_be_bytes();
        let zeros = id.iter().take_while(|byte| **byte == 0).count();
        let body = match &element.val {
            ElementType::Master(children) => written(children),
            ElementType::Int(number) => number.to_be_bytes().to_vec(),
            ElementType::UInt(number) => number.to_be_bytes().to_vec(),
            ElementType::Float(number) => number.to_bits().to_be_bytes().to_vec(),
            ElementType::Date(date) => i64::from(date.clone()).to_be_bytes().to_vec(),
            ElementType::String(text) | ElementType::UTF8(text) => text.clone().into_bytes(),
            ElementType::Binary(part) => part.clone(),
        };
        bytes.extend(&id[zeros..]);
        bytes.extend((1 << 56 | body.len() as u64).to_be_bytes());
        bytes.extend(body);
    }
    bytes
}

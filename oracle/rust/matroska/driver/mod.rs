//! Answers the questions of the question language with the crate's own code.
//! The module stands inside the build copy of the crate, so that it can call
//! the crate's private readers and builders.

mod info;
mod open;
mod part;
mod places;
mod read;
mod reader;
mod records;

use self::reader::{Circle, Reader};
use crate::ebml::{self, Element, ElementType, MatroskaError};
use question::Question;
use std::panic::{catch_unwind, AssertUnwindSafe};

/// How a call of the crate ended when it gave no value.
#[derive(Debug, PartialEq)]
pub(crate) enum Failed {
    /// The crate answered with an error; the text names its number.
    Refused(String),
    /// The crate panicked, went in a circle or asked for too much memory.
    Stopped(&'static str),
    /// The driver contradicts the crate: an error of this module.
    Fault,
}

type Outcome<T> = std::result::Result<T, Failed>;

/// The answer to one line, given without its line feed.
pub fn answer(line: &[u8]) -> String {
    match question::parse(line) {
        None => "bad question".to_string(),
        Some(question) => {
            // Panics of the crate are caught where it is called; one that
            // comes up to here is the driver's own.
            let told = catch_unwind(AssertUnwindSafe(|| ask(&question)));
            told.unwrap_or_else(|_| "driver fault".to_string())
        }
    }
}

fn ask(question: &Question) -> String {
    use Question::*;

    match question {
        Header { at, bytes } => plain(header(*at, bytes)),
        Kind { id, parent } => plain(kind(*id, *parent).map(|kind| format!("kind {}", kind))),
        Utf8 { bytes } => match String::from_utf8(bytes.clone()) {
            Ok(_) => "utf8 yes".to_string(),
            Err(_) => "utf8 no".to_string(),
        },
        Body {
            id,
            parent,
            at,
            size,
            bytes,
            ..
        } => plain(body(*id, *parent, *at, *size, bytes)),
        Read {
            start,
            size,
            parent,
            bytes,
            ..
        } => with_table(
            read::read(*start, *size, *parent, bytes).map(|(_, rows)| read::table(&rows)),
        ),
        Whose {
            start,
            size,
            parent,
            address,
            bytes,
            ..
        } => with_table(places::whose(*start, *size, *parent, *address, bytes)),
        Payload {
            start,
            size,
            parent,
            numbers,
            row,
            bytes,
        } => match read::read(*start, *size, *parent, bytes) {
            Ok((_, rows)) => plain(places::payload(&rows, *numbers, *row, bytes)),
            Err(failed) => with_table(Err(failed)),
        },
        Range { table, row, bytes } => plain(places::range(table, *row, bytes)),
        Part { id, bytes, .. } => match part::part(*id, bytes) {
            Some(outcome) => with_table(outcome),
            None => "no answer".to_string(),
        },
        Attachment { payload, k } => with_table(records::attachment(payload, *k)),
        Edition { payload, k } => with_table(records::edition(payload, *k)),
        Chapter { payload, k, i } => with_table(records::chapter(payload, *k, *i)),
        Display { payload, k, i, j } => with_table(records::display(payload, *k, *i, *j)),
        Tag { payload, k } => with_table(records::tag(payload, *k)),
        Uid {
            payload,
            k,
            list,
            i,
        } => with_table(records::uid(payload, *k, *list, *i)),
        Simple { payload, k, i } => with_table(records::simple(payload, *k, *i)),
        Audio { payload, k } => with_table(records::audio(payload, *k)),
        TrackType { number } => tracktype(crate::Tracktype::new(*number)).to_string(),
        // Added by the port: the crate has nothing of the kind.
        Label { .. } | Owner { .. } | Live(_) => "no answer".to_string(),
        Shown {
            start,
            size,
            parent,
            numbers,
            row,
            bytes,
        } => match read::read(*start, *size, *parent, bytes) {
            Ok((elements, rows)) => plain(places::shown(&elements, &rows, *numbers, *row)),
            Err(failed) => with_table(Err(failed)),
        },
        Track { payload, k } => with_table(records::track(payload, *k)),
        Open { bytes, .. } => with_tables(open::open(bytes)),
        Info { payload, k } => with_table(info::info(payload, *k)),
        Family { payload, k, i } => with_table(info::family(payload, *k, *i)),
    }
}

/// The answer of a call that writes no table.
fn plain(outcome: Outcome<String>) -> String {
    match outcome {
        Ok(told) => told,
        Err(Failed::Refused(number)) => format!("refused {}", number),
        Err(Failed::Stopped(how)) => how.to_string(),
        Err(Failed::Fault) => "driver fault".to_string(),
    }
}

/// The answer of a call that was to write a table. The crate has no table, so
/// a refused one holds nothing.
fn with_table(outcome: Outcome<String>) -> String {
    match outcome {
        Err(Failed::Refused(number)) => format!("refused {} table 0", number),
        other => plain(other),
    }
}

/// The same of a call that was to write five.
fn with_tables(outcome: Outcome<String>) -> String {
    match outcome {
        Err(Failed::Refused(number)) => format!("refused {} tables 0", number),
        other => plain(other),
    }
}

/// Runs a call of the crate and tells how it ended.
fn call<T>(work: impl FnOnce() -> ebml::Result<T>) -> Outcome<T> {
    match catch_unwind(AssertUnwindSafe(work)) {
        Ok(Ok(value)) => Ok(value),
        Ok(Err(error)) => Err(Failed::Refused(refusal(&error))),
        Err(payload) => Err(Failed::Stopped(if payload.is::<Circle>() {
            "circles"
        } else if payload.downcast_ref::<&str>() == Some(&"capacity overflow") {
            // A length that no allocator is even asked for.
            "memory"
        } else {
            "panic"
        })),
    }
}

/// The number of an error of the crate, for 8 with the id. It has no address.
fn refusal(error: &MatroskaError) -> String {
    match error {
        MatroskaError::Io(_) => "1".to_string(),
        MatroskaError::InvalidID => "2".to_string(),
        MatroskaError::InvalidSize => "3".to_string(),
        MatroskaError::InvalidUint => "4".to_string(),
        MatroskaError::InvalidFloat => "5".to_string(),
        MatroskaError::InvalidDate => "6".to_string(),
        MatroskaError::UTF8(_) => "7".to_string(),
        MatroskaError::InvalidSeekHead { id } => format!("8 {:X}", id),
    }
}

fn header(at: u64, bytes: &[u8]) -> Outcome<String> {
    let (id, size, length) = call(|| ebml::read_element_id_size(&mut Reader::at(bytes, at)))?;
    Ok(format!("id {:X} size {} length {}", id, size, length))
}

/// A body that every kind accepts: eight bytes of ASCII, and as a master's
/// payload one binary child of four bytes.
const ANY_BODY: [u8; 8] = [0x42, 0x55, 0x40, 0x04, 0, 0, 0, 0];

/// The kind of an id is the variant that the crate makes of such a body.
fn kind(id: u32, parent: u32) -> Outcome<&'static str> {
    let mut reader = Reader::at(&ANY_BODY, 0);
    let size = ANY_BODY.len() as u64;
    let body = call(|| Element::parse_body(&mut reader, id, size, Some(parent)))?;
    Ok(KINDS[usize::from(kind_number(&body)) - 1])
}

const KINDS: [&str; 8] = [
    "master", "int", "uint", "string", "utf8", "binary", "float", "date",
];

fn kind_number(body: &ElementType) -> u8 {
    match body {
        ElementType::Master(_) => 1,
        ElementType::Int(_) => 2,
        ElementType::UInt(_) => 3,
        ElementType::String(_) => 4,
        ElementType::UTF8(_) => 5,
        ElementType::Binary(_) => 6,
        ElementType::Float(_) => 7,
        ElementType::Date(_) => 8,
    }
}

fn body(id: u32, parent: u32, at: u64, size: u64, bytes: &[u8]) -> Outcome<String> {
    if kind(id, parent)? == "master" {
        return Ok("master".to_string());
    }
    let mut reader = Reader::at(bytes, at);
    let body = call(|| Element::parse_body(&mut reader, id, size, Some(parent)))?;
    Ok(match body {
        ElementType::Master(_) => return Err(Failed::Fault),
        ElementType::Int(number) => format!("int {}", number),
        ElementType::UInt(number) => format!("uint {}", number),
        ElementType::Float(number) => format!("float {}", float(number)),
        ElementType::Date(date) => format!("date {}", i64::from(date)),
        ElementType::String(text) | ElementType::UTF8(text) => {
            format!("text {}", range(at, size, text.as_bytes(), bytes)?)
        }
        ElementType::Binary(part) => format!("bytes {}", range(at, size, &part, bytes)?),
    })
}

/// The crate copies a part of the recording and drops its place. The place is
/// that of the question, where the bytes are those that stand there.
fn range(at: u64, size: u64, part: &[u8], bytes: &[u8]) -> Outcome<String> {
    let from = bytes.len().min(at as usize);
    if part.len() as u64 != size || !bytes[from..].starts_with(part) {
        return Err(Failed::Fault);
    }
    Ok(format!("{}+{}", at, size))
}

/// All NaNs are told as one.
fn float(number: f64) -> String {
    if number.is_nan() {
        "nan".to_string()
    } else {
        format!("{:016X}", number.to_bits())
    }
}

fn tracktype(tracktype: crate::Tracktype) -> &'static str {
    use crate::Tracktype::*;

    match tracktype {
        Video => "video",
        Audio => "audio",
        Complex => "complex",
        Logo => "logo",
        Subtitle => "subtitle",
        Buttons => "buttons",
        Control => "control",
        Unknown => "unknown",
    }
}

//! The answers due to the questions about the element table, from the judge's
//! own reading: ours by document 01's terms, the crate's by its own.

use crate::reading::{before_zero, part, rows, End, Payload, Row, Terms, CRATE, LIVE, OURS};
use crate::refusal::{plain, refused};
use question::{rows_in, whole_rows, Question, MOST_NUMBERS, WIDTH};
use std::fmt::Write;
use tools::ids::{STRING_KIND, UTF8_KIND};

/// What is due to a question whose answers the judge knows by itself.
pub struct Due {
    /// Our answer.
    pub ours: String,
    /// The answers of the crate's two builds.
    pub checked: String,
    pub wrapping: String,
    /// Why they differ, by the name of the rule; `None` if they don't. That the crate has
    /// no addresses is no difference.
    pub exception: Option<&'static str>,
}

/// The exception of a shown text that has a zero byte.
pub const ZEROS: &str = "zeros";

/// The address of 14 and 15, which tell of no element.
pub const NOWHERE: u64 = 0;

/// The answers due to a question; `None` if it is not about the element table.
pub fn due(question: &Question) -> Option<Due> {
    if let Question::Range { table, row, bytes } = question {
        let told = range(table, *row, bytes.len());
        return Some(Due {
            checked: plain(&told),
            wrapping: plain(&told),
            ours: told,
            exception: None,
        });
    }
    let payload = payload_of(question)?;
    let ours = answer(question, &payload, OURS);
    let theirs = plain(&answer(question, &payload, CRATE));
    let bounded = || plain(&answer(question, &payload, BOUNDED));
    let whole = || plain(&answer(question, &payload, WHOLE));
    let exception = (plain(&ours) != theirs).then(|| {
        if whole() == theirs {
            ZEROS
        } else {
            reason(&bounded(), &theirs)
        }
    });
    Some(Due {
        ours,
        checked: theirs.clone(),
        wrapping: theirs,
        exception,
    })
}

/// Our answer in live mode; `None` if the question is not about the element table.
pub fn live(question: &Question) -> Option<String> {
    let payload = payload_of(question)?;
    Some(answer(question, &payload, LIVE))
}

/// The payload that a question has read.
fn payload_of(question: &Question) -> Option<Payload<'_>> {
    match question {
        Question::Read {
            start,
            size,
            parent,
            numbers,
            bytes,
        }
        | Question::Whose {
            start,
            size,
            parent,
            numbers,
            bytes,
            ..
        }
        | Question::Payload {
            start,
            size,
            parent,
            numbers,
            bytes,
            ..
        }
        | Question::Shown {
            start,
            size,
            parent,
            numbers,
            bytes,
            ..
        } => Some(Payload {
            start: *start,
            size: *size,
            parent: *parent,
            numbers: *numbers,
            bytes,
        }),
        _ => None,
    }
}

/// Our terms but for the end of shown text. Where the crate's answer is the one by these
/// terms, the answers part there and nowhere else.
const WHOLE: Terms = Terms {
    ended_text: false,
    ..OURS
};

/// The crate's terms within our bounds.
pub const BOUNDED: Terms = Terms {
    bounds: true,
    ..CRATE
};

/// Why the two answers differ. The readings are the same up to the place where
/// they part. So the crate's answer within our bounds tells whether a bound is met
/// before the crate stops.
pub fn reason(bounded: &str, theirs: &str) -> &'static str {
    match bounded {
        "refused 14 table 0" => "argument",
        "refused 12 table 0" => "depth",
        "refused 13 table 0" => "rows",
        _ if theirs == "memory" => "allocation",
        _ => "signed",
    }
}

/// The answer to a question by some terms.
fn answer(question: &Question, payload: &Payload, terms: Terms) -> String {
    match question {
        Question::Whose { address, .. } => with_table(whose(payload, *address, terms)),
        Question::Payload { row, .. } => match read(payload, terms) {
            Ok(rows) => bytes_of(payload, &rows, *row),
            Err(end) => with_table(Err(end)),
        },
        Question::Shown { row, .. } => match read(payload, terms) {
            Ok(rows) => text_of(payload, &rows, *row, terms),
            Err(end) => with_table(Err(end)),
        },
        _ => with_table(read(payload, terms).map(|rows| table(&rows))),
    }
}

/// The answer of a call that was to write the table.
pub fn with_table(answer: Result<String, End>) -> String {
    match answer {
        Ok(told) => told,
        Err(End::Refused(number, address)) => refused(number, None, address) + " table 0",
        Err(End::Memory) => "memory".to_string(),
    }
}

/// 14: the table's length is broken, or the start is past the end.
fn arguments(payload: &Payload, terms: Terms) -> Result<(), End> {
    let past_end = payload.start > payload.bytes.len() as u64;
    if terms.bounds && (past_end || broken(payload.numbers)) {
        return Err(End::Refused(14, NOWHERE));
    }
    Ok(())
}

/// Whether a table's length is broken.
pub fn broken(numbers: u64) -> bool {
    !whole_rows(numbers) || numbers > MOST_NUMBERS
}

/// The rows of a payload, 14 for the arguments first.
pub fn read(payload: &Payload, terms: Terms) -> Result<Vec<Row>, End> {
    arguments(payload, terms)?;
    rows(payload, terms)
}

/// The address question: 14, 15, then the read. The payload is what the caller
/// names, whether its bytes exist or not.
fn whose(payload: &Payload, address: u64, terms: Terms) -> Result<String, End> {
    arguments(payload, terms)?;
    if address < payload.start || address - payload.start >= payload.size {
        return Err(End::Refused(15, NOWHERE));
    }
    let rows = rows(payload, terms)?;
    Ok(format!("{} {}", holder(&rows, address), table(&rows)))
}

/// The row that holds an address of the payload. Headers and leaf payloads
/// follow one another without a gap, so it is the last row that begins there or
/// before.
fn holder(rows: &[Row], address: u64) -> String {
    let after = rows.partition_point(|row| row.address <= address);
    let row = &rows[after - 1];
    let which = if address - row.address < row.header {
        "header"
    } else {
        "payload"
    };
    format!("row {} {which}", after - 1)
}

/// A row's payload. The call only reads the table, in which a row that was not
/// used is all zeros: an empty part.
fn bytes_of(payload: &Payload, rows: &[Row], row: u64) -> String {
    if row >= rows_in(payload.numbers) {
        return refused(14, None, NOWHERE);
    }
    match rows.get(row as usize) {
        Some(row) => format!("bytes {}", digits(body(payload, row))),
        None => "bytes -".to_string(),
    }
}

/// A row's shown text, which begins where its payload does. A row that was not used is
/// all zeros, and its kind is none of the two kinds of text.
fn text_of(payload: &Payload, rows: &[Row], row: u64, terms: Terms) -> String {
    let used = rows.get(row as usize);
    let found = used.filter(|_| row < rows_in(payload.numbers));
    match found.filter(|row| [STRING_KIND, UTF8_KIND].contains(&row.kind)) {
        Some(row) => {
            let text = body(payload, row);
            let text = if terms.ended_text {
                before_zero(text)
            } else {
                text
            };
            let from = row.address + row.header;
            format!("text {from}+{} {}", text.len(), digits(text))
        }
        None => refused(14, None, NOWHERE),
    }
}

/// The bytes of a row's payload.
fn body<'a>(payload: &Payload<'a>, row: &Row) -> &'a [u8] {
    let bytes = part(payload.bytes, row.address + row.header, row.payload);
    bytes.expect("an accepted row is in the recording")
}

/// Bytes as they stand in an answer.
pub fn digits(bytes: &[u8]) -> String {
    if bytes.is_empty() {
        return "-".to_string();
    }
    bytes.iter().map(|byte| format!("{byte:02X}")).collect()
}

/// The payload range of a row of a given table. The sum of address and lengths
/// is one of numbers, and does not wrap.
fn range(table: &[u64], row: u64, length: usize) -> String {
    let numbers = table.len() as u64;
    if broken(numbers) || row >= rows_in(numbers) {
        return refused(14, None, NOWHERE);
    }
    let place = WIDTH * row as usize;
    let [address, header, payload] = [2, 3, 4].map(|field| u128::from(table[place + field]));
    if address + header + payload > length as u128 {
        return refused(14, None, NOWHERE);
    }
    format!("at {}+{payload}", address + header)
}

/// The rows as they stand in an answer.
pub fn table(rows: &[Row]) -> String {
    let mut told = format!("rows {}", rows.len());
    for row in rows {
        let written = write!(
            told,
            " / {:X} {} {} {} {} {} {} {}",
            row.id,
            row.parent,
            row.address,
            row.header,
            row.payload,
            row.kind,
            row.depth,
            row.after
        );
        written.expect("a string takes everything");
    }
    told + " rest 0"
}

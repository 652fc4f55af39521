//! The element table, read straight from document 01 and apart from the crate.
//! It is read by the document's own terms, or by the crate's, which has no
//! bounds: so both answers to a question are known before they are looked at.
//! A refusal carries the address that document 02 gives it.

use question::rows_in;
use tools::ids::{
    kind, BINARY_KIND, DATE_KIND, FLOAT_KIND, INT_KIND, MASTER_KIND, STRING_KIND, UINT_KIND,
    UTF8_KIND,
};

/// The terms of a reading. All of them but the last hold for ours and none for the crate.
#[derive(Clone, Copy)]
pub struct Terms {
    /// The arguments, the depth and the rows are bounded: 14, 12 and 13.
    pub bounds: bool,
    /// A signed integer of length 0 is 0. Else a byte is missing.
    pub empty_signed: bool,
    /// No memory is asked for. Else a text or bytes may be too large for it.
    pub no_memory: bool,
    /// The flags 55AB to 55AF of a track stay unset. Else each is the first byte of its
    /// bytes.
    pub unset_marks: bool,
    /// Shown text ends before its first zero byte. Else it is the whole text.
    pub ended_text: bool,
    /// Live mode: an unknown size is 17. Else it is the number that it spells.
    pub live: bool,
}

pub const OURS: Terms = Terms {
    bounds: true,
    empty_signed: true,
    no_memory: true,
    unset_marks: true,
    ended_text: true,
    live: false,
};

/// Ours in live mode.
pub const LIVE: Terms = Terms { live: true, ..OURS };

pub const CRATE: Terms = Terms {
    bounds: false,
    empty_signed: false,
    no_memory: false,
    unset_marks: false,
    ended_text: false,
    live: false,
};

/// The largest single request for memory that the oracle grants.
pub const MOST_AT_ONCE: u64 = 1 << 32;

/// The depth of the first row that is too deep.
pub const TOO_DEEP: u64 = 16;

/// How a reading ends that is not accepted.
#[derive(Clone, Copy, PartialEq)]
pub enum End {
    /// The number, and the address that it carries.
    Refused(u64, u64),
    Memory,
}

/// A row as it stands in the table: id, parent (row number plus 1), header
/// address, header length, payload length, kind, depth, and the first row after it
/// that is not below it.
#[derive(PartialEq)]
pub struct Row {
    pub id: u32,
    pub parent: u64,
    pub address: u64,
    pub header: u64,
    pub payload: u64,
    pub kind: u64,
    pub depth: u64,
    pub after: u64,
}

/// What is read: a payload of a recording under its parent, into a table of so
/// many numbers.
pub struct Payload<'a> {
    pub start: u64,
    pub size: u64,
    pub parent: u32,
    pub numbers: u64,
    pub bytes: &'a [u8],
}

/// The rows of a payload.
pub fn rows(payload: &Payload, terms: Terms) -> Result<Vec<Row>, End> {
    let mut reading = Reading {
        bytes: payload.bytes,
        most: rows_in(payload.numbers),
        terms,
        rows: Vec::new(),
    };
    reading.master(payload.start, payload.size, payload.parent, 0, 0)?;
    set_after(&mut reading.rows);
    Ok(reading.rows)
}

/// Tells each row the first one after it that is no deeper, or how many rows there
/// are: what stands between is below it. From the last row to the first, those of the rows
/// behind are kept that a row further in front can still have.
fn set_after(rows: &mut [Row]) {
    let mut behind: Vec<usize> = Vec::new();
    for number in (0..rows.len()).rev() {
        let depth = rows[number].depth;
        while behind.last().is_some_and(|next| rows[*next].depth > depth) {
            behind.pop();
        }
        rows[number].after = *behind.last().unwrap_or(&rows.len()) as u64;
        behind.push(number);
    }
}

struct Reading<'a> {
    bytes: &'a [u8],
    most: u64,
    terms: Terms,
    rows: Vec<Row>,
}

impl Reading<'_> {
    /// A master's body: elements, read until its size is used up.
    fn master(&mut self, mut at: u64, size: u64, id: u32, row: u64, depth: u64) -> Result<(), End> {
        let mut left = size;
        while left > 0 {
            let whole = self.element(at, id, row, depth)?;
            if whole > left {
                // The child is told, and not the master that it overruns.
                return Err(End::Refused(3, at));
            }
            left -= whole;
            at += whole;
        }
        Ok(())
    }

    /// An element: its header, in live mode 17, then 12, 13, its body. Gives its whole length.
    fn element(&mut self, at: u64, parent_id: u32, parent: u64, depth: u64) -> Result<u64, End> {
        let Header {
            id,
            header,
            payload,
            unknown,
        } = header(self.bytes, at)?;
        if self.terms.live && unknown {
            return Err(End::Refused(17, at));
        }
        if self.terms.bounds && depth == TOO_DEEP {
            return Err(End::Refused(12, at));
        }
        if self.terms.bounds && self.rows.len() as u64 == self.most {
            return Err(End::Refused(13, at));
        }
        let kind = kind(id, parent_id);
        self.rows.push(Row {
            id,
            parent,
            address: at,
            header,
            payload,
            kind,
            depth,
            after: 0,
        });
        if kind == MASTER_KIND {
            let own = self.rows.len() as u64;
            self.master(at + header, payload, id, own, depth + 1)?;
        } else {
            self.leaf(kind, at, header, payload)?;
        }
        Ok(header + payload)
    }

    /// A typed body: its size, then the end of the recording, then its text. It is told by
    /// the address of its header.
    fn leaf(&self, kind: u64, at: u64, header: u64, size: u64) -> Result<(), End> {
        let refused = |number| End::Refused(number, at);
        match kind {
            INT_KIND | UINT_KIND if size > 8 => return Err(refused(4)),
            FLOAT_KIND if size != 4 && size != 8 => return Err(refused(5)),
            DATE_KIND if size != 8 => return Err(refused(6)),
            INT_KIND if size == 0 && !self.terms.empty_signed => return Err(refused(1)),
            STRING_KIND | UTF8_KIND | BINARY_KIND
                if size > MOST_AT_ONCE && !self.terms.no_memory =>
            {
                return Err(End::Memory)
            }
            _ => {}
        }
        let body = part(self.bytes, at + header, size).ok_or(refused(1))?;
        let text = kind == STRING_KIND || kind == UTF8_KIND;
        if text && std::str::from_utf8(body).is_err() {
            return Err(refused(7));
        }
        Ok(())
    }
}

/// What a header says: the id, its own length and the payload's.
#[derive(Clone, Copy)]
pub struct Header {
    pub id: u32,
    pub header: u64,
    pub payload: u64,
    /// All bits of the size behind its marker are ones.
    pub unknown: bool,
}

/// The header at a place, the id before the size. A bad one is told by where it begins.
pub fn header(bytes: &[u8], at: u64) -> Result<Header, End> {
    let refused = |number| End::Refused(number, at);
    let (id, id_width) = number(bytes, at, 4, 2).map_err(refused)?;
    let (size, size_width) = number(bytes, at + id_width, 8, 3).map_err(refused)?;
    let marker = 1 << (7 * size_width);
    Ok(Header {
        // Four bytes hold an id.
        id: id as u32,
        header: id_width + size_width,
        payload: size - marker,
        unknown: size == marker | (marker - 1),
    })
}

/// A number with its marker, and its width: one byte more than there are zero
/// bits before the first one bit. Zeros run on through following bytes. Else the number of
/// a refusal.
fn number(bytes: &[u8], at: u64, widest: u64, too_wide: u64) -> Result<(u64, u64), u64> {
    let missing = 1u64;
    let rest = usize::try_from(at).ok().and_then(|at| bytes.get(at..));
    let rest = rest.ok_or(missing)?;
    let zeros = rest.iter().take_while(|byte| **byte == 0).count();
    let first = rest.get(zeros).ok_or(missing)?;
    let width = 8 * zeros as u64 + u64::from(first.leading_zeros()) + 1;
    if width > widest {
        return Err(too_wide);
    }
    let all = rest.get(..width as usize).ok_or(missing)?;
    let value = all.iter().fold(0, |sum, byte| sum << 8 | u64::from(*byte));
    Ok((value, width))
}

/// A part of the recording, if all of it is there.
pub fn part(bytes: &[u8], at: u64, size: u64) -> Option<&[u8]> {
    let from = usize::try_from(at).ok()?;
    let to = usize::try_from(at.checked_add(size)?).ok()?;
    bytes.get(from..to)
}

/// What is shown of a text: the bytes before its first zero, or all if it has none.
pub fn before_zero(text: &[u8]) -> &[u8] {
    text.split(|byte| *byte == 0).next().unwrap_or(text)
}

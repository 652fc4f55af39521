//! The address question, a row's payload and its shown text, from the lent table.

use crate::ended::{self, before_zero};
use crate::lent::{broken, Lent, Read};
use crate::refusal::{refusal, Refusal};
use crate::Fault;
use question::{rows_in, WIDTH};
use std::fmt::Write;
use tools::ids::{BINARY_KIND, STRING_KIND, UTF8_KIND};

/// Reads, and tells the row that holds an address, up to where the table stands
/// in the answer.
pub fn whose(lent: &mut Lent, read: &Read, address: u64, fault: Fault) -> Result<String, Refusal> {
    let outside = outside(read, address, fault);
    let nowhere = nowhere(read, address, fault);
    if outside && fault.is("early-15") {
        return Err(nowhere);
    }
    lent.arguments(read)?;
    if outside && !fault.is("late-15") {
        return Err(nowhere);
    }
    lent.read(read)?;
    if outside {
        return Err(nowhere);
    }
    let rows: Vec<&[u64]> = lent.numbers.chunks_exact(WIDTH).take(lent.used).collect();
    let around = |row: &&[u64]| row[2] <= address && address - row[2] < row[3] + row[4];
    let found = if fault.is("outer-row") {
        rows.iter().position(around)
    } else {
        rows.iter().rposition(around)
    };
    // A faulty reader may find none.
    let number = found.unwrap_or(0);
    let end = rows.get(number).map_or(0, |row| row[2] + row[3]);
    let header = address < end || address == end && fault.is("header-end");
    let which = if header { "header" } else { "payload" };
    Ok(format!("row {number} {which} "))
}

/// 15 for such an address.
pub fn nowhere(read: &Read, address: u64, fault: Fault) -> Refusal {
    refusal(15, 0).or(fault, &[("at-15", address), ("at-15-start", read.start)])
}

/// Whether an address is outside of the payload that is read.
pub fn outside(read: &Read, address: u64, fault: Fault) -> bool {
    if fault.is("wrapped-15") {
        return address < read.start || address >= read.start.wrapping_add(read.size);
    }
    if fault.is("missing-15") && address >= read.bytes.len() as u64 {
        return true;
    }
    match address.checked_sub(read.start) {
        None => true,
        Some(0) if fault.is("start-15") => true,
        Some(by) if fault.is("end-15") => by > read.size,
        Some(by) => by >= read.size,
    }
}

/// The answer for a row's payload, from a table that was filled.
pub fn payload(lent: &Lent, row: u64, bytes: &[u8], fault: Fault) -> String {
    let numbers = written(lent);
    let mut range = range(&numbers, row, bytes.len() as u64, fault);
    if fault.is("unused-14") && row >= lent.used as u64 {
        range = Err(refusal(14, 0));
    }
    match range {
        Ok((from, length)) => {
            let part = &bytes[from as usize..(from + length) as usize];
            let row = numbers.chunks_exact(WIDTH).nth(row as usize);
            let part = match row.map(|row| row[5]) {
                Some(STRING_KIND | UTF8_KIND) if fault.is("payload-zero") => before_zero(part),
                _ => part,
            };
            format!("bytes {}", digits(part))
        }
        Err(refusal) if fault.is("row-table") => refusal.told(None, " table 0", fault),
        Err(refusal) => refusal.told(None, "", fault),
    }
}

/// The numbers of a table that was filled, zeros behind the last row.
fn written(lent: &Lent) -> Vec<u64> {
    let mut numbers = lent.numbers.clone();
    numbers[WIDTH * lent.used..].fill(0);
    numbers
}

/// Bytes as they stand in an answer.
pub fn digits(bytes: &[u8]) -> String {
    if bytes.is_empty() {
        return "-".to_string();
    }
    bytes.iter().fold(String::new(), |mut told, byte| {
        write!(told, "{byte:02X}").expect("a string takes everything");
        told
    })
}

/// The answer for a row's shown text, from a table that was filled.
pub fn shown(lent: &Lent, row: u64, bytes: &[u8], fault: Fault) -> String {
    let numbers = written(lent);
    let range = range(&numbers, row, bytes.len() as u64, fault);
    let shown = range.and_then(|range| {
        let mut rows = numbers.chunks_exact(WIDTH);
        let row = rows.nth(row as usize).ok_or(refusal(14, 0))?;
        text(row, range, bytes, fault)
    });
    match shown {
        Ok(((from, length), text)) => format!("text {from}+{length} {}", digits(text)),
        Err(refusal) if fault.is("shown-table") => refusal.told(None, " table 0", fault),
        Err(refusal) => refusal.told(None, "", fault),
    }
}

/// The text of a row and its range, given the range of the row's payload.
fn text<'a>(
    row: &[u64],
    (from, length): (u64, u64),
    bytes: &'a [u8],
    fault: Fault,
) -> Result<((u64, u64), &'a [u8]), Refusal> {
    let (header, kind) = (row[2], row[5]);
    let whole = &bytes[from as usize..][..length as usize];
    let is_text = match kind {
        STRING_KIND if fault.is("shown-ascii") => whole.is_ascii(),
        STRING_KIND => !fault.is("shown-string"),
        UTF8_KIND => !fault.is("shown-utf8"),
        BINARY_KIND if fault.is("shown-binary") => true,
        0 => fault.is("shown-unused"),
        _ => fault.is("shown-any"),
    };
    let none = match whole {
        [] => fault.is("shown-empty"),
        [0, ..] => fault.is("shown-zero-first"),
        _ => false,
    };
    if !is_text || none {
        return Err(refusal(14, 0).or(fault, &[("at-text-row", header)]));
    }
    let kept = kind == STRING_KIND && fault.is("shown-zeros-string")
        || kind == UTF8_KIND && fault.is("shown-zeros-utf8");
    let shown = if kept {
        whole
    } else {
        ended::shown(bytes, (from, length), "shown", fault)
    };
    let count = shown.len() as u64;
    Ok(match () {
        () if fault.is("shown-header") => {
            let wrong = &bytes[header as usize..][..shown.len()];
            ((header, count), wrong)
        }
        () if fault.is("shown-address") => ((header, count), shown),
        () if fault.is("shown-start") => ((from, count), &bytes[..shown.len()]),
        () if fault.is("shown-short") => {
            let short = shown.len().saturating_sub(1);
            ((from, short as u64), &shown[..short])
        }
        () if fault.is("shown-range") => ((from, length), shown),
        () if fault.is("shown-part") => ((from, count), whole),
        () => ((from, count), shown),
    })
}

/// The payload range of a row: its address and its length.
pub fn range(numbers: &[u64], row: u64, length: u64, fault: Fault) -> Result<(u64, u64), Refusal> {
    let nowhere = refusal(14, 0);
    if broken(numbers.len() as u64, fault) {
        return Err(nowhere);
    }
    let count = if fault.is("row-narrow") {
        numbers.len() as u64 / (WIDTH as u64 - 1)
    } else {
        rows_in(numbers.len() as u64)
    };
    if row == count && fault.is("row-at-end") {
        return Ok((0, 0));
    }
    if row >= count {
        return Err(nowhere.or(fault, &[("at-row", row)]));
    }
    // A faulty reader may take a row of which nothing is there.
    let rest = numbers.get(WIDTH * row as usize..).unwrap_or(&[]);
    let &[_, _, address, header, payload, _, _, after, ..] = rest else {
        return Ok((0, 0));
    };
    if after > count && fault.is("range-after") {
        return Err(nowhere);
    }
    let end = if fault.is("range-wraps") {
        Some(address.wrapping_add(header).wrapping_add(payload))
    } else {
        address
            .checked_add(header)
            .and_then(|from| from.checked_add(payload))
    };
    let most = if fault.is("range-end") {
        length.saturating_sub(1)
    } else {
        length
    };
    if !end.is_some_and(|end| end <= most) {
        return Err(nowhere.or(fault, &[("at-range", address)]));
    }
    let from = if fault.is("range-address") {
        address
    } else {
        address.wrapping_add(header)
    };
    Ok((from, payload))
}

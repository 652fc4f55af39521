//! What the port adds to the element table: whose byte an address is, a row's
//! payload and its text. The rows are the crate's, or stand in the question.

use super::read::{read, table, Row};
use super::{Failed, Outcome};
use crate::ebml::{Element, ElementType};
use question::{rows_in, MOST_ROWS, WIDTH};

fn refused<T>(number: &str) -> Outcome<T> {
    Err(Failed::Refused(number.to_string()))
}

/// The one row whose header or leaf payload holds an address of the payload
/// that the question names, whether the bytes are there or not.
pub(crate) fn whose(
    start: u64,
    size: u64,
    parent: u32,
    address: u64,
    bytes: &[u8],
) -> Outcome<String> {
    let end = u128::from(start) + u128::from(size);
    if !(u128::from(start)..end).contains(&u128::from(address)) {
        return refused("15");
    }
    let (_, rows) = read(start, size, parent, bytes)?;
    let places = rows.iter().enumerate();
    let mut holders = places.filter_map(|(number, row)| Some((number, held(row, address)?)));
    match (holders.next(), holders.next()) {
        (Some((number, which)), None) => Ok(format!("row {} {} {}", number, which, table(&rows))),
        _ => Err(Failed::Fault),
    }
}

/// Whether a row's header holds an address, or its payload if it is a leaf.
fn held(row: &Row, address: u64) -> Option<&'static str> {
    let payload = row.address + row.header;
    if (row.address..payload).contains(&address) {
        Some("header")
    } else if row.kind != 1 && (payload..payload + row.payload).contains(&address) {
        Some("payload")
    } else {
        None
    }
}

/// The payload of a row that was read, of a lent table with so many numbers.
/// Behind the crate's rows the table holds zeros, which tell an empty part.
pub(crate) fn payload(rows: &[Row], numbers: u64, row: u64, bytes: &[u8]) -> Outcome<String> {
    if row >= rows_in(numbers) {
        return refused("14");
    }
    let part = match rows.get(row as usize) {
        Some(row) => {
            let from = (row.address + row.header) as usize;
            bytes.get(from..from + row.payload as usize)
        }
        None => Some(&[][..]),
    };
    let part = part.ok_or(Failed::Fault)?;
    Ok(format!("bytes {}", digits(part)))
}

/// Bytes as they stand in an answer.
fn digits(bytes: &[u8]) -> String {
    if bytes.is_empty() {
        return "-".to_string();
    }
    bytes.iter().map(|byte| format!("{:02X}", byte)).collect()
}

/// The text of a row that was read, of a lent table with so many numbers: the
/// text that the crate's own tree holds, and where its row says that it stands.
/// Behind the crate's rows the table holds zeros, which are no text.
pub(crate) fn shown(elements: &[Element], rows: &[Row], numbers: u64, row: u64) -> Outcome<String> {
    if row >= rows_in(numbers) || row >= rows.len() as u64 {
        return refused("14");
    }
    let place = &rows[row as usize];
    let element = element_at(elements, row).ok_or(Failed::Fault)?;
    match &element.val {
        ElementType::String(text) | ElementType::UTF8(text) => Ok(format!(
            "text {}+{} {}",
            place.address + place.header,
            text.len(),
            digits(text.as_bytes())
        )),
        _ => refused("14"),
    }
}

/// The element of a row: the rows are the tree in preorder.
fn element_at(elements: &[Element], row: u64) -> Option<&Element> {
    let mut next: Vec<&Element> = elements.iter().rev().collect();
    for _ in 0..row {
        if let ElementType::Master(children) = &next.pop()?.val {
            next.extend(children.iter().rev());
        }
    }
    next.pop()
}

/// The payload range of a row of the table that the question gives.
pub(crate) fn range(numbers: &[u64], row: u64, bytes: &[u8]) -> Outcome<String> {
    let mut rows = numbers.chunks_exact(WIDTH);
    if !rows.remainder().is_empty() || rows.len() as u64 > MOST_ROWS || row >= rows.len() as u64 {
        return refused("14");
    }
    let (address, header, length) = match rows.nth(row as usize) {
        Some([_, _, address, header, length, ..]) => (*address, *header, *length),
        _ => return Err(Failed::Fault),
    };
    let from = address.checked_add(header);
    let to = from.and_then(|from| from.checked_add(length));
    match (from, to) {
        (Some(from), Some(to)) if to <= bytes.len() as u64 => Ok(format!("at {}+{}", from, length)),
        _ => refused("14"),
    }
}

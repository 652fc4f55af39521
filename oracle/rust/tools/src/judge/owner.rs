//! The address question without a table, straight from document 02 and apart from the crate:
//! headers from the front of the master, down the one path that leads to the address. Where
//! the whole payload is accepted, its rows have to give the same answer.

use crate::reading::{header, End, Header, Payload, Row, Terms, LIVE, OURS, TOO_DEEP};
use crate::records::added;
use crate::refusal::refused;
use crate::table::{read, Due, NOWHERE};
use question::{Question, MOST_NUMBERS};
use tools::ids::{kind, MASTER_KIND};

/// The answers due to a question; `None` if it asks for no owner. The crate has none.
pub fn due(question: &Question) -> Option<Due> {
    Some(added(&told(question, OURS)?))
}

/// Our answer in live mode.
pub fn live(question: &Question) -> Option<String> {
    told(question, LIVE)
}

/// Our answer by some terms, by the walk and by the rows.
fn told(question: &Question, terms: Terms) -> Option<String> {
    let Question::Owner {
        start,
        size,
        parent,
        address,
        bytes,
    } = question
    else {
        return None;
    };
    let payload = Payload {
        start: *start,
        size: *size,
        parent: *parent,
        numbers: MOST_NUMBERS,
        bytes,
    };
    let told = match walked(&payload, *address, terms) {
        Ok(told) => told,
        Err(End::Refused(number, at)) => refused(number, None, at),
        Err(End::Memory) => "memory".to_string(),
    };
    Some(match by_rows(&payload, *address, terms) {
        // An answer that nobody gives, so that it is found.
        Some(other) if other != told => format!("judge fault: {told} by the walk, {other} by rows"),
        _ => told,
    })
}

/// The walk: 14, 15, then at each header that is read what is wrong with it, in live mode 17,
/// 12 and 3, and only then where the address is. No body is looked at, nor what stands behind
/// the address.
fn walked(payload: &Payload, address: u64, terms: Terms) -> Result<String, End> {
    if payload.start > payload.bytes.len() as u64 {
        return Err(End::Refused(14, NOWHERE));
    }
    if address < payload.start || address - payload.start >= payload.size {
        return Err(End::Refused(15, NOWHERE));
    }
    let (mut at, mut left) = (payload.start, payload.size);
    let (mut parent, mut depth) = (payload.parent, 0);
    // The address is always one of the bytes that are left from here on.
    loop {
        let Header {
            id,
            header: length,
            payload: size,
            unknown,
        } = header(payload.bytes, at)?;
        if terms.live && unknown {
            return Err(End::Refused(17, at));
        }
        if depth == TOO_DEEP {
            return Err(End::Refused(12, at));
        }
        if length + size > left {
            return Err(End::Refused(3, at));
        }
        let by = address - at;
        if by < length {
            return Ok(format!("header {at}"));
        }
        if by >= length + size {
            at += length + size;
            left -= length + size;
        } else if kind(id, parent) == MASTER_KIND {
            (at, left) = (at + length, size);
            (parent, depth) = (id, depth + 1);
        } else {
            return Ok(format!("payload {at}"));
        }
    }
}

/// The reply of the full question by a table of 4,096 rows, the row told by its header
/// address; `None` if that refuses. One row, and no other, has the address in its header or
/// leaf payload.
fn by_rows(payload: &Payload, address: u64, terms: Terms) -> Option<String> {
    let rows = read(payload, terms).ok()?;
    let named = u128::from(payload.start)..u128::from(payload.start) + u128::from(payload.size);
    if !named.contains(&u128::from(address)) {
        return None;
    }
    let holders: Vec<String> = rows.iter().filter_map(|row| held(row, address)).collect();
    Some(match &holders[..] {
        [one] => one.clone(),
        others => format!("{} owners", others.len()),
    })
}

/// What a row says of an address, if it is in its header or in its payload as a leaf.
fn held(row: &Row, address: u64) -> Option<String> {
    let body = row.address + row.header;
    if (row.address..body).contains(&address) {
        return Some(format!("header {}", row.address));
    }
    let leaf = row.kind != MASTER_KIND;
    (leaf && (body..body + row.payload).contains(&address))
        .then(|| format!("payload {}", row.address))
}

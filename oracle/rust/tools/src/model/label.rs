//! The stage label and the track types, which need no table.

use crate::ended::{self, before_zero};
use crate::places::digits;
use crate::refusal::refusal;
use crate::Fault;

/// What is shown of the bytes of a range; where that is nothing, the caller's own label.
pub fn label(range: Option<(u64, u64)>, label: &[u8], bytes: &[u8], fault: Fault) -> String {
    let own = if fault.is("label-own-zero") {
        before_zero(label)
    } else {
        label
    };
    let told = match range {
        None if fault.is("label-unset") => &[],
        None => own,
        Some((address, length)) => match within(address, length, bytes, fault) {
            Some(place) => taken(place, own, bytes, fault),
            None if fault.is("label-refused") => return refusal(14, 0).told(None, "", fault),
            None => own,
        },
    };
    format!("label {}", digits(told))
}

/// The bytes that are told of a place in the recording, or the caller's label.
fn taken<'a>(place: (u64, u64), own: &'a [u8], bytes: &'a [u8], fault: Fault) -> &'a [u8] {
    let (from, length) = place;
    let shown = ended::shown(bytes, place, "label", fault);
    let whole = &bytes[from as usize..][..length as usize];
    let no_text = |bytes: &[u8]| String::from_utf8(bytes.to_vec()).is_err();
    match shown {
        [] if length == 0 && fault.is("label-empty") => shown,
        [] if length > 0 && fault.is("label-empty-zero") => shown,
        [] if own.is_empty() && fault.is("label-own-empty") => whole,
        [] => own,
        _ if fault.is("label-before") && !own.is_empty() => own,
        _ if fault.is("label-text") && no_text(shown) => own,
        _ if fault.is("label-text-behind") && no_text(whole) && !no_text(shown) => own,
        _ => shown,
    }
}

/// The place of a range that is in the recording.
fn within(address: u64, length: u64, bytes: &[u8], fault: Fault) -> Option<(u64, u64)> {
    let there = bytes.len() as u64;
    let end = match address.checked_add(length) {
        Some(end) => end,
        // A faulty reader has only the bytes before the end to tell.
        None if fault.is("label-wraps") && address.wrapping_add(length) <= there => {
            return Some((0, address.wrapping_add(length)));
        }
        None => u64::MAX,
    };
    if end == there && length > 0 && fault.is("label-end") {
        return None;
    }
    if end > there {
        let rest = bytes.get(address as usize..)?;
        let cut = fault.is("label-cut") || fault.is("label-over") && rest.contains(&0);
        return cut.then_some((address, rest.len() as u64));
    }
    Some((address, length))
}

/// The seven track types that have a number.
const TRACK_TYPES: [(u64, &str); 7] = [
    (1, "video"),
    (2, "audio"),
    (3, "complex"),
    (16, "logo"),
    (17, "subtitle"),
    (18, "buttons"),
    (32, "control"),
];

pub fn track_type(number: u64, fault: Fault) -> &'static str {
    let number = match number {
        16 if fault.is("type-logo") => return "unknown",
        18 if fault.is("type-18") => return "unknown",
        0 if fault.is("type-zero") => return "video",
        _ if fault.is("type-byte") => number & 0xFF,
        _ => number,
    };
    let mut types = TRACK_TYPES.iter();
    let found = types.find(|(own, _)| *own == number);
    found.map_or("unknown", |(_, told)| told)
}

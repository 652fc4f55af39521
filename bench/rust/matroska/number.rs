//! The numbers of kinds, by the crate's own sets.

use super::{
    ElementType, IDS_BINARY, IDS_FLOAT, IDS_INT, IDS_MASTER, IDS_MASTER_DEFAULT, IDS_STRING,
    IDS_UINT, IDS_UTF8,
};
use crate::ids;

/// The number of masters.
pub const MASTER: u64 = 1;

/// The number of binary elements, and of unlisted ones.
pub const BINARY: u64 = 6;

/// The number of an id's kind, with the tests and in the order of `Element::parse_body`.
#[inline]
pub fn number_of(id: u32, parent: Option<u32>) -> u64 {
    let masters = match parent {
        Some(parent) => *IDS_MASTER.get(&parent).unwrap_or(&&IDS_MASTER_DEFAULT),
        None => &IDS_MASTER_DEFAULT,
    };
    match id {
        id if masters.contains(&id) => MASTER,
        id if IDS_INT.contains(&id) => 2,
        id if IDS_UINT.contains(&id) => 3,
        id if IDS_STRING.contains(&id) => 4,
        id if IDS_UTF8.contains(&id) => 5,
        id if IDS_BINARY.contains(&id) => BINARY,
        id if IDS_FLOAT.contains(&id) => 7,
        ids::DATEUTC => 8,
        _ => BINARY,
    }
}

/// Every listed id with the number of its kind.
pub fn listed() -> Vec<(u32, u64)> {
    let sets = [
        &IDS_MASTER_DEFAULT,
        &IDS_INT,
        &IDS_UINT,
        &IDS_STRING,
        &IDS_UTF8,
        &IDS_BINARY,
        &IDS_FLOAT,
    ];
    let mut listed: Vec<(u32, u64)> = sets
        .iter()
        .zip(MASTER..)
        .flat_map(|(set, number)| set.iter().map(move |&id| (id, number)))
        .collect();
    listed.push((ids::DATEUTC, 8));
    listed
}

/// The special parents, each with the masters that it has.
pub fn special() -> Vec<(u32, Vec<u32>)> {
    IDS_MASTER
        .entries()
        .map(|(&parent, set)| (parent, set.iter().copied().collect()))
        .collect()
}

/// The number of the kind that an element was read as.
pub fn number_read(value: &ElementType) -> u64 {
    match value {
        ElementType::Master(_) => MASTER,
        ElementType::Int(_) => 2,
        ElementType::UInt(_) => 3,
        ElementType::String(_) => 4,
        ElementType::UTF8(_) => 5,
        ElementType::Binary(_) => BINARY,
        ElementType::Float(_) => 7,
        ElementType::Date(_) => 8,
    }
}

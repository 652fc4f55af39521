//! Rust's binary search over the same list: ids rising, each with one hexadecimal digit for its kind.

use matroska::opened::number::{listed, special, BINARY, MASTER};

pub struct Sorted {
    entries: Vec<u64>,
    special: Vec<(u32, Vec<u32>)>,
}

impl Sorted {
    pub fn new() -> Sorted {
        let mut entries: Vec<u64> = listed()
            .into_iter()
            .map(|(id, number)| u64::from(id) * 16 + number)
            .collect();
        entries.sort_unstable();
        Sorted {
            entries,
            special: special(),
        }
    }

    /// The number of an id's kind; parent 0 is none.
    #[inline]
    pub fn number_of(&self, id: u32, parent: u32) -> u64 {
        let wanted = u64::from(id);
        let Ok(place) = self
            .entries
            .binary_search_by_key(&wanted, |entry| entry / 16)
        else {
            return BINARY;
        };
        let number = self.entries[place] % 16;
        if number != MASTER {
            return number;
        }
        match self.special.iter().find(|(special, _)| *special == parent) {
            Some((_, masters)) if !masters.contains(&id) => BINARY,
            _ => MASTER,
        }
    }
}

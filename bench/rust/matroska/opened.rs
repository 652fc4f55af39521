//! What the program calls of the crate's own that the crate keeps to itself.

pub use crate::ebml::{number, read_element_id_size, Element, ElementType, Result};

/// The names of ids.
pub mod ids {
    pub use crate::ids::*;
}

//! What the tools share: the ids by their kinds.

pub mod ids;

//! The address that a refusal of ours carries. The crate has none: its answers are told
//! without, and ours are compared with them so.

/// How a refusal is told: its number, for 8 its id, and its address.
pub fn refused(number: u64, id: Option<u32>, address: u64) -> String {
    let id = id.map_or(String::new(), |id| format!(" {id:X}"));
    format!("refused {number}{id} at {address}")
}

/// An answer as the crate would give it: a refusal without its address, and any other as it
/// is.
pub fn plain(answer: &str) -> String {
    parted(answer).map_or(answer.to_string(), |(plain, _)| plain)
}

/// A refusal of ours, without its address, and that; `None` for any other answer. An
/// address stands behind the number, or behind the id, as `at A`.
pub fn parted(answer: &str) -> Option<(String, u64)> {
    let mut words: Vec<&str> = answer.split(' ').collect();
    let place = match words[..] {
        ["refused", _, "at", ..] => 2,
        ["refused", "8", _, "at", ..] => 3,
        _ => return None,
    };
    let told = *words.get(place + 1)?;
    let address: u64 = told.parse().ok()?;
    if told != address.to_string() {
        return None;
    }
    words.drain(place..place + 2);
    Some((words.join(" "), address))
}

//! Where shown text ends: before its first zero, but for a fault.

use crate::Fault;

/// The bytes before the first zero, or all if there is none.
pub fn before_zero(bytes: &[u8]) -> &[u8] {
    let zero = bytes.iter().position(|byte| *byte == 0);
    &bytes[..zero.unwrap_or(bytes.len())]
}

/// What is shown of so many bytes from a place of the recording on. Shown text and labels
/// have faults of the same sorts, each under its own name.
pub fn shown<'a>(bytes: &'a [u8], (from, length): (u64, u64), of: &str, fault: Fault) -> &'a [u8] {
    let faulty = |what: &str| fault.is(&format!("{of}-{what}"));
    let (rest, length) = (&bytes[from as usize..], length as usize);
    let zeros: Vec<usize> = (0..length).filter(|place| rest[*place] == 0).collect();
    let first = zeros.first().copied();
    let end = match () {
        () if faulty("zeros") => None,
        () if faulty("padded") => (0..=length).rfind(|end| *end == 0 || rest[end - 1] != 0),
        () if faulty("zero") => first.map(|zero| zero + 1),
        () if faulty("last-zero") => zeros.last().copied(),
        () if faulty("first-byte") => zeros.into_iter().find(|zero| *zero > 0),
        () if faulty("last-byte") => first.filter(|zero| zero + 1 < length),
        () if faulty("runs-on") => rest.iter().position(|byte| *byte == 0),
        () => first,
    };
    &rest[..end.unwrap_or(length)]
}

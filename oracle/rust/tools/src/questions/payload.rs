//! Questions about the payload of a row that was read: rows that are used,
//! unused and not in the table.

use crate::asked::{anything, damaged, elsewhere, good, Asked};
use crate::broken::{self, Sort};
use crate::random::{hex, Random};
use question::rows_in;

/// The shares are fixed: of 20 questions 12 are about good trees, 3 about damaged
/// ones, 3 have odd arguments, 1 is about anything, and 1 is a broken line.
pub fn question(_seed: u64, j: u64, random: &mut Random) -> Vec<u8> {
    let asked = match j % 20 {
        12..=14 => damaged(random),
        15..=17 => elsewhere(random),
        18 => anything(random),
        _ => good(random),
    };
    let row = row(&asked, random);
    line("payload", j, &asked, row, random)
}

/// The line of a question about a row: of 20 the last is broken.
pub fn line(word: &str, j: u64, asked: &Asked, row: u64, random: &mut Random) -> Vec<u8> {
    let words = [
        word,
        &asked.start.to_string(),
        &asked.size.to_string(),
        &format!("{:X}", asked.parent),
        &asked.numbers.to_string(),
        &row.to_string(),
        &hex(&asked.bytes),
    ];
    if j % 20 < 19 {
        return words.join(" ").into_bytes();
    }
    use Sort::{Count, Id, Number, Recording};
    let sorts = [Number, Number, Id, Count, Number, Recording];
    broken::broken(&words, &sorts, random)
}

/// A row: mostly a used one, else around the last used one and the table's end.
pub fn row(asked: &Asked, random: &mut Random) -> u64 {
    let (used, end) = (asked.spots.len() as u64, rows_in(asked.numbers));
    let around = random.below(3);
    match random.below(10) {
        0 => (used + around).saturating_sub(1),
        1..=2 => (end + around).saturating_sub(1),
        3 => random.one_of(&[1 << 32, 1 << 61, 1 << 63, u64::MAX]),
        _ => random.below(used.max(1)),
    }
}

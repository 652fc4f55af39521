//! Questions about whose byte an address is: the first and the last byte of
//! headers and payloads and those beside them, and addresses outside.

use crate::asked::{anything, damaged, elsewhere, good, Asked};
use crate::broken::{self, Sort};
use crate::random::{hex, Random};

/// The shares are fixed: of 20 questions 12 are about good trees, 3 about damaged
/// ones, 3 have odd arguments, 1 is about anything, and 1 is a broken line.
pub fn question(_seed: u64, j: u64, random: &mut Random) -> Vec<u8> {
    let mut asked = match j % 20 {
        12..=14 => damaged(random),
        15..=17 => elsewhere(random),
        18 => anything(random),
        _ => good(random),
    };
    // A payload that reaches past 2^64.
    if random.once_in(32) {
        asked.size = u64::MAX - random.below(3);
    }
    let words = [
        "whose",
        &asked.start.to_string(),
        &asked.size.to_string(),
        &format!("{:X}", asked.parent),
        &address(&asked, random).to_string(),
        &asked.numbers.to_string(),
        &hex(&asked.bytes),
    ];
    if j % 20 < 19 {
        return words.join(" ").into_bytes();
    }
    use Sort::{Count, Id, Number, Recording};
    let sorts = [Number, Number, Id, Number, Count, Recording];
    broken::broken(&words, &sorts, random)
}

/// An address: mostly an end of a header or payload, or one byte further.
pub fn address(asked: &Asked, random: &mut Random) -> u64 {
    let end = asked.start.wrapping_add(asked.size);
    if !asked.spots.is_empty() && !random.once_in(8) {
        let spot = random.one_of(&asked.spots);
        let ends = [spot.address, spot.body(), spot.end()];
        let address = random.one_of(&ends).wrapping_sub(random.below(2));
        // One that is outside is kept once in four.
        if (asked.start..end).contains(&address) || random.once_in(4) {
            return address;
        }
        return spot.body() - 1;
    }
    match random.below(8) {
        0 => asked.start.wrapping_sub(1),
        1 => asked.start,
        2 => end.wrapping_sub(1),
        3 => end,
        4 => asked.bytes.len() as u64,
        5 => u64::MAX,
        6 => random.number(),
        _ => asked.start.wrapping_add(random.below(asked.size.max(1))),
    }
}

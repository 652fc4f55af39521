//! Questions about the payload range of a row of a given table: ranges around
//! the end of the recording, numbers around 2^64, and broken tables.

use crate::broken::{self, Sort};
use crate::random::{hex, Random};
use question::{rows_in, MOST_ASKED, MOST_ROWS, WIDTH};

/// Of 20 questions 19 are well-formed, and 1 is a broken line.
pub fn question(_seed: u64, j: u64, random: &mut Random) -> Vec<u8> {
    let length = random.below(12);
    let table = table(length, random);
    let numbers: Vec<String> = table.iter().map(u64::to_string).collect();
    let numbers = match numbers.len() {
        0 => "-".to_string(),
        _ => numbers.join(","),
    };
    let row = row(rows_in(table.len() as u64), random).to_string();
    let words = ["range", &numbers, &row, &hex(&random.bytes(length))];
    if j % 20 < 19 {
        return words.join(" ").into_bytes();
    }
    use Sort::{Number, Recording, Table};
    broken::broken(&words, &[Table, Number, Recording], random)
}

/// A table of a few rows, seldom of as many as there may be, whose rows ask for
/// ranges of a recording of that length. Once in eight its length is broken.
fn table(length: u64, random: &mut Random) -> Vec<u64> {
    let rows = match random.below(2_000) {
        0 => random.between(MOST_ROWS - 1, MOST_ROWS + 1),
        1 => rows_in(MOST_ASKED),
        _ => random.one_of(&[0, 1, 1, 2, 3, 4]),
    };
    let mut table: Vec<u64> = (0..rows).flat_map(|_| fields(length, random)).collect();
    if random.once_in(8) {
        let lost = random.below(WIDTH as u64) as usize;
        table.truncate(table.len().saturating_sub(lost));
    }
    table
}

/// The numbers of a row. Those that tell no place are anything.
fn fields(length: u64, random: &mut Random) -> [u64; WIDTH] {
    let mut fields = [(); WIDTH].map(|()| match random.below(3) {
        0 => 0,
        1 => random.below(20),
        _ => random.number(),
    });
    let place = match random.below(8) {
        // An unused row.
        0 => return [0; WIDTH],
        // In the recording, to its end or a byte over.
        1..=5 => {
            let end = (length + random.below(4)).saturating_sub(2);
            parts(end, random)
        }
        // A sum that is small only if it wraps.
        6 => wrapping(random.below(length + 2), random),
        _ => [(); 3].map(|()| edge(random)),
    };
    fields[2..5].copy_from_slice(&place);
    fields
}

/// Three numbers of that sum.
fn parts(sum: u64, random: &mut Random) -> [u64; 3] {
    let address = random.below(sum + 1);
    let header = random.below(sum - address + 1);
    let mut parts = [address, header, sum - address - header];
    parts.rotate_left(random.below(3) as usize);
    parts
}

/// Three numbers whose sum wraps to that number.
fn wrapping(sum: u64, random: &mut Random) -> [u64; 3] {
    let (first, second) = (edge(random), random.one_of(&[0, 1, 2, u64::MAX, 1 << 63]));
    let third = sum.wrapping_sub(first).wrapping_sub(second);
    let mut parts = [first, second, third];
    parts.rotate_left(random.below(3) as usize);
    parts
}

/// A number around a boundary.
fn edge(random: &mut Random) -> u64 {
    let around = random.below(3);
    match random.below(5) {
        0 => around,
        1 => (1 << 32) - 1 + around,
        2 => (1 << 63) - 1 + around,
        _ => u64::MAX - around,
    }
}

/// A row: mostly in the table, else around its end or far behind it.
fn row(rows: u64, random: &mut Random) -> u64 {
    match random.below(8) {
        0 => (rows + random.below(3)).saturating_sub(1),
        1 => random.one_of(&[MOST_ROWS, 1 << 32, 1 << 61, 1 << 63, u64::MAX]),
        _ => random.below(rows.max(1)),
    }
}

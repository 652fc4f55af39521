//! Broken lines: a good question with one rule of a well-formed line broken.
//! A few stay good, to stand beside those that are not.

use crate::random::{hex, Random};
use question::{numbers_of, MOST_ASKED, WIDTH};

/// The longest recording that a line may carry, in bytes.
const MOST_BYTES: u64 = 65_536;

/// What a word of a question is.
#[derive(Clone, Copy, PartialEq)]
pub enum Sort {
    Id,
    Number,
    /// How many numbers the lent table has.
    Count,
    /// The numbers of a lent table.
    Table,
    /// The name of a tag's list.
    List,
    /// An address and a length, or none.
    Range,
    /// Bytes that are no recording.
    Label,
    Recording,
}

/// Breaks a question whose words are given, the name first. The sorts are those
/// of the words behind the name; a recording stands last.
pub fn broken(words: &[&str], sorts: &[Sort], random: &mut Random) -> Vec<u8> {
    // Long lines are rare, for they are long.
    if random.once_in(500) {
        return match sorts.last() {
            Some(Sort::Id) => endless(words, random),
            _ => long(words, random),
        };
    }
    match random.below(6) {
        0 => spaces(words, random),
        1 => count(words, random),
        2 => name(words, random),
        3 if sorts.last() == Some(&Sort::Recording) => recording(words, random),
        3..=4 => number(words, sorts, random),
        _ => bytes(words, random),
    }
}

fn joined(words: &[&str]) -> Vec<u8> {
    words.join(" ").into_bytes()
}

/// The words with one of them replaced.
fn with(words: &[&str], place: usize, word: &str) -> Vec<u8> {
    let mut words = words.to_vec();
    words[place] = word;
    joined(&words)
}

/// Words not parted by exactly one space.
fn spaces(words: &[&str], random: &mut Random) -> Vec<u8> {
    let line = words.join(" ");
    let text = match random.below(7) {
        0 => format!(" {line}"),
        1 => format!("{line} "),
        2 => line.replacen(' ', "  ", 1),
        3 => words.join("  "),
        4 => line.replacen(' ', "\t", 1),
        5 => words.join("\t"),
        _ => line.replacen(' ', "", 1),
    };
    text.into_bytes()
}

/// A word too few or too many, or none at all.
fn count(words: &[&str], random: &mut Random) -> Vec<u8> {
    let last = words.len() - 1;
    match random.below(6) {
        0 => Vec::new(),
        1 => b" ".to_vec(),
        2 => joined(&words[..last]),
        3 => joined(&words[..1]),
        4 => [joined(words), b" 0".to_vec()].concat(),
        _ => joined(&words[1..]),
    }
}

/// A word that names no question.
fn name(words: &[&str], random: &mut Random) -> Vec<u8> {
    let name = words[0];
    let word = match random.below(6) {
        0 => name.to_uppercase(),
        1 => name[..name.len() - 1].to_string(),
        2 => format!("{name}s"),
        3 => format!("{}{}", name[..1].to_uppercase(), &name[1..]),
        4 => "-".to_string(),
        _ => "unknown".to_string(),
    };
    with(words, 0, &word)
}

/// A recording that is no run of pairs of hex digits.
fn recording(words: &[&str], random: &mut Random) -> Vec<u8> {
    let last = words.len() - 1;
    with(words, last, &digits(words[last], random))
}

/// Bytes that are no run of pairs of hex digits.
fn digits(good: &str, random: &mut Random) -> String {
    let good = if good == "-" { "AE80" } else { good };
    let cut = &good[..good.len() - 1];
    match random.below(10) {
        0 => cut.to_string(),
        1 => format!("{good}0"),
        2 => format!("0x{good}"),
        3 => format!("{cut}G"),
        4 => format!("{good}-"),
        5 => format!("-{good}"),
        6 => "--".to_string(),
        7 => format!("{good},{good}"),
        // These two are good.
        8 => good.to_lowercase(),
        _ => "-".to_string(),
    }
}

/// A number that is none, or one too large, or another word that is none.
fn number(words: &[&str], sorts: &[Sort], random: &mut Random) -> Vec<u8> {
    let numbers: Vec<usize> = (1..words.len())
        .filter(|place| sorts[place - 1] != Sort::Recording)
        .collect();
    if numbers.is_empty() {
        return count(words, random);
    }
    let place = random.one_of(&numbers);
    let good = words[place];
    let word = match sorts[place - 1] {
        Sort::Id => id(good, random),
        Sort::Count => count_of_numbers(good, random),
        Sort::Table => table(good, random),
        Sort::List => list(good, random),
        Sort::Range => range(good, random),
        Sort::Label => digits(good, random),
        Sort::Number | Sort::Recording => decimal(good, random),
    };
    with(words, place, &word)
}

/// A decimal number that is none, or none of 64 bits.
fn decimal(good: &str, random: &mut Random) -> String {
    match random.below(13) {
        0 => "18446744073709551616".to_string(),
        1 => "99999999999999999999".to_string(),
        2 => "000000000000000000018446744073709551616".to_string(),
        3 => "100000000000000000000".to_string(),
        4 => format!("+{good}"),
        5 => format!("-{good}"),
        6 => format!("0x{good}"),
        7 => format!("{good}.0"),
        8 => format!("{good}A"),
        9 => "-".to_string(),
        10 => format!("{good},0"),
        // These two are good.
        11 => "18446744073709551615".to_string(),
        _ => format!("{good:0>40}"),
    }
}

/// A count of numbers around the most that may be asked for, or no number.
fn count_of_numbers(good: &str, random: &mut Random) -> String {
    match random.below(6) {
        0 => (MOST_ASKED + 1).to_string(),
        1 => (MOST_ASKED + numbers_of(1)).to_string(),
        2 => "4294967296".to_string(),
        // This one is good.
        3 => MOST_ASKED.to_string(),
        _ => decimal(good, random),
    }
}

/// A table that is no list of numbers, or one with too many or too large ones.
fn table(good: &str, random: &mut Random) -> String {
    let row: Vec<String> = (1..=WIDTH).map(|number| number.to_string()).collect();
    let row = row.join(",");
    let good = if good == "-" { &row } else { good };
    let numbers = |count: u64| vec!["9"; count as usize].join(",");
    match random.below(15) {
        0 => format!("{good},"),
        1 => format!(",{good}"),
        2 => good.replacen(',', ",,", 1),
        3 => ",".to_string(),
        4 => String::new(),
        5 => format!("{good},-"),
        6 => format!("-,{good}"),
        7 => good.replacen(',', ";", 1),
        8 => format!("{good},18446744073709551616"),
        9 => format!("{good},A"),
        10 => format!("{good},+1"),
        11 if random.once_in(20) => numbers(MOST_ASKED + 1),
        // These three are good.
        12 if random.once_in(20) => numbers(MOST_ASKED),
        13 => format!("{good},18446744073709551615"),
        _ => format!("000000000000000000000{good}"),
    }
}

/// A word that is none of the four lists.
fn list(good: &str, random: &mut Random) -> String {
    match random.below(10) {
        0 => format!("{good}s"),
        1 => good[..good.len() - 1].to_string(),
        2 => good.to_uppercase(),
        3 => String::new(),
        4 => "-".to_string(),
        5 => "0".to_string(),
        6 => "tag".to_string(),
        7 => format!("{good}{good}"),
        // These two are good.
        8 => "track".to_string(),
        _ => "attachment".to_string(),
    }
}

/// A word that is no range.
fn range(good: &str, random: &mut Random) -> String {
    let good = if good == "unset" { "1+2" } else { good };
    match random.below(17) {
        0 => good.replace('+', ""),
        1 => good.replace('+', "-"),
        2 => good.replace('+', "++"),
        3 => format!("{good}+0"),
        4 => format!("+{good}"),
        5 => format!("{good}+"),
        6 => "+".to_string(),
        7 => String::new(),
        8 => "-".to_string(),
        9 => "Unset".to_string(),
        10 => "unset+0".to_string(),
        11 => "18446744073709551616+0".to_string(),
        12 => "0+18446744073709551616".to_string(),
        13 => format!("{good}A"),
        // These three are good.
        14 => "18446744073709551615+18446744073709551615".to_string(),
        15 => format!("000000000000000000000{good}"),
        _ => "unset".to_string(),
    }
}

/// An id that is none, or none of 32 bits.
fn id(good: &str, random: &mut Random) -> String {
    match random.below(17) {
        0 => "100000000".to_string(),
        1 => "FFFFFFFFF".to_string(),
        2 => format!("1{good:0>8}"),
        3 => format!("1{good:0>16}"),
        4 => format!("1{good:0>32}"),
        5 => String::new(),
        6 => format!("0x{good}"),
        7 => format!("+{good}"),
        8 => format!("-{good}"),
        9 => "-".to_string(),
        10 => format!("{good}G"),
        11 => format!("{good}h"),
        12 => format!("{good},0"),
        // These four are good.
        13 => "FFFFFFFF".to_string(),
        14 => good.to_lowercase(),
        15 => format!("{good:0>8}"),
        _ => format!("{good:0>40}"),
    }
}

/// A byte that belongs to no word.
fn bytes(words: &[&str], random: &mut Random) -> Vec<u8> {
    let mut line = joined(words);
    let byte = random.one_of(b"\r\r\r\x00\t\x0B\x0C\x7F\x80\xC3\xFF\"'#/");
    let length = line.len();
    let place = match random.below(4) {
        0 => 0,
        1 => random.below(length as u64) as usize,
        _ => length,
    };
    line.insert(place, byte);
    line
}

/// Recordings of the greatest length and a little more, and endless words.
fn long(words: &[&str], random: &mut Random) -> Vec<u8> {
    let last = words.len() - 1;
    let word = match random.below(6) {
        0 => hex(&random.bytes(MOST_BYTES)),
        1 => hex(&random.bytes(MOST_BYTES + 1)),
        2 => "00".repeat(MOST_BYTES as usize),
        3 => format!("{}8", "0".repeat(2 * MOST_BYTES as usize)),
        4 => "A".repeat(1_500_000),
        _ => return vec![b' '; 300_000],
    };
    with(words, last, &word)
}

/// A line of so many bytes is no question any more.
const TOO_LONG: usize = 1 << 20;

/// Zeros without end in front of the last word, an id: a good line that is as
/// long as one may be, one byte more, and one that is wrong only far behind.
fn endless(words: &[&str], random: &mut Random) -> Vec<u8> {
    let line = joined(words);
    let id = words[words.len() - 1];
    let (length, end) = match random.below(3) {
        0 => (TOO_LONG - 1, ""),
        1 => (TOO_LONG, ""),
        _ => (1_500_000, "G"),
    };
    let zeros = "0".repeat(length - line.len() - end.len());
    with(words, words.len() - 1, &format!("{zeros}{id}{end}"))
}

//! The question language: decides which lines are well formed and takes them
//! apart into numbers and bytes. Everything else is a bad question.

/// The largest recording a line can carry.
pub const MOST_BYTES: usize = 65_536;

/// A line of so many bytes or more is no question.
pub const TOO_LONG: usize = 1 << 20;

/// The numbers of a row: id, parent, address, header, payload, kind, depth and after, the
/// first row behind it that is none of its descendants.
pub const WIDTH: usize = 8;

/// The most rows of a lent table.
pub const MOST_ROWS: u64 = 4_096;

/// The most numbers of one.
pub const MOST_NUMBERS: u64 = numbers_of(MOST_ROWS);

/// The most numbers of table that a line can ask for or carry. They are more than a lent table
/// may have, so that one that is too long can be asked for.
pub const MOST_ASKED: u64 = 36_000;

/// The numbers of a table of so many rows.
pub const fn numbers_of(rows: u64) -> u64 {
    rows * WIDTH as u64
}

/// The rows that so many numbers have room for.
pub const fn rows_in(numbers: u64) -> u64 {
    numbers / WIDTH as u64
}

/// Whether so many numbers are a whole count of rows.
pub const fn whole_rows(numbers: u64) -> bool {
    numbers_of(rows_in(numbers)) == numbers
}

/// Where a record question finds its payload.
#[derive(Clone)]
pub struct Payload {
    pub start: u64,
    pub size: u64,
    pub numbers: u64,
    pub bytes: Vec<u8>,
}

/// The four lists of a tag's targets.
#[derive(Clone, Copy)]
pub enum List {
    Track,
    Edition,
    Chapter,
    Attachment,
}

/// One well-formed line.
#[derive(Clone)]
pub enum Question {
    Header {
        at: u64,
        bytes: Vec<u8>,
    },
    Kind {
        id: u32,
        parent: u32,
    },
    Utf8 {
        bytes: Vec<u8>,
    },
    Body {
        id: u32,
        parent: u32,
        at: u64,
        size: u64,
        /// The address of the element's header.
        address: u64,
        bytes: Vec<u8>,
    },
    Read {
        start: u64,
        size: u64,
        parent: u32,
        numbers: u64,
        bytes: Vec<u8>,
    },
    Whose {
        start: u64,
        size: u64,
        parent: u32,
        address: u64,
        numbers: u64,
        bytes: Vec<u8>,
    },
    Part {
        id: u32,
        numbers: u64,
        bytes: Vec<u8>,
    },
    Payload {
        start: u64,
        size: u64,
        parent: u32,
        numbers: u64,
        row: u64,
        bytes: Vec<u8>,
    },
    Range {
        table: Vec<u64>,
        row: u64,
        bytes: Vec<u8>,
    },
    Attachment {
        payload: Payload,
        k: u64,
    },
    Edition {
        payload: Payload,
        k: u64,
    },
    Chapter {
        payload: Payload,
        k: u64,
        i: u64,
    },
    Display {
        payload: Payload,
        k: u64,
        i: u64,
        j: u64,
    },
    Tag {
        payload: Payload,
        k: u64,
    },
    Uid {
        payload: Payload,
        k: u64,
        list: List,
        i: u64,
    },
    Simple {
        payload: Payload,
        k: u64,
        i: u64,
    },
    Audio {
        payload: Payload,
        k: u64,
    },
    TrackType {
        number: u64,
    },
    Label {
        range: Option<(u64, u64)>,
        label: Vec<u8>,
        bytes: Vec<u8>,
    },
    Shown {
        start: u64,
        size: u64,
        parent: u32,
        numbers: u64,
        row: u64,
        bytes: Vec<u8>,
    },
    Track {
        payload: Payload,
        k: u64,
    },
    Owner {
        start: u64,
        size: u64,
        parent: u32,
        address: u64,
        bytes: Vec<u8>,
    },
    Open {
        /// How many numbers the five lent tables have, in the order of the parts.
        numbers: [u64; 5],
        bytes: Vec<u8>,
    },
    Info {
        payload: Payload,
        k: u64,
    },
    Family {
        payload: Payload,
        k: u64,
        i: u64,
    },
    /// A question in live mode, one that takes it.
    Live(Box<Question>),
}

/// The word that puts a question in live mode, with the space behind it.
pub const LIVE: &[u8] = b"live ";

/// The words of the questions that take live mode: those that read a payload or search.
pub const LIVE_WORDS: [&str; 18] = [
    "read",
    "whose",
    "owner",
    "part",
    "payload",
    "shown",
    "attachment",
    "edition",
    "chapter",
    "display",
    "tag",
    "uid",
    "simple",
    "audio",
    "track",
    "open",
    "info",
    "family",
];
/// So many of them are asked where `live` stands alone; `open`, `info` and `family` are named behind it.
pub const LIVE_ALONE: usize = 15;

/// Takes a line apart, its line feed already removed. `None`: a bad question.
pub fn parse(line: &[u8]) -> Option<Question> {
    if line.len() >= TOO_LONG {
        return None;
    }
    let Some(rest) = line.strip_prefix(LIVE) else {
        return parse_plain(line);
    };
    let word = rest.split(|byte| *byte == b' ').next()?;
    let takes_it = LIVE_WORDS.iter().any(|known| known.as_bytes() == word);
    let asked = parse_plain(rest).filter(|_| takes_it)?;
    Some(Question::Live(Box::new(asked)))
}

/// The same for a question without the word in front.
fn parse_plain(line: &[u8]) -> Option<Question> {
    let words: Vec<&[u8]> = line.split(|byte| *byte == b' ').collect();
    let w = &words;
    Some(match (w[0], w.len()) {
        (b"header", 3) => Question::Header {
            at: number(w[1])?,
            bytes: bytes(w[2])?,
        },
        (b"kind", 3) => Question::Kind {
            id: id(w[1])?,
            parent: id(w[2])?,
        },
        (b"utf8", 2) => Question::Utf8 {
            bytes: bytes(w[1])?,
        },
        (b"body", 7) => Question::Body {
            id: id(w[1])?,
            parent: id(w[2])?,
            at: number(w[3])?,
            size: number(w[4])?,
            address: number(w[5])?,
            bytes: bytes(w[6])?,
        },
        (b"read", 6) => Question::Read {
            start: number(w[1])?,
            size: number(w[2])?,
            parent: id(w[3])?,
            numbers: numbers(w[4])?,
            bytes: bytes(w[5])?,
        },
        (b"whose", 7) => Question::Whose {
            start: number(w[1])?,
            size: number(w[2])?,
            parent: id(w[3])?,
            address: number(w[4])?,
            numbers: numbers(w[5])?,
            bytes: bytes(w[6])?,
        },
        (b"part", 4) => Question::Part {
            id: id(w[1])?,
            numbers: numbers(w[2])?,
            bytes: bytes(w[3])?,
        },
        (b"payload", 7) => Question::Payload {
            start: number(w[1])?,
            size: number(w[2])?,
            parent: id(w[3])?,
            numbers: numbers(w[4])?,
            row: number(w[5])?,
            bytes: bytes(w[6])?,
        },
        (b"range", 4) => Question::Range {
            table: table(w[1])?,
            row: number(w[2])?,
            bytes: bytes(w[3])?,
        },
        (b"attachment", 6) => Question::Attachment {
            k: number(w[4])?,
            payload: payload(w)?,
        },
        (b"edition", 6) => Question::Edition {
            k: number(w[4])?,
            payload: payload(w)?,
        },
        (b"chapter", 7) => Question::Chapter {
            k: number(w[4])?,
            i: number(w[5])?,
            payload: payload(w)?,
        },
        (b"display", 8) => Question::Display {
            k: number(w[4])?,
            i: number(w[5])?,
            j: number(w[6])?,
            payload: payload(w)?,
        },
        (b"tag", 6) => Question::Tag {
            k: number(w[4])?,
            payload: payload(w)?,
        },
        (b"uid", 8) => Question::Uid {
            k: number(w[4])?,
            list: list(w[5])?,
            i: number(w[6])?,
            payload: payload(w)?,
        },
        (b"simple", 7) => Question::Simple {
            k: number(w[4])?,
            i: number(w[5])?,
            payload: payload(w)?,
        },
        (b"audio", 6) => Question::Audio {
            k: number(w[4])?,
            payload: payload(w)?,
        },
        (b"tracktype", 2) => Question::TrackType {
            number: number(w[1])?,
        },
        (b"label", 4) => Question::Label {
            range: range(w[1])?,
            label: bytes(w[2])?,
            bytes: bytes(w[3])?,
        },
        (b"shown", 7) => Question::Shown {
            start: number(w[1])?,
            size: number(w[2])?,
            parent: id(w[3])?,
            numbers: numbers(w[4])?,
            row: number(w[5])?,
            bytes: bytes(w[6])?,
        },
        (b"track", 6) => Question::Track {
            k: number(w[4])?,
            payload: payload(w)?,
        },
        (b"owner", 6) => Question::Owner {
            start: number(w[1])?,
            size: number(w[2])?,
            parent: id(w[3])?,
            address: number(w[4])?,
            bytes: bytes(w[5])?,
        },
        (b"open", 7) => Question::Open {
            numbers: [
                numbers(w[1])?,
                numbers(w[2])?,
                numbers(w[3])?,
                numbers(w[4])?,
                numbers(w[5])?,
            ],
            bytes: bytes(w[6])?,
        },
        (b"info", 6) => Question::Info {
            k: number(w[4])?,
            payload: payload(w)?,
        },
        (b"family", 7) => Question::Family {
            k: number(w[4])?,
            i: number(w[5])?,
            payload: payload(w)?,
        },
        _ => return None,
    })
}

/// A decimal number that fits in 64 bits, zeros in front or not.
fn number(word: &[u8]) -> Option<u64> {
    if word.is_empty() {
        return None;
    }
    word.iter().try_fold(0u64, |sum, digit| match digit {
        b'0'..=b'9' => sum.checked_mul(10)?.checked_add(u64::from(digit - b'0')),
        _ => None,
    })
}

/// How many numbers the lent table has.
fn numbers(word: &[u8]) -> Option<u64> {
    number(word).filter(|count| *count <= MOST_ASKED)
}

/// An id or a parent: hex digits of a number of at most four bytes.
fn id(word: &[u8]) -> Option<u32> {
    if word.is_empty() {
        return None;
    }
    word.iter().try_fold(0u32, |sum, digit| {
        sum.checked_mul(16)?.checked_add(u32::from(hex(*digit)?))
    })
}

fn hex(digit: u8) -> Option<u8> {
    match digit {
        b'0'..=b'9' => Some(digit - b'0'),
        b'A'..=b'F' => Some(digit - b'A' + 10),
        b'a'..=b'f' => Some(digit - b'a' + 10),
        _ => None,
    }
}

/// A recording or a label: pairs of hex digits, or `-` for none.
fn bytes(word: &[u8]) -> Option<Vec<u8>> {
    if word == b"-" {
        return Some(Vec::new());
    }
    if word.is_empty() || word.len() % 2 != 0 || word.len() > 2 * MOST_BYTES {
        return None;
    }
    word.chunks_exact(2)
        .map(|pair| Some(hex(pair[0])? << 4 | hex(pair[1])?))
        .collect()
}

/// `ADDRESS+LENGTH`, or `unset`.
fn range(word: &[u8]) -> Option<Option<(u64, u64)>> {
    if word == b"unset" {
        return Some(None);
    }
    let plus = word.iter().position(|byte| *byte == b'+')?;
    Some(Some((number(&word[..plus])?, number(&word[plus + 1..])?)))
}

/// A lent table: decimal numbers parted by commas, or `-` for none.
fn table(word: &[u8]) -> Option<Vec<u64>> {
    if word == b"-" {
        return Some(Vec::new());
    }
    let parts = word.split(|byte| *byte == b',');
    let table: Vec<u64> = parts.map(number).collect::<Option<_>>()?;
    Some(table).filter(|table| table.len() as u64 <= MOST_ASKED)
}

fn list(word: &[u8]) -> Option<List> {
    match word {
        b"track" => Some(List::Track),
        b"edition" => Some(List::Edition),
        b"chapter" => Some(List::Chapter),
        b"attachment" => Some(List::Attachment),
        _ => None,
    }
}

/// The words that all record questions share: start, size and numbers come
/// first, the bytes last.
fn payload(words: &[&[u8]]) -> Option<Payload> {
    Some(Payload {
        start: number(words[1])?,
        size: number(words[2])?,
        numbers: numbers(words[3])?,
        bytes: bytes(words[words.len() - 1])?,
    })
}

//! The inputs, the same in every run.

use matroska::opened::ids::*;
use matroska::opened::number::{listed, special};

/// A generator of numbers that looks random and is the same for ever (xorshift64*).
pub struct Chance(u64);

impl Chance {
    pub fn new(seed: u64) -> Chance {
        Chance(seed)
    }

    pub fn below(&mut self, bound: usize) -> usize {
        self.0 ^= self.0 >> 12;
        self.0 ^= self.0 << 25;
        self.0 ^= self.0 >> 27;
        let high = self.0.wrapping_mul(0x2545_F491_4F6C_DD1D) >> 32;
        high as usize % bound
    }

    pub fn one_of<T: Copy>(&mut self, values: &[T]) -> T {
        values[self.below(values.len())]
    }
}

/// Ids, each with its parent; parent 0 is none.
pub struct Pairs {
    pub name: &'static str,
    pub ids: Vec<u32>,
    pub parents: Vec<u32>,
}

/// How many lookups are timed at once.
const PAIRS: usize = 16_384;

/// What stands in a recording's head: a parent, and its children in a usual order.
pub const HEAD: [(u32, &[u32]); 16] = [
    (SEGMENT, &[SEEKHEAD, INFO, TRACKS, CHAPTERS, TAGS]),
    (SEEKHEAD, &[SEEK, SEEK, SEEK, SEEK]),
    (SEEK, &[SEEKID, SEEKPOSITION]),
    (
        INFO,
        &[
            TIMECODESCALE,
            MUXINGAPP,
            WRITINGAPP,
            SEGMENTUID,
            DATEUTC,
            DURATION,
            TITLE,
        ],
    ),
    (TRACKS, &[TRACKENTRY, TRACKENTRY, TRACKENTRY]),
    (TRACKENTRY, &TRACK),
    (TRACKENTRY, &TRACK),
    (TRACKENTRY, &TRACK),
    (
        VIDEO,
        &[
            PIXELWIDTH,
            PIXELHEIGHT,
            DISPLAYWIDTH,
            DISPLAYHEIGHT,
            INTERLACED,
        ],
    ),
    (AUDIO, &[SAMPLINGFREQUENCY, CHANNELS, BITDEPTH]),
    (
        ATTACHEDFILE,
        &[FILEDESCRIPTION, FILENAME, FILEMIMETYPE, FILEDATA],
    ),
    (
        CHAPTERATOM,
        &[
            CHAPTERUID,
            CHAPTERTIMESTART,
            CHAPTERTIMEEND,
            CHAPTERFLAGHIDDEN,
            CHAPTERFLAGENABLED,
            CHAPTERDISPLAY,
        ],
    ),
    (
        CHAPTERDISPLAY,
        &[CHAPSTRING, CHAPLANGUAGE, CHAPLANGUAGE_IETF],
    ),
    (TAGS, &[TAG, TAG]),
    (TARGETS, &[TARGETTYPEVALUE, TAG_TRACK_UID]),
    (
        SIMPLETAG,
        &[TAGNAME, TAGLANGUAGE, TAGLANGUAGE_IETF, TAGSTRING],
    ),
];

/// The children of a track. Some flags are younger than the sets, and so unlisted.
pub const TRACK: [u32; 17] = [
    TRACKNUMBER,
    TRACKUID,
    TRACKTYPE,
    FLAGENABLED,
    FLAGDEFAULT,
    FLAGFORCED,
    FLAGHEARINGIMPAIRED,
    FLAGORIGINAL,
    FLAGLACING,
    DEFAULTDURATION,
    NAME,
    LANGUAGE,
    LANGUAGE_IETF,
    CODEC_ID,
    CODEC_PRIVATE,
    VIDEO,
    AUDIO,
];

/// Both mixes of ids.
pub fn pairs() -> Vec<Pairs> {
    vec![recording(), any()]
}

/// Children in the order that a recording has them, one of four left out.
fn recording() -> Pairs {
    let mut chance = Chance::new(1);
    let mut pairs = Vec::new();
    while pairs.len() < PAIRS {
        let (parent, children) = chance.one_of(&HEAD);
        for &child in children {
            if chance.below(4) != 0 {
                pairs.push((child, parent));
            }
        }
    }
    pairs.truncate(PAIRS);
    let (ids, parents) = pairs.into_iter().unzip();
    Pairs {
        name: "a recording's head",
        ids,
        parents,
    }
}

/// Any listed id, one of eight unlisted; half without a parent, half under a special one.
fn any() -> Pairs {
    let mut chance = Chance::new(2);
    let known: Vec<u32> = listed().into_iter().map(|(id, _)| id).collect();
    let special: Vec<u32> = special().into_iter().map(|(parent, _)| parent).collect();
    let mut ids = Vec::new();
    let mut parents = Vec::new();
    for _ in 0..PAIRS {
        let id = chance.one_of(&known);
        ids.push(match chance.below(8) {
            0 => id ^ (1 << chance.below(7)),
            _ => id,
        });
        parents.push(match chance.below(2) {
            0 => 0,
            _ => chance.one_of(&special),
        });
    }
    Pairs {
        name: "any listed id",
        ids,
        parents,
    }
}

/// Texts of one sort, which are tested one after the other.
pub struct Texts {
    pub name: &'static str,
    pub texts: Vec<Vec<u8>>,
}

impl Texts {
    pub fn bytes(&self) -> usize {
        self.texts.iter().map(Vec::len).sum()
    }
}

/// The length of the long texts.
const LENGTH: usize = 32_768;

/// How many short names there are.
pub const NAMES: usize = 2_048;

/// Characters of one, two, three and four bytes.
const SPANS: [(u32, u32); 4] = [
    (0x20, 0x7e),
    (0x410, 0x44f),
    (0x4e00, 0x9fff),
    (0x1_f300, 0x1_f5ff),
];

fn one(chance: &mut Chance, (first, last): (u32, u32)) -> char {
    let number = first + chance.below((last - first + 1) as usize) as u32;
    char::from_u32(number).expect("a span holds characters alone")
}

/// A text of at least this many bytes.
fn text(length: usize, mut next: impl FnMut() -> char) -> Vec<u8> {
    let mut text = String::new();
    while text.len() < length {
        text.push(next());
    }
    text.into_bytes()
}

/// A letter, or a space after one of six letters.
fn of_words(chance: &mut Chance, span: (u32, u32)) -> char {
    match chance.below(7) {
        0 => ' ',
        _ => one(chance, span),
    }
}

/// All sorts of texts.
pub fn texts() -> Vec<Texts> {
    let mut chance = Chance::new(3);
    let chance = &mut chance;
    let [ascii, two, three, four] = SPANS;
    let mut sorts = vec![
        ("ASCII", text(LENGTH, || one(chance, ascii))),
        ("two bytes", text(LENGTH, || one(chance, two))),
        ("two bytes, spaces", text(LENGTH, || of_words(chance, two))),
        ("three bytes", text(LENGTH, || one(chance, three))),
        ("four bytes", text(LENGTH, || one(chance, four))),
        (
            "mixed",
            text(LENGTH, || {
                let span = chance.one_of(&SPANS);
                one(chance, span)
            }),
        ),
    ]
    .into_iter()
    .map(|(name, text)| Texts {
        name,
        texts: vec![text],
    })
    .collect::<Vec<_>>();
    sorts.push(Texts {
        name: "short names",
        texts: (0..NAMES).map(|_| name(chance)).collect(),
    });
    sorts
}

/// A name of 4 to 43 bytes: ASCII, and one of four in words of two-byte letters.
pub fn name(chance: &mut Chance) -> Vec<u8> {
    let [ascii, two, ..] = SPANS;
    let length = 4 + chance.below(39);
    let span = if chance.below(4) == 0 { two } else { ascii };
    text(length, || of_words(chance, span))
}

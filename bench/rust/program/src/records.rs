//! Asks for records of parts that fill the largest table: the answers first, then the times. A question reads the part
//! anew, and then steps to its record; most rows lie inside of what it steps over.

use crate::inputs::{name, Chance};
use crate::ours::{self, Question};
use crate::payloads::{bytes, element};
use crate::reads::{NUMBERS, WIDTH};
use crate::timing::Report;
use matroska::opened::ids::*;
use matroska::{Chapter, ChapterDisplay, ChapterEdition, Language, Parseable, SimpleTag, Tag};
use matroska::{TagValue, Target};
use std::cell::RefCell;
use std::hint::black_box;
use std::process::exit;

/// How many elements each part has.
const ELEMENTS: usize = 4_096;

/// Tags: each has 256 elements, 252 of them in four simple tags, and of those 240 in simple tags within.
const TAG_COUNT: usize = 16;
const SIMPLE_COUNT: usize = 4;
const WITHIN: usize = 15;

/// Chapters: of the 4,092 elements in the edition's atoms, 3,861 are in atoms within. An atom has seven of its own and
/// 13 atoms of nine.
const ATOM_COUNT: usize = 33;
const ATOMS_WITHIN: usize = 13;

/// What the tags are for: Matroska's number for an album.
const TARGET: u64 = 50;

/// A part's payload, the id that it is read under, and what it is asked: a name, and the questions.
pub struct Records {
    part: &'static str,
    bytes: Vec<u8>,
    parent: u32,
    asked: Vec<(&'static str, Vec<Question>)>,
}

pub fn records() -> Vec<Records> {
    let chance = &mut Chance::new(13);
    let both = |counts: (usize, usize), question: fn(u64, u64) -> Question| {
        let all = (0..counts.0 as u64).flat_map(|k| (0..counts.1 as u64).map(move |i| (k, i)));
        all.map(|(k, i)| question(k, i)).collect()
    };
    vec![
        Records {
            part: "Tags",
            bytes: (0..TAG_COUNT).flat_map(|_| tag(chance)).collect(),
            parent: TAG,
            asked: vec![
                ("tag", both((TAG_COUNT, 1), |k, _| Question::Tag(k))),
                ("simple", both((TAG_COUNT, SIMPLE_COUNT), Question::Simple)),
            ],
        },
        Records {
            part: "Chapters",
            bytes: edition(chance),
            parent: EDITIONENTRY,
            asked: vec![
                ("edition", vec![Question::Edition(0)]),
                ("chapter", both((1, ATOM_COUNT), Question::Chapter)),
                (
                    "display",
                    both((1, ATOM_COUNT), |k, i| Question::Display(k, i, 0)),
                ),
            ],
        },
    ]
}

/// A tag with its target and its simple tags.
fn tag(chance: &mut Chance) -> Vec<u8> {
    let target = [
        element(TARGETTYPEVALUE, &[TARGET as u8]),
        element(TAG_TRACK_UID, &bytes(chance, 4)),
    ];
    let mut all = element(TARGETS, &target.concat());
    for _ in 0..SIMPLE_COUNT {
        all.extend(simple(chance, WITHIN));
    }
    element(TAG, &all)
}

/// A simple tag: three elements, and so many simple tags within, each with a flag more.
fn simple(chance: &mut Chance, within: usize) -> Vec<u8> {
    let mut all = element(TAGNAME, &name(chance));
    for _ in 0..within {
        let inner = [
            element(TAGNAME, &name(chance)),
            element(TAGDEFAULT, &[1]),
            element(TAGSTRING, &name(chance)),
        ];
        all.extend(element(SIMPLETAG, &inner.concat()));
    }
    all.extend(element(TAGSTRING, &name(chance)));
    element(SIMPLETAG, &all)
}

/// An edition with three fields and its atoms.
fn edition(chance: &mut Chance) -> Vec<u8> {
    let mut all = [
        element(EDITIONUID, &bytes(chance, 4)),
        element(EDITIONFLAGHIDDEN, &[0]),
        element(EDITIONFLAGDEFAULT, &[1]),
    ]
    .concat();
    for _ in 0..ATOM_COUNT {
        let mut atom = times(chance);
        for _ in 0..ATOMS_WITHIN {
            let flags = [
                element(CHAPTERFLAGHIDDEN, &[0]),
                element(CHAPTERFLAGENABLED, &[1]),
            ];
            let inner = [times(chance), flags.concat(), display(chance)];
            atom.extend(element(CHAPTERATOM, &inner.concat()));
        }
        atom.extend(display(chance));
        all.extend(element(CHAPTERATOM, &atom));
    }
    element(EDITIONENTRY, &all)
}

/// Three fields of an atom.
fn times(chance: &mut Chance) -> Vec<u8> {
    [
        element(CHAPTERUID, &bytes(chance, 4)),
        element(CHAPTERTIMESTART, &bytes(chance, 5)),
        element(CHAPTERTIMEEND, &bytes(chance, 5)),
    ]
    .concat()
}

/// A display: three elements.
fn display(chance: &mut Chance) -> Vec<u8> {
    let texts = [
        element(CHAPSTRING, &name(chance)),
        element(CHAPLANGUAGE, b"eng"),
    ];
    element(CHAPTERDISPLAY, &texts.concat())
}

// ---- The crate's records, as sums of their fields ----

fn language(language: &Language) -> u64 {
    match language {
        Language::ISO639(text) | Language::IETF(text) => text.len() as u64,
    }
}

fn target(target: &Target) -> u64 {
    let lists = [
        &target.track_uids,
        &target.edition_uids,
        &target.chapter_uids,
        &target.attachment_uids,
    ];
    let members: usize = lists.iter().map(|list| list.len()).sum();
    let words = target.target_type.as_ref().map_or(0, String::len);
    target.target_type_value.map_or(0, |_| TARGET) + (members + words) as u64
}

fn tag_sum(tag: &Tag) -> u64 {
    tag.targets.as_ref().map_or(0, target) + tag.simple.len() as u64
}

fn simple_sum(tag: &SimpleTag) -> u64 {
    let value = match &tag.value {
        None => 0,
        Some(TagValue::String(text)) => text.len(),
        Some(TagValue::Binary(bytes)) => bytes.len(),
    };
    let told = tag.language.as_ref().map_or(0, language);
    tag.name.len() as u64 + told + u64::from(tag.default) + value as u64
}

fn edition_sum(edition: &ChapterEdition) -> u64 {
    let flags = [edition.hidden, edition.default, edition.ordered].map(u64::from);
    edition.uid.unwrap_or(0) + flags.iter().sum::<u64>() + edition.chapters.len() as u64
}

/// Its flags are left out: no atom that is asked for has one.
fn chapter_sum(chapter: &Chapter) -> u64 {
    let start = chapter.time_start.as_nanos() as u64;
    let end = chapter.time_end.map_or(0, |end| end.as_nanos() as u64);
    let linked = chapter.segment_uid.as_ref().map_or(0, Vec::len) as u64;
    let edition = chapter.segment_edition_uid.unwrap_or(0);
    chapter.uid + start + end + linked + edition + chapter.display.len() as u64
}

fn display_sum(display: &ChapterDisplay) -> u64 {
    display.string.len() as u64 + language(&display.language)
}

/// What the crate's record comes to; it parses the whole part.
fn by_crate(mut payload: &[u8], asked: Question) -> Option<u64> {
    let size = payload.len() as u64;
    match asked {
        Question::Tag(k) => {
            let tags = Tag::parse(&mut payload, size).ok()?;
            tags.get(k as usize).map(tag_sum)
        }
        Question::Simple(k, i) => {
            let tags = Tag::parse(&mut payload, size).ok()?;
            tags.get(k as usize)?.simple.get(i as usize).map(simple_sum)
        }
        Question::Edition(k) => {
            let editions = ChapterEdition::parse(&mut payload, size).ok()?;
            editions.get(k as usize).map(edition_sum)
        }
        Question::Chapter(k, i) => {
            let editions = ChapterEdition::parse(&mut payload, size).ok()?;
            let chapters = &editions.get(k as usize)?.chapters;
            chapters.get(i as usize).map(chapter_sum)
        }
        Question::Display(k, i, j) => {
            let editions = ChapterEdition::parse(&mut payload, size).ok()?;
            let chapter = editions.get(k as usize)?.chapters.get(i as usize)?;
            chapter.display.get(j as usize).map(display_sum)
        }
    }
}

// ---- Answers and times ----

/// Each question gets the crate's answer, and the question behind the last one 15.
pub fn check(records: &[Records]) {
    for Records { bytes, asked, .. } in records {
        for question in asked.iter().flat_map(|(_, questions)| questions) {
            let mut table = vec![0; NUMBERS];
            let ours = ours::record(bytes, *question, &mut table);
            let theirs = by_crate(bytes, *question);
            if ours != theirs.map(|sum| (ELEMENTS as u64, sum)).ok_or(15) {
                eprintln!("bench: {question:?}: ours {ours:?}, the crate {theirs:?}");
                exit(1);
            }
        }
        let (_, last) = &asked[0];
        let past = match last[last.len() - 1] {
            Question::Tag(k) => Question::Tag(k + 1),
            _ => Question::Edition(1),
        };
        let ours = ours::record(bytes, past, &mut vec![0; NUMBERS]);
        if ours != Err(15) || by_crate(bytes, past).is_some() {
            eprintln!("bench: {past:?}: ours {ours:?}, and 15 was expected");
            exit(1);
        }
    }
}

/// For each depth of the masters that are stepped over: how many of the part's rows lie directly there.
fn levels(records: &Records) -> Vec<usize> {
    let mut table = vec![0; NUMBERS];
    let Records { bytes, parent, .. } = records;
    ours::read(bytes, 0, bytes.len() as u64, *parent, &mut table).expect("it was read before");
    let depth = |row: &[u64]| row[6] as usize;
    let rows = || table.chunks(WIDTH).filter(|row| row[0] != 0);
    let deepest = rows().map(depth).max().unwrap_or(0);
    (0..=deepest)
        .map(|level| rows().filter(|row| depth(row) == level).count())
        .collect()
}

pub fn time(records: &Records, report: &mut Report) {
    let Records {
        part,
        bytes,
        parent,
        asked,
    } = records;
    println!("records, {part}: rows at each depth {:?}", levels(records));
    let table = RefCell::new(vec![0; NUMBERS]);
    for (name, questions) in asked {
        let size = bytes.len() as u64;
        let count = |answered: &dyn Fn(Question) -> bool| {
            let all = questions.iter();
            all.filter(|question| answered(**question)).count() as u64
        };
        report.compare_questions(
            &format!("records, {name}"),
            &format!("a question ({} of {part}, {size} bytes)", questions.len()),
            questions.len(),
            &[
                (
                    "ours, the question",
                    Box::new(|| {
                        count(&|question| {
                            let bytes = black_box(bytes);
                            ours::record(bytes, question, &mut table.borrow_mut()).is_ok()
                        })
                    }),
                ),
                (
                    "the read alone",
                    Box::new(|| {
                        count(&|_| {
                            let bytes = black_box(bytes);
                            ours::read(bytes, 0, size, *parent, &mut table.borrow_mut()).is_ok()
                        })
                    }),
                ),
                (
                    "the crate's records",
                    Box::new(|| {
                        count(&|question| black_box(by_crate(black_box(bytes), question)).is_some())
                    }),
                ),
            ],
        );
    }
}

//! Searches for Chapters by ours and by the crate's `get`: the answers first, then the times.

use crate::inputs::{name, Chance};
use crate::ours;
use crate::payloads::{bytes, element, elements, entry};
use crate::reads::{number, NUMBERS, WIDTH};
use crate::timing::Report;
use matroska::opened::ids::*;
use matroska::opened::number::number_read;
use matroska::opened::{read_element_id_size, Element, ElementType, Result};
use matroska::{get, ChapterEdition, Parseable};
use std::cell::RefCell;
use std::hint::black_box;
use std::io::{Cursor, Read};
use std::process::exit;

/// How many elements Chapters has.
pub const SIZES: [usize; 3] = [64, 512, 4_096];

/// The most elements of an edition.
const EDITION: usize = 512;

/// An edition with its first chapter has so many elements, and each other chapter.
const FIRST: usize = 16;
const CHAPTER: usize = 8;

/// Clusters that are passed over, or that a seek head leads past, and how many bytes each has.
const CLUSTERS: usize = 64;
const CLUSTER: usize = 16_384;

/// Two ids that the crate has no name for.
const EBML: u32 = 0x1A45_DFA3;
const CLUSTER_ID: u32 = 0x1F43_B675;

/// How many cut copies of each recording are searched before the timing.
const CUT: usize = 200;

/// A recording with Chapters at its end.
pub struct Recording {
    way: &'static str,
    elements: usize,
    /// How many seek heads lead to Chapters.
    heads: u64,
    bytes: Vec<u8>,
    /// Where the payload of Chapters starts.
    start: usize,
}

/// The recordings of each size, with a seek head and without.
pub fn recordings() -> Vec<Vec<Recording>> {
    [true, false]
        .map(|headed| {
            SIZES
                .map(|size| recording(size, headed, &mut Chance::new(11)))
                .into()
        })
        .into()
}

fn recording(size: usize, headed: bool, chance: &mut Chance) -> Recording {
    let chapters = chapters(size, chance);
    let start = [
        element(0x4286, &[1]),
        element(0x42F7, &[1]),
        element(0x42F2, &[4]),
        element(0x42F3, &[8]),
        element(0x4282, b"matroska"),
        element(0x4287, &[4]),
        element(0x4285, &[2]),
    ];
    let mut parts = vec![
        (INFO, elements(chance, &[INFO], SEGMENT)),
        (TRACKS, elements(chance, &[TRACKS], SEGMENT)),
    ];
    let cluster = element(CLUSTER_ID, &vec![0; CLUSTER]);
    parts.extend((0..CLUSTERS).map(|_| (CLUSTER_ID, cluster.clone())));
    parts.push((TAGS, elements(chance, &[TAGS], SEGMENT)));
    parts.push((CHAPTERS, element(CHAPTERS, &chapters)));
    let mut body = Vec::new();
    if headed {
        body = head(&parts);
    }
    body.extend(parts.into_iter().flat_map(|(_, part)| part));
    let bytes = [element(EBML, &start.concat()), element(SEGMENT, &body)].concat();
    Recording {
        way: if headed {
            "by a seek head"
        } else {
            "by a walk"
        },
        elements: size,
        heads: headed.into(),
        start: bytes.len() - chapters.len(),
        bytes,
    }
}

/// A seek head that names every part behind it but the clusters.
fn head(parts: &[(u32, Vec<u8>)]) -> Vec<u8> {
    let with = |mut position: u64| {
        let mut entries = Vec::new();
        for (id, part) in parts {
            if *id != CLUSTER_ID {
                entries.extend(entry(*id, position));
            }
            position += part.len() as u64;
        }
        element(SEEKHEAD, &entries)
    };
    let length = with(0).len();
    with(length as u64)
}

/// The payload of Chapters, of so many elements, a quarter of them texts.
pub fn chapters(size: usize, chance: &mut Chance) -> Vec<u8> {
    let mut all = Vec::new();
    let mut left = size;
    while left > 0 {
        let here = left.min(EDITION);
        let mut edition = [
            element(EDITIONUID, &bytes(chance, 8)),
            element(EDITIONFLAGHIDDEN, &[0]),
            element(EDITIONFLAGDEFAULT, &[1]),
            first_chapter(chance),
        ]
        .concat();
        for _ in 0..(here - FIRST) / CHAPTER {
            edition.extend(chapter(chance));
        }
        all.extend(element(EDITIONENTRY, &edition));
        left -= here;
    }
    all
}

/// A display: three elements, two of them texts.
fn display(chance: &mut Chance) -> Vec<u8> {
    let texts = [
        element(CHAPSTRING, &name(chance)),
        element(CHAPLANGUAGE, b"eng"),
    ];
    element(CHAPTERDISPLAY, &texts.concat())
}

/// What every chapter has: four elements, none of them a text.
fn times(chance: &mut Chance) -> Vec<u8> {
    [
        element(CHAPTERUID, &bytes(chance, 8)),
        element(CHAPTERTIMESTART, &bytes(chance, 5)),
        element(CHAPTERTIMEEND, &bytes(chance, 5)),
        element(CHAPTERFLAGENABLED, &[1]),
    ]
    .concat()
}

/// A chapter: eight elements, two of them texts.
fn chapter(chance: &mut Chance) -> Vec<u8> {
    element(CHAPTERATOM, &[times(chance), display(chance)].concat())
}

/// A chapter with a flag and a second display: with its edition's four elements 16, four of them texts.
fn first_chapter(chance: &mut Chance) -> Vec<u8> {
    let parts = [
        times(chance),
        element(CHAPTERFLAGHIDDEN, &[0]),
        display(chance),
        display(chance),
    ];
    element(CHAPTERATOM, &parts.concat())
}

/// Chapters as the crate reads it before it makes records of it: the elements.
struct Tree;

impl Parseable for Tree {
    type Output = Vec<Element>;

    const ID: u32 = CHAPTERS;

    fn parse<R: Read>(r: &mut R, size: u64) -> Result<Vec<Element>> {
        Element::parse_master(r, size, Some(EDITIONENTRY))
    }
}

fn tree(bytes: &[u8]) -> Result<Option<Vec<Element>>> {
    get::<_, Tree>(Cursor::new(bytes))
}

fn records(bytes: &[u8]) -> Result<Option<Vec<ChapterEdition>>> {
    get::<_, ChapterEdition>(Cursor::new(bytes))
}

/// The numbers of the rows; or none for an absent part; or the number of the refusal.
type Rows = std::result::Result<Option<Vec<[u64; WIDTH]>>, u64>;

fn by_ours(bytes: &[u8]) -> Rows {
    let mut table = vec![0; NUMBERS];
    let (found, _) = ours::part(bytes, CHAPTERS, &mut table)?;
    let rows = table.chunks(WIDTH).take_while(|row| row[0] != 0);
    let rows = rows.map(|row| row.try_into().expect("a row has its numbers"));
    Ok(found.then(|| rows.collect()))
}

fn by_crate(bytes: &[u8], start: usize) -> Rows {
    let tree = tree(bytes).map_err(|error| number(&error))?;
    Ok(tree.map(|elements| {
        let mut rows = Vec::new();
        gather(bytes, &elements, start as u64, 0, 0, &mut rows);
        rows
    }))
}

/// The rows of elements from an address on. The tree has no addresses and no headers: these are read again.
fn gather(
    bytes: &[u8],
    elements: &[Element],
    mut at: u64,
    parent: u64,
    depth: u64,
    rows: &mut Vec<[u64; WIDTH]>,
) {
    for element in elements {
        let header = read_element_id_size(&mut &bytes[at as usize..]);
        let (id, size, length) = header.expect("it was read before");
        assert_eq!((id, length + size), (element.id, element.size));
        let kind = number_read(&element.val);
        let own = rows.len();
        rows.push([id.into(), parent, at, length, size, kind, depth, 0]);
        if let ElementType::Master(children) = &element.val {
            let row = rows.len() as u64;
            gather(bytes, children, at + length, row, depth + 1, rows);
        }
        // The first row behind all that the element holds.
        rows[own][WIDTH - 1] = rows.len() as u64;
        at += element.size;
    }
}

/// Each recording, and each cut: anywhere, or in Chapters.
pub fn check(recordings: &[Vec<Recording>]) {
    let chance = &mut Chance::new(12);
    for recording in recordings.iter().flatten() {
        let Recording { bytes, start, .. } = recording;
        let rows = same(recording, bytes).unwrap_or_default();
        let texts = rows.iter().filter(|row| row[5] == 4 || row[5] == 5);
        let counted = (rows.len(), texts.count());
        let editions = records(bytes).ok().flatten().unwrap_or_default();
        let chapters: usize = editions.iter().map(|edition| edition.chapters.len()).sum();
        let atoms = rows.iter().filter(|row| row[0] == u64::from(CHAPTERATOM));
        let expected = (recording.elements, recording.elements / 4);
        let found = ours::part(bytes, CHAPTERS, &mut vec![0; NUMBERS]);
        if counted != expected || chapters != atoms.count() || found != Ok((true, recording.heads))
        {
            eprintln!(
                "bench: search, {}: {counted:?} elements and texts, {expected:?} were expected; \
                 {chapters} chapters by the crate's records; ours found {found:?}",
                recording.way,
            );
            exit(1);
        }
        for _ in 0..CUT {
            same(recording, &bytes[..chance.below(bytes.len())]);
            same(
                recording,
                &bytes[..start + chance.below(bytes.len() - start)],
            );
        }
    }
}

fn same(recording: &Recording, bytes: &[u8]) -> Option<Vec<[u64; WIDTH]>> {
    let ours = by_ours(bytes);
    let theirs = by_crate(bytes, recording.start);
    if ours != theirs {
        let told = |rows: &Rows| {
            rows.as_ref()
                .map(|rows| rows.as_ref().map(Vec::len))
                .map_err(|n| *n)
        };
        eprintln!(
            "bench: search, {}, {} elements, {} bytes: not the same rows, or another refusal: \
             ours {:?}, the crate {:?}",
            recording.way,
            recording.elements,
            bytes.len(),
            told(&ours),
            told(&theirs),
        );
        exit(1);
    }
    ours.ok().flatten()
}

pub fn time(recordings: &[Recording], report: &mut Report) {
    let mut took = Vec::new();
    for recording in recordings {
        let Recording { way, elements, .. } = recording;
        let most = RefCell::new(vec![0; NUMBERS]);
        let fitting = RefCell::new(vec![0; elements * WIDTH]);
        let rows = |table: &RefCell<Vec<u64>>| {
            let bytes = &black_box(recording).bytes;
            let found = ours::part(bytes, CHAPTERS, &mut table.borrow_mut());
            u64::from(found.is_ok_and(|(found, _)| found))
        };
        let size = recording.bytes.len() - recording.start;
        took.push(report.compare_whole(
            &format!("search {elements} elements, {way}"),
            &format!("a search ({size} bytes in Chapters)"),
            *elements as u64,
            &[
                ("ours, 4,096 rows", Box::new(|| rows(&most))),
                ("ours, rows that fit", Box::new(|| rows(&fitting))),
                (
                    "the crate's get, tree",
                    Box::new(|| {
                        let found = black_box(tree(&black_box(recording).bytes));
                        u64::from(found.is_ok_and(|found| found.is_some()))
                    }),
                ),
                (
                    "the crate's get, records",
                    Box::new(|| {
                        let found = black_box(records(&black_box(recording).bytes));
                        u64::from(found.is_ok_and(|found| found.is_some()))
                    }),
                ),
            ],
        ));
    }
    report.grow(&format!("search, {}", recordings[0].way), &SIZES, &took);
}

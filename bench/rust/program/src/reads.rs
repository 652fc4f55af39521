//! Reads payloads by ours and by the crate: the answers first, then the times.

use crate::inputs::Chance;
use crate::ours;
use crate::payloads::Payload;
use crate::timing::Report;
use matroska::opened::{Element, ElementType};
use matroska::MatroskaError;
use std::cell::RefCell;
use std::hint::black_box;
use std::process::exit;

/// How many numbers a row has, as the C header says, and the largest table.
pub const WIDTH: usize = match usize::from_str_radix(env!("UZ_WIDTH"), 10) {
    Ok(width) => width,
    Err(_) => panic!("the width is no number"),
};
pub const NUMBERS: usize = 4_096 * WIDTH;

/// How many cut copies of each payload are read before the timing.
const CUT: usize = 200;

/// Payloads that are refused under parent 0, with each number from 1 to 7 at least once.
const REFUSED: [&[u8]; 10] = [
    &[0xAE],
    &[0x0F, 0x80],
    &[0xAE, 0x00, 0x01],
    &[0x83, 0x89, 0, 0, 0, 0, 0, 0, 0, 0, 0],
    &[0xFB, 0x89, 0, 0, 0, 0, 0, 0, 0, 0, 0],
    &[0xB5, 0x80],
    &[0x44, 0x61, 0x87],
    &[0x45, 0xA3, 0x82, 0xC0, 0x80],
    &[0x45, 0xA3, 0x83, 0xED, 0xA0, 0x80],
    &[0x67, 0xC8, 0x81, 0x45, 0xA3, 0x82, 0x41, 0x42],
];

/// The ids of the elements, each before its children's; or the number of the refusal.
type Ids = Result<Vec<u64>, u64>;

fn by_ours(recording: &[u8], size: u64, parent: u32) -> Ids {
    let mut table = vec![0; NUMBERS];
    let rows = ours::read(recording, 0, size, parent, &mut table)?;
    let rows = table.chunks(WIDTH).take(rows as usize);
    Ok(rows.map(|row| row[0]).collect())
}

fn tree(mut recording: &[u8], size: u64, parent: u32) -> matroska::opened::Result<Vec<Element>> {
    Element::parse_master(&mut recording, size, Some(parent))
}

fn by_crate(recording: &[u8], size: u64, parent: u32) -> Ids {
    let elements = tree(recording, size, parent).map_err(|error| number(&error))?;
    let mut ids = Vec::new();
    gather(&elements, &mut ids);
    Ok(ids)
}

fn gather(elements: &[Element], ids: &mut Vec<u64>) {
    for element in elements {
        ids.push(element.id.into());
        if let ElementType::Master(children) = &element.val {
            gather(children, ids);
        }
    }
}

/// Document 01's number of an error of the crate's.
pub fn number(error: &MatroskaError) -> u64 {
    match error {
        MatroskaError::Io(_) => 1,
        MatroskaError::InvalidID => 2,
        MatroskaError::InvalidSize => 3,
        MatroskaError::InvalidUint => 4,
        MatroskaError::InvalidFloat => 5,
        MatroskaError::InvalidDate => 6,
        MatroskaError::UTF8(_) => 7,
        MatroskaError::InvalidSeekHead { .. } => 8,
    }
}

/// What is refused, each payload, and each cut: the recording after some bytes, or the size.
pub fn check(payloads: &[Payload]) {
    for bytes in REFUSED {
        same("a refused payload", bytes, bytes.len() as u64, 0);
    }
    let mut chance = Chance::new(6);
    for payload in payloads {
        let Payload { name, bytes, .. } = payload;
        same(name, bytes, payload.size(), payload.parent);
        for _ in 0..CUT {
            let place = chance.below(bytes.len());
            same(name, &bytes[..place], payload.size(), payload.parent);
            same(name, bytes, place as u64, payload.parent);
        }
    }
}

fn same(name: &str, recording: &[u8], size: u64, parent: u32) {
    let ours = by_ours(recording, size, parent);
    let counted = ours::count(recording, 0, size, parent);
    let theirs = by_crate(recording, size, parent);
    if ours != theirs || counted != count(&theirs) {
        eprintln!(
            "bench: {name}, size {size} in {} bytes: not the same elements, or another refusal: \
             ours {:?} with rows and {counted:?} without, the crate {:?}",
            recording.len(),
            count(&ours),
            count(&theirs),
        );
        exit(1);
    }
}

fn count(ids: &Ids) -> ours::Answer {
    ids.as_ref()
        .map(|ids| ids.len() as u64)
        .map_err(|&number| number)
}

pub fn time(payload: &Payload, report: &mut Report) {
    let Payload { name, bytes, .. } = payload;
    let size = payload.size();
    let elements = ours::count(bytes, 0, size, payload.parent).expect("it was read before");
    let most = RefCell::new(vec![0; NUMBERS]);
    let fitting = RefCell::new(vec![0; elements as usize * WIDTH]);
    let rows = |table: &RefCell<Vec<u64>>| {
        let Payload { bytes, parent, .. } = black_box(payload);
        u64::from(ours::read(bytes, 0, size, *parent, &mut table.borrow_mut()).is_ok())
    };
    report.compare_whole(
        &format!("read, {name}"),
        &format!("a read ({elements} elements in {size} bytes)"),
        elements,
        &[
            ("ours, 4,096 rows", Box::new(|| rows(&most))),
            ("ours, rows that fit", Box::new(|| rows(&fitting))),
            (
                "ours, without rows",
                Box::new(|| {
                    let Payload { bytes, parent, .. } = black_box(payload);
                    u64::from(ours::count(bytes, 0, size, *parent).is_ok())
                }),
            ),
            (
                "the crate's tree",
                Box::new(|| {
                    let Payload { bytes, parent, .. } = black_box(payload);
                    u64::from(black_box(tree(bytes, size, *parent)).is_ok())
                }),
            ),
        ],
    );
}

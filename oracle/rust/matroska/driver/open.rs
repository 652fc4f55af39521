//! The whole recording by the crate's `Matroska::open`. It shows records and no places. The
//! driver goes the same way with the crate's own readers and notes the place of each part; both
//! readers have to be sent the same way, and the parts at these places have to be what `open`
//! shows.

use super::read::{rows, table};
use super::{call, Failed, Outcome, Reader};
use crate::ebml::{self, Element};
use crate::{ids, Attachment, ChapterEdition, Info, Matroska, Parseable, Seektable, Tag, Track};
use std::io::{Seek, SeekFrom};

/// The five parts in the order in which `open` looks them up: the name, the id, and the parent
/// under which the crate's own record of it has the payload read.
const PARTS: [(&str, u32, u32); 5] = [
    ("info", ids::INFO, ids::INFO),
    ("tracks", ids::TRACKS, ids::TRACKENTRY),
    ("attachments", ids::ATTACHMENTS, ids::ATTACHEDFILE),
    ("chapters", ids::CHAPTERS, ids::EDITIONENTRY),
    ("tags", ids::TAGS, ids::TAG),
];

/// A part's payload: its address, its size and its tree.
struct Found {
    at: u64,
    size: u64,
    elements: Vec<Element>,
}

/// What `open` has read: the part of each sort that stands at its end, and how many heads.
#[derive(Default)]
struct Met {
    parts: [Option<Found>; 5],
    heads: u64,
}

/// The answer for a recording.
pub(crate) fn open(bytes: &[u8]) -> Outcome<String> {
    let mut reader = Reader::at(bytes, 0);
    let own = call(|| Matroska::open(&mut reader));
    let mut beside = Reader::at(bytes, 0);
    let met = call(|| go(&mut beside));
    if reader.way() != beside.way() {
        return Err(Failed::Fault);
    }
    let (own, met) = match (own, met) {
        (Ok(own), Ok(met)) => (own, met),
        (Err(own), Err(met)) if own == met => return Err(own),
        _ => return Err(Failed::Fault),
    };

    let shown = Matroska {
        info: shown::<Info>(&met, 0, bytes)?.unwrap_or_else(Info::new),
        tracks: shown::<Track>(&met, 1, bytes)?.unwrap_or_default(),
        attachments: shown::<Attachment>(&met, 2, bytes)?.unwrap_or_default(),
        chapters: shown::<ChapterEdition>(&met, 3, bytes)?.unwrap_or_default(),
        tags: shown::<Tag>(&met, 4, bytes)?.unwrap_or_default(),
    };
    // Compared as they are shown: there a NaN is equal to itself.
    if format!("{:?}", own) != format!("{:?}", shown) {
        return Err(Failed::Fault);
    }

    let mut told = format!("heads {}", met.heads);
    for ((name, ..), found) in PARTS.iter().zip(&met.parts) {
        told += &match found {
            None => format!(" {} absent {}", name, table(&[])),
            Some(found) => {
                let rows = rows(&found.elements, found.at, bytes)?;
                let place = format!("at {} size {}", found.at, found.size);
                format!(" {} {} {}", name, place, table(&rows))
            }
        };
    }
    Ok(told)
}

/// What the crate's own record makes of the part that was met, if one was.
fn shown<P: Parseable>(met: &Met, number: usize, bytes: &[u8]) -> Outcome<Option<P::Output>> {
    let Some(found) = &met.parts[number] else {
        return Ok(None);
    };
    let mut reader = Reader::at(bytes, found.at);
    call(|| P::parse(&mut reader, found.size)).map(Some)
}

/// Goes the way of `open`.
fn go(reader: &mut Reader) -> ebml::Result<Met> {
    let mut met = Met::default();
    let mut left = loop {
        let (id, size, _) = ebml::read_element_id_size(reader)?;
        if id == ids::SEGMENT {
            break size;
        }
        reader.seek(SeekFrom::Current(size as i64))?;
    };
    let start = reader.stream_position()?;
    while left > 0 {
        let (id, size, length) = ebml::read_element_id_size(reader)?;
        let number = PARTS.iter().position(|(_, part, _)| *part == id);
        if id == ids::SEEKHEAD {
            let seeks = Seektable::parse(reader, start, size)?;
            met.heads = 1 + reader.starts();
            for (number, (_, id, _)) in PARTS.iter().enumerate() {
                if let Some(place) = seeks.get(*id)? {
                    reader.seek(SeekFrom::Start(place))?;
                    let (found, size, _) = ebml::read_element_id_size(reader)?;
                    assert_eq!(found, *id);
                    met.take(number, size, reader)?;
                }
            }
            break;
        } else if let Some(number) = number {
            met.take(number, size, reader)?;
        } else {
            reader.seek(SeekFrom::Current(size as i64))?;
        }
        left -= length;
        left -= size;
    }
    Ok(met)
}

impl Met {
    /// Reads a part at the reader's place, which takes the place of an earlier one.
    fn take(&mut self, number: usize, size: u64, reader: &mut Reader) -> ebml::Result<()> {
        let at = reader.place();
        let (_, _, parent) = PARTS[number];
        let elements = Element::parse_master(reader, size, Some(parent))?;
        self.parts[number] = Some(Found { at, size, elements });
        Ok(())
    }
}

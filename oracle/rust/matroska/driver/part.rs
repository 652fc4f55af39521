//! The search for a part, by the crate's `get` with a part of our own that
//! notes where its payload starts.

use super::read::{rows, table};
use super::reader::place;
use super::{call, Failed, Outcome, Reader};
use crate::ebml::{self, Element};
use crate::{ids, Attachment, ChapterEdition, Parseable, Tag, Track};
use std::io::{self, Seek, SeekFrom};

/// A part whose payload is read under the parent that the crate's own record
/// of that id uses.
struct Wanted<const ID: u32, const PARENT: u32>;

/// A part's payload: its address, its size and its tree.
struct Found {
    at: u64,
    size: u64,
    elements: Vec<Element>,
}

impl<const ID: u32, const PARENT: u32> Parseable for Wanted<ID, PARENT> {
    type Output = Found;

    const ID: u32 = ID;

    fn parse<R: io::Read>(r: &mut R, size: u64) -> ebml::Result<Found> {
        let at = place();
        let elements = Element::parse_master(r, size, Some(PARENT))?;
        Ok(Found { at, size, elements })
    }
}

/// The answer for one of the four parts; for any other id there is none.
pub(crate) fn part(id: u32, bytes: &[u8]) -> Option<Outcome<String>> {
    use self::ids::{ATTACHEDFILE, EDITIONENTRY, TAG, TRACKENTRY};
    use self::ids::{ATTACHMENTS, CHAPTERS, TAGS, TRACKS};

    Some(match id {
        TRACKS => search::<TRACKS, TRACKENTRY, Track>(bytes),
        ATTACHMENTS => search::<ATTACHMENTS, ATTACHEDFILE, Attachment>(bytes),
        CHAPTERS => search::<CHAPTERS, EDITIONENTRY, ChapterEdition>(bytes),
        TAGS => search::<TAGS, TAG, Tag>(bytes),
        _ => return None,
    })
}

fn search<const ID: u32, const PARENT: u32, Own: Parseable>(bytes: &[u8]) -> Outcome<String> {
    let mut reader = Reader::at(bytes, 0);
    let found = call(|| crate::get::<_, Wanted<ID, PARENT>>(&mut reader));
    let starts = reader.starts();

    // The crate's own record of that part must end the same way.
    let own = call(|| crate::get::<_, Own>(Reader::at(bytes, 0)));
    let agree = match (&found, &own) {
        (Ok(found), Ok(own)) => found.is_some() == own.is_some(),
        (Err(found), Err(own)) => found == own,
        _ => false,
    };
    if !agree {
        return Err(Failed::Fault);
    }

    match found? {
        // Each head but the first was sought by its address, and so was the
        // part if a head named it.
        Some(found) => {
            let rows = rows(&found.elements, found.at, bytes)?;
            Ok(format!(
                "at {} size {} heads {} {}",
                found.at,
                found.size,
                starts,
                table(&rows)
            ))
        }
        None => {
            let heads = if meets_head(bytes)? { 1 + starts } else { 0 };
            Ok(format!("absent heads {} rows 0 rest 0", heads))
        }
    }
}

/// Whether the walk over the segment's children came to a seek head. It is
/// asked only where `get` found the part absent, so the walk is the same.
fn meets_head(bytes: &[u8]) -> Outcome<bool> {
    call(|| {
        let mut reader = Reader::at(bytes, 0);
        let mut left = loop {
            let (id, size, _) = ebml::read_element_id_size(&mut reader)?;
            if id == ids::SEGMENT {
                break size;
            }
            reader.seek(SeekFrom::Current(size as i64))?;
        };
        while left > 0 {
            let (id, size, length) = ebml::read_element_id_size(&mut reader)?;
            if id == ids::SEEKHEAD {
                return Ok(true);
            }
            reader.seek(SeekFrom::Current(size as i64))?;
            left -= length;
            left -= size;
        }
        Ok(false)
    })
    .map_err(|_| Failed::Fault)
}

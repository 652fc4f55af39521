//! Live mode, read straight from document 02 (C-18), RFC 8794 and RFC 9559, and apart from the
//! crate: where a Segment or Cluster of unknown size ends, the walk of the search over them,
//! and the recording with known sizes in their place, which the crate can read.

use crate::open;
use crate::part::{self, Live, Stop};
use crate::reading::{header, End, Header};
use crate::records::{self, told_by};
use crate::rules;
use crate::table::{self, Due};
use crate::{owner, refusal};
use question::{parse, Question, LIVE};
use tools::ids::{CLUSTER, EBML, SEEK_HEAD, SEGMENT};

/// The exception of a live question that the crate can't be asked in any form.
pub const LIVE_MODE: &str = "live";

/// The ids that a file has at its top.
const FILE_IDS: [u32; 2] = [EBML, SEGMENT];

/// The children of a Segment by RFC 9559: SeekHead, Info, Tracks, Chapters, Cluster, Cues,
/// Attachments and Tags. Void and CRC-32 may stand in any master and are none of them.
const SEGMENT_CHILDREN: [u32; 8] = [
    SEEK_HEAD, 0x1549A966, 0x1654AE6B, 0x1043A770, CLUSTER, 0x1C53BB6B, 0x1941A469, 0x1254C367,
];

/// Whether an element of that id may have an unknown size where the search walks.
pub fn endless(id: u32) -> bool {
    id == SEGMENT || id == CLUSTER
}

/// What a walk comes to.
#[derive(Clone, Copy)]
pub enum Met {
    Nothing,
    /// A seek head, with the address of its header.
    Head(u64, Header),
    /// A child whose visit ended the walk.
    Ended,
}

/// What is done with a child of the segment, by its address and header: whether the walk ends.
pub type Visit<'a> = dyn FnMut(u64, &Header) -> Result<bool, Stop> + 'a;

/// A walk, and what stands in it in place of sizes.
pub struct Walk {
    pub met: Result<Met, Stop>,
    /// Where the segment's payload begins.
    pub start: u64,
    /// The headers of unknown size that were passed over, and that of the segment.
    sizes: Vec<Sized>,
    /// The place of an element's ending can't be told: a header in it is refused, or 17.
    in_ending: bool,
}

/// A header of unknown size, and the size of its payload; `None` if it ends before that begins.
struct Sized {
    at: u64,
    header: Header,
    size: Option<u64>,
}

impl Walk {
    /// One in which every size is a number.
    pub fn plain(met: Result<Met, Stop>, start: u64) -> Walk {
        Walk {
            met,
            start,
            sizes: Vec::new(),
            in_ending: false,
        }
    }
}

/// Walks over the file's elements to the segment, and over its children up to the first head
/// or to a visit that ends the walk.
pub fn walk(bytes: &[u8], visit: &mut Visit) -> Walk {
    let mut walker = Walker {
        bytes,
        sizes: Vec::new(),
        in_ending: false,
        start: 0,
    };
    let met = walker.file(visit);
    Walk {
        met,
        start: walker.start,
        sizes: walker.sizes,
        in_ending: walker.in_ending,
    }
}

struct Walker<'a> {
    bytes: &'a [u8],
    sizes: Vec<Sized>,
    in_ending: bool,
    start: u64,
}

impl Walker<'_> {
    fn length(&self) -> u64 {
        self.bytes.len() as u64
    }

    /// The header at a place, and 17 directly behind it.
    fn header(&self, at: u64) -> Result<Header, End> {
        let header = header(self.bytes, at)?;
        if header.unknown && !endless(header.id) {
            return Err(End::Refused(17, at));
        }
        Ok(header)
    }

    /// The file's elements up to the segment.
    fn file(&mut self, visit: &mut Visit) -> Result<Met, Stop> {
        let mut at = 0;
        loop {
            let element = self.header(at)?;
            if element.id == SEGMENT {
                return self.segment(at, element, visit);
            }
            at = self.passed(at, element, self.length())?;
        }
    }

    /// The segment's children, up to its end or to what ends it.
    fn segment(&mut self, own: u64, segment: Header, visit: &mut Visit) -> Result<Met, Stop> {
        self.start = own + segment.header;
        let end = self.start + segment.payload;
        if segment.unknown {
            self.sizes.push(Sized {
                at: own,
                header: segment,
                size: self.reach(self.start).checked_sub(self.start),
            });
        }
        let mut at = self.start;
        loop {
            let limit = if segment.unknown { self.length() } else { end };
            if at >= limit {
                return Ok(Met::Nothing);
            }
            if segment.unknown && FILE_IDS.contains(&header(self.bytes, at)?.id) {
                return Ok(Met::Nothing);
            }
            let child = self.header(at)?;
            if child.id == SEEK_HEAD {
                return Ok(Met::Head(at, child));
            }
            if visit(at, &child)? {
                return Ok(Met::Ended);
            }
            let next = self.passed(at, child, limit)?;
            if !segment.unknown && next > end {
                return Err(Stop::Read(End::Refused(3, at)));
            }
            at = next;
        }
    }

    /// The place behind an element: by its size, or by its ending within a limit.
    fn passed(&mut self, at: u64, header: Header, limit: u64) -> Result<u64, End> {
        let body = at + header.header;
        if !header.unknown {
            return Ok(body + header.payload);
        }
        let ending = self.ending(header.id, body, limit);
        self.in_ending = ending.is_err();
        let end = ending?;
        // The limit may stand within the header.
        self.sizes.push(Sized {
            at,
            header,
            size: end.checked_sub(body),
        });
        Ok(end)
    }

    /// Where a Segment or Cluster of unknown size ends whose payload begins at a place: at the
    /// limit, at the end of the recording, or before what can't stand in it.
    fn ending(&self, id: u32, mut place: u64, limit: u64) -> Result<u64, End> {
        loop {
            if place >= limit {
                return Ok(limit);
            }
            if place >= self.length() {
                return Ok(self.length());
            }
            let next = header(self.bytes, place)?;
            if FILE_IDS.contains(&next.id) || id == CLUSTER && SEGMENT_CHILDREN.contains(&next.id) {
                return Ok(place);
            }
            let body = place + next.header;
            place = match next.unknown {
                false => body + next.payload,
                true if next.id == CLUSTER => self.ending(CLUSTER, body, limit)?,
                true => return Err(End::Refused(17, place)),
            };
        }
    }

    /// How far a segment of unknown size reaches: to where its last child ends, even if that
    /// is past the end of the recording; where its ending can't be told, to the recording's end.
    fn reach(&self, start: u64) -> u64 {
        let mut place = start;
        while place < self.length() {
            let Ok(next) = header(self.bytes, place) else {
                return self.length();
            };
            if FILE_IDS.contains(&next.id) {
                return place;
            }
            let body = place + next.header;
            place = match next.unknown {
                false => body + next.payload,
                true if next.id == CLUSTER => {
                    let ending = self.ending(CLUSTER, body, self.length());
                    ending.unwrap_or(self.length())
                }
                true => self.length(),
            };
        }
        place
    }
}

/// How a live question is held to the crate.
#[derive(Clone, Copy, PartialEq)]
pub enum Way {
    /// The crate is asked the plain question, of a recording with so many sizes replaced.
    Replaced(usize),
    /// The crate is asked the plain question as it is: no unknown size was met.
    Same,
    /// An unknown size is refused, which the judge says alone.
    Unknown,
    /// So is what is refused while the end of an element is looked for.
    Ending,
    /// A size has no room in the bytes of the unknown one, or would be all ones too, or its
    /// element ends within its own header.
    NoRoom,
    /// Bytes that would be replaced are read in another way too.
    Otherwise,
}

/// A live question: our answer, and the plain question that the crate is asked in its place.
pub struct Held {
    pub ours: String,
    pub way: Way,
    pub plain: Option<Question>,
}

/// How a question is held to the crate in live mode.
pub fn held(question: &Question) -> Held {
    match question {
        Question::Part { id, numbers, bytes } => {
            let (id, numbers) = (*id, *numbers);
            let live = part::live(id, numbers, bytes);
            return searched(live, bytes, |bytes| Question::Part { id, numbers, bytes });
        }
        Question::Open { numbers, bytes } => {
            let numbers = *numbers;
            let live = open::live(numbers, bytes);
            return searched(live, bytes, |bytes| Question::Open { numbers, bytes });
        }
        _ => {}
    }
    let told = table::live(question).or_else(|| records::live(question));
    let ours = told.or_else(|| owner::live(question));
    let ours = ours.expect("it takes live mode");
    let (way, plain) = match refused_unknown(&ours) {
        true => (Way::Unknown, None),
        false => (Way::Same, Some(question.clone())),
    };
    Held { ours, way, plain }
}

/// Whether an answer is 17.
fn refused_unknown(answer: &str) -> bool {
    refusal::plain(answer).starts_with("refused 17")
}

/// The same for a search: the plain one in a recording whose unknown sizes are replaced.
fn searched(live: Live, bytes: &[u8], plain: impl Fn(Vec<u8>) -> Question) -> Held {
    let sizes = live.walk.as_ref().map_or(&[][..], |walk| &walk.sizes);
    let in_ending = live.walk.as_ref().is_some_and(|walk| walk.in_ending);
    let replaced = replaced(bytes, sizes);
    let way = match &replaced {
        _ if refused_unknown(&live.told) => Way::Unknown,
        _ if in_ending => Way::Ending,
        None => Way::NoRoom,
        Some(other) if !live.reads_same(bytes, other) => Way::Otherwise,
        Some(_) if sizes.is_empty() => Way::Same,
        Some(_) => Way::Replaced(sizes.len()),
    };
    let asked = replaced.filter(|_| matches!(way, Way::Same | Way::Replaced(_)));
    Held {
        plain: asked.map(plain),
        ours: live.told,
        way,
    }
}

/// The recording with known sizes of the same width in place of unknown ones; `None` if one
/// has no room.
fn replaced(bytes: &[u8], sizes: &[Sized]) -> Option<Vec<u8>> {
    let mut bytes = bytes.to_vec();
    for Sized { at, header, size } in sizes {
        // Both ids have four bytes.
        let width = header.header - 4;
        let ones = (1u64 << (7 * width)) - 1;
        let size = size.filter(|size| *size < ones)?;
        let marked = (size | (ones + 1)).to_be_bytes();
        let place = *at as usize + 4;
        bytes[place..place + width as usize].copy_from_slice(&marked[8 - width as usize..]);
    }
    Some(bytes)
}

/// The answers due to a live question; `None` if it is none. Where the crate is asked in its
/// place, what is due to the plain question has to be due here too.
pub fn due(question: &Question) -> Option<Due> {
    let Question::Live(asked) = question else {
        return None;
    };
    let held = held(asked);
    let Some(plain) = held.plain else {
        return Some(told_by(&held.ours, "no answer", Some(LIVE_MODE)));
    };
    let mut due = rules::due(&plain)?;
    if due.ours != held.ours {
        // An answer that nobody gives, so that it is found.
        due.ours = format!("judge fault: {} live, {} plain", held.ours, due.ours);
    }
    Some(due)
}

/// The line that is put to the crate in place of one: the plain question of a live one, if
/// there is any, else the line itself.
pub fn asked(line: &[u8]) -> Vec<u8> {
    let Some(Question::Live(question)) = parse(line) else {
        return line.to_vec();
    };
    match held(&question) {
        Held {
            way: Way::Replaced(_),
            plain: Some(Question::Part { id, numbers, bytes }),
            ..
        } => format!("part {id:X} {numbers} {}", table::digits(&bytes)).into_bytes(),
        Held {
            way: Way::Replaced(_),
            plain: Some(Question::Open { numbers, bytes }),
            ..
        } => {
            let numbers = numbers.map(|count| count.to_string()).join(" ");
            format!("open {numbers} {}", table::digits(&bytes)).into_bytes()
        }
        Held { plain: Some(_), .. } => line[LIVE.len()..].to_vec(),
        _ => line.to_vec(),
    }
}

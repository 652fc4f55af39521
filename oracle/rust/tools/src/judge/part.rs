//! The search for a part, read straight from document 01 and apart from the
//! crate: our answer by the document's terms, and each build's by the crate's. A
//! refusal carries the address that document 02 gives it.

use crate::live::{endless, walk, Met, Visit, Walk};
use crate::reading::{header, part, rows, End, Header, Payload, Row, Terms, CRATE, LIVE, OURS};
use crate::refusal::{plain, refused};
use crate::table::{broken, table, Due, NOWHERE};
use question::Question;
use std::cell::RefCell;
use std::collections::{BTreeMap, BTreeSet};
use tools::ids::{part_parent, SEEK, SEEK_HEAD, SEEK_ID, SEEK_POSITION, SEGMENT};

/// So many seek heads are read in one search.
const MOST_HEADS: usize = 64;

/// How a search ends that has no reply.
#[derive(Clone, Copy, PartialEq)]
pub enum Stop {
    Read(End),
    /// 8, with the id of the entry and the address of the last head that was read.
    Position(u32, u64),
    /// The crate asserts, or a check for overflow fails.
    Panic,
    /// The crate goes from head to head for ever.
    Circles,
}

impl From<End> for Stop {
    fn from(end: End) -> Stop {
        Stop::Read(end)
    }
}

impl Stop {
    /// The answer, with what is told of the table where it is a refusal.
    pub fn told(self, table: &str) -> String {
        match self {
            Stop::Read(End::Refused(number, address)) => refused(number, None, address) + table,
            Stop::Read(End::Memory) => "memory".to_string(),
            Stop::Position(id, head) => refused(8, Some(id), head) + table,
            Stop::Panic => "panic".to_string(),
            Stop::Circles => "circles".to_string(),
        }
    }
}

/// A part that is searched for: its id, the parent under which it is read, and the numbers of
/// its table.
#[derive(Clone, Copy)]
pub struct Wanted {
    pub id: u32,
    pub parent: u32,
    pub numbers: u64,
}

/// The place of a part's payload, and its rows.
pub struct Found {
    pub at: u64,
    pub size: u64,
    pub rows: Vec<Row>,
}

/// What a chain of heads says: where the segment's payload begins, the entries, how many heads
/// they are, and the address of the last one.
pub struct Heads {
    start: u64,
    entries: BTreeMap<u32, u64>,
    pub count: usize,
    last: u64,
}

/// A search by some terms. The document's bounds are also its refusals 3, 8, 9,
/// 10 and 11, where the crate overflows, asserts or circles.
pub struct Search<'a> {
    bytes: &'a [u8],
    pub terms: Terms,
    /// Whether the crate's numbers wrap. Else it panics.
    wraps: bool,
    /// What it has read beside the headers that it walked over.
    seen: RefCell<Vec<Seen>>,
}

/// Something that a search has read: the header at an address where that id was sought, the
/// payload of a head, or that of a part.
#[derive(Clone, Copy)]
enum Seen {
    Sought(u64, u32),
    Head(u64, Header),
    Part(u64, Header, Wanted),
}

/// A search of ours in live mode.
pub struct Live {
    /// The answer.
    pub told: String,
    /// The walk to the part or to the first head; `None` if the arguments are refused.
    pub walk: Option<Walk>,
    seen: Vec<Seen>,
}

/// The answer to a question, and the walk that was gone for it.
pub type Answer = (String, Option<Walk>);

/// Our search in live mode.
pub fn live(id: u32, numbers: u64, bytes: &[u8]) -> Live {
    live_by(bytes, |search| answer(search, id, numbers))
}

/// The same of any question that is answered by a search.
pub fn live_by(bytes: &[u8], answer: impl Fn(&Search) -> Answer) -> Live {
    let search = Search::new(bytes, LIVE, false);
    let (told, walk) = answer(&search);
    Live {
        told,
        walk,
        seen: search.seen.into_inner(),
    }
}

impl Live {
    /// Whether all that the search has read beside the headers of its walk is read the same
    /// by the plain rules in other bytes.
    pub fn reads_same(&self, bytes: &[u8], others: &[u8]) -> bool {
        let own = Search::new(bytes, LIVE, false);
        let other = Search::new(others, OURS, false);
        self.seen.iter().all(|seen| match *seen {
            // Another element is 9 whatever its size is.
            Seen::Sought(at, id) => match (own.sought(at, id), other.sought(at, id)) {
                (Ok(one), Ok(two)) => (one.header, one.payload) == (two.header, two.payload),
                (Err(one), Err(two)) => one == two,
                _ => false,
            },
            Seen::Head(at, head) => own.entries(at, &head) == other.entries(at, &head),
            Seen::Part(at, part, wanted) => {
                let rows_of = |search: &Search| {
                    let payload = search.payload(at, &part, wanted.parent, wanted.numbers);
                    rows(&payload, search.terms)
                };
                rows_of(&own) == rows_of(&other)
            }
        })
    }
}

/// The answers due to a question; `None` if it asks for no part.
pub fn due(question: &Question) -> Option<Due> {
    let Question::Part { id, numbers, bytes } = question else {
        return None;
    };
    Some(due_by(bytes, |search| answer(search, *id, *numbers)))
}

/// The answers due to a question that is answered by a search.
pub fn due_by(bytes: &[u8], answer: impl Fn(&Search) -> Answer) -> Due {
    let told = |terms, wraps| answer(&Search::new(bytes, terms, wraps)).0;
    let ours = told(OURS, false);
    let checked = plain(&told(CRATE, false));
    let wrapping = plain(&told(CRATE, true));
    let differ = plain(&ours) != checked || plain(&ours) != wrapping;
    let exception = differ.then(|| {
        // The searches are the same up to where they part. So the crate's search
        // within our bounds tells whether a bound is met before the crate stops.
        let bounds = true;
        let bounded = told(Terms { bounds, ..CRATE }, false);
        reason(&bounded, &checked)
    });
    Due {
        ours,
        checked,
        wrapping,
        exception,
    }
}

/// Why answers differ, from what the crate would say within our bounds.
fn reason(bounded: &str, checked: &str) -> &'static str {
    let mut words = bounded.split(' ');
    match (words.next(), words.next()) {
        (Some("refused"), Some("14")) => "argument",
        (Some("refused"), Some("12")) => "depth",
        (Some("refused"), Some("13")) => "rows",
        (Some("refused"), Some("9")) => "assert",
        (Some("refused"), Some("10")) => "circles",
        (Some("refused"), Some("11")) if checked == "circles" => "circles",
        (Some("refused"), Some("11")) => "heads",
        (Some("refused"), Some("3" | "8")) => "wraps",
        (Some("memory"), _) => "allocation",
        _ => "signed",
    }
}

/// The answer: 14 for the arguments, then the search.
fn answer(search: &Search, id: u32, numbers: u64) -> Answer {
    let parent = part_parent(id);
    if search.terms.bounds && (parent.is_none() || broken(numbers)) {
        return (refused(14, None, NOWHERE) + " table 0", None);
    }
    let Some(parent) = parent else {
        return ("no answer".to_string(), None);
    };
    let wanted = Wanted {
        id,
        parent,
        numbers,
    };
    let (reply, walk) = search.first(wanted);
    let told = match reply {
        Ok((heads, None)) => format!("absent heads {heads} rows 0 rest 0"),
        Ok((heads, Some(Found { at, size, rows }))) => {
            format!("at {at} size {size} heads {heads} {}", table(&rows))
        }
        Err(stop) => stop.told(" table 0"),
    };
    (told, Some(walk))
}

/// How many heads were read, and the part if there is one.
type Reply = (usize, Option<Found>);

impl Search<'_> {
    fn new(bytes: &[u8], terms: Terms, wraps: bool) -> Search<'_> {
        Search {
            bytes,
            terms,
            wraps,
            seen: RefCell::default(),
        }
    }

    /// The first part that is met, or what the heads say if one is met before.
    fn first(&self, wanted: Wanted) -> (Result<Reply, Stop>, Walk) {
        let mut found = None;
        let walk = self.walk(&mut |at, child| {
            if child.id == wanted.id {
                found = Some(self.read(at, child, wanted)?);
            }
            Ok(found.is_some())
        });
        let reply = walk.met.and_then(|met| match met {
            Met::Head(at, head) => {
                let heads = self.heads(walk.start, at, head)?;
                Ok((heads.count, self.named(&heads, wanted)?))
            }
            Met::Nothing | Met::Ended => Ok((0, found)),
        });
        (reply, walk)
    }

    /// Walks over the segment's children up to the first head. Each of the others is visited,
    /// and a visit may end the walk.
    pub fn walk(&self, visit: &mut Visit) -> Walk {
        if self.terms.live {
            return walk(self.bytes, visit);
        }
        let mut start = 0;
        let met = self.segment(&mut start, visit);
        Walk::plain(met, start)
    }

    /// Skips what stands before the segment, tells where that starts, and goes over its
    /// children in turn.
    fn segment(&self, start: &mut u64, visit: &mut Visit) -> Result<Met, Stop> {
        let mut at = 0;
        let segment = loop {
            let element = header(self.bytes, at)?;
            if element.id == SEGMENT {
                break element;
            }
            at += element.header + element.payload;
        };
        at += segment.header;
        *start = at;
        let mut left = segment.payload;
        while left > 0 {
            let child = header(self.bytes, at)?;
            if child.id == SEEK_HEAD {
                return Ok(Met::Head(at, child));
            }
            if visit(at, &child)? {
                return Ok(Met::Ended);
            }
            let whole = child.header + child.payload;
            left = match left.checked_sub(whole) {
                Some(left) => left,
                None => self.or_wraps(left.wrapping_sub(whole), Stop::Read(End::Refused(3, at)))?,
            };
            at += whole;
        }
        Ok(Met::Nothing)
    }

    /// Reads the first head and those it leads to.
    pub fn heads(&self, start: u64, first: u64, mut head: Header) -> Result<Heads, Stop> {
        let mut entries = BTreeMap::new();
        let mut heads = BTreeSet::new();
        let mut at = first;
        loop {
            heads.insert(at);
            entries.extend(self.entries(at, &head)?);
            let Some(position) = entries.remove(&SEEK_HEAD) else {
                break;
            };
            at = match start.checked_add(position) {
                Some(at) => at,
                None => {
                    let refused = Stop::Position(SEEK_HEAD, at);
                    self.or_wraps(start.wrapping_add(position), refused)?
                }
            };
            // From here on it is the head that is not read.
            if heads.contains(&at) {
                return Err(self.refused_or(10, at, Stop::Circles));
            }
            if self.terms.bounds && heads.len() == MOST_HEADS {
                return Err(Stop::Read(End::Refused(11, at)));
            }
            head = self.sought(at, SEEK_HEAD)?;
        }
        Ok(Heads {
            start,
            entries,
            count: heads.len(),
            last: at,
        })
    }

    /// Looks a part up among the entries of the heads, and reads it.
    pub fn named(&self, heads: &Heads, wanted: Wanted) -> Result<Option<Found>, Stop> {
        let Some(position) = heads.entries.get(&wanted.id) else {
            return Ok(None);
        };
        // Here the crate looks for the overflow too. The last head is told, whichever has
        // the entry.
        let sought = heads.start.checked_add(*position);
        let sought = sought.ok_or(Stop::Position(wanted.id, heads.last))?;
        let part = self.sought(sought, wanted.id)?;
        self.read(sought, &part, wanted).map(Some)
    }

    /// The header at a sought address, which has to have that id. In live mode 17 comes before,
    /// but for a Segment or Cluster.
    fn sought(&self, at: u64, id: u32) -> Result<Header, Stop> {
        self.seen.borrow_mut().push(Seen::Sought(at, id));
        let found = header(self.bytes, at)?;
        if self.terms.live && found.unknown && !endless(found.id) {
            return Err(Stop::Read(End::Refused(17, at)));
        }
        if found.id != id {
            return Err(self.refused_or(9, at, Stop::Panic));
        }
        Ok(found)
    }

    /// The entries of a head, the last of an id last. Its payload is read without
    /// rows, so none can be missing.
    fn entries(&self, at: u64, head: &Header) -> Result<Vec<(u32, u64)>, Stop> {
        self.seen.borrow_mut().push(Seen::Head(at, *head));
        let payload = self.payload(at, head, SEGMENT, u64::MAX);
        let rows = rows(&payload, self.terms)?;
        let numbered = (1..).zip(&rows);
        let seeks = numbered.filter(|(_, row)| row.parent == 0 && row.id == SEEK);
        Ok(seeks.map(|(seek, _)| self.entry(&rows, seek)).collect())
    }

    /// The entry of a Seek, whose row has that number plus 1.
    fn entry(&self, rows: &[Row], seek: u64) -> (u32, u64) {
        let last = |id| {
            let mut members = rows[seek as usize..].iter();
            let row = members.rfind(|row| row.parent == seek && row.id == id)?;
            part(self.bytes, row.address + row.header, row.payload)
        };
        let number = |bytes: &[u8]| {
            bytes
                .iter()
                .fold(0, |sum, byte| sum << 8 | u64::from(*byte))
        };
        // Of the id four bytes stay, of the position there are at most eight.
        let id = last(SEEK_ID).map_or(0, number) as u32;
        (id, last(SEEK_POSITION).map_or(0, number))
    }

    /// Reads the part whose header stands at an address.
    pub fn read(&self, at: u64, part: &Header, wanted: Wanted) -> Result<Found, Stop> {
        self.seen.borrow_mut().push(Seen::Part(at, *part, wanted));
        let payload = self.payload(at, part, wanted.parent, wanted.numbers);
        let rows = rows(&payload, self.terms)?;
        Ok(Found {
            at: payload.start,
            size: payload.size,
            rows,
        })
    }

    /// The payload behind a header.
    fn payload(&self, at: u64, header: &Header, parent: u32, numbers: u64) -> Payload<'_> {
        Payload {
            start: at + header.header,
            size: header.payload,
            parent,
            numbers,
            bytes: self.bytes,
        }
    }

    /// Where a number has left its range: our refusal, or what the crate does.
    fn or_wraps(&self, wrapped: u64, refused: Stop) -> Result<u64, Stop> {
        if self.terms.bounds {
            Err(refused)
        } else if self.wraps {
            Ok(wrapped)
        } else {
            Err(Stop::Panic)
        }
    }

    /// Our refusal, or what the crate does in its place.
    fn refused_or(&self, number: u64, address: u64, theirs: Stop) -> Stop {
        if self.terms.bounds {
            Stop::Read(End::Refused(number, address))
        } else {
            theirs
        }
    }
}

//! The search for a part: over the segment's children, from head to head, and
//! the part's own rows into the lent table.

use crate::lent::{Lent, Read};
use crate::refusal::{refusal, Refusal};
use crate::Fault;
use question::{numbers_of, WIDTH};
use tools::ids::{part_parent, SEEK, SEEK_HEAD, SEEK_ID, SEEK_POSITION, SEGMENT};

/// Searches and reads, up to where the table stands in the answer.
pub fn part(lent: &mut Lent, wanted: u32, bytes: &[u8], fault: Fault) -> Result<String, Refusal> {
    let known = part_parent(wanted);
    let arguments = lent.arguments(&Read::new(0, 0, 0, bytes));
    let length = bytes.len() as u64;
    let arguments = arguments.and(match known {
        None if !fault.is("other-id") => Err(refusal(14, 0).or(fault, &[("at-14-end", length)])),
        _ => Ok(()),
    });
    if !fault.is("late-14") {
        arguments?;
    }
    let parent = match known {
        Some(parent) if !fault.is("part-parent") => parent,
        _ => wanted,
    };
    let told = Search::new(lent, wanted, parent, bytes, fault).found();
    if told.is_ok() {
        arguments?;
    }
    told.map_err(|bad| bad.or(fault, &[("at-held", bad.at.min(length))]))
}

/// A search and what it has found out so far.
pub struct Search<'a> {
    pub lent: &'a mut Lent,
    pub wanted: u32,
    parent: u32,
    pub bytes: &'a [u8],
    pub fault: Fault,
    /// The address of the segment's header.
    pub segment: u64,
    /// The segment's payload begins here, and ends here.
    pub start: u64,
    pub end: u64,
    /// The heads that were read.
    pub heads: Vec<Met>,
    /// The entries of all heads, as they came.
    entries: Vec<Entry>,
}

/// An entry: an id and a position, and the addresses of its Seek and of its head.
#[derive(Clone, Copy)]
pub struct Entry {
    pub id: u32,
    pub position: u64,
    seek: u64,
    head: u64,
}

/// A header: its address, its id, its length and that of the payload.
#[derive(Clone, Copy)]
pub struct Met {
    pub at: u64,
    pub id: u32,
    pub header: u64,
    pub payload: u64,
}

impl Met {
    pub fn body(&self) -> u64 {
        self.at + self.header
    }
}

impl<'a> Search<'a> {
    pub fn new(
        lent: &'a mut Lent,
        wanted: u32,
        parent: u32,
        bytes: &'a [u8],
        fault: Fault,
    ) -> Search<'a> {
        Search {
            lent,
            wanted,
            parent,
            bytes,
            fault,
            segment: 0,
            start: 0,
            end: 0,
            heads: Vec::new(),
            entries: Vec::new(),
        }
    }

    /// The part that is searched for.
    pub fn found(&mut self) -> Result<String, Refusal> {
        if self.fault.live {
            self.live_file()
        } else {
            self.whole()
        }
    }

    pub fn header(&self, at: u64, left: u64) -> Result<Met, Refusal> {
        let [id, header, payload] = self.lent.header(self.bytes, at, left)?;
        Ok(Met {
            at,
            id: id as u32,
            header,
            payload,
        })
    }

    /// Goes to the segment, and over its children.
    fn whole(&mut self) -> Result<String, Refusal> {
        let (mut at, mut last) = (0, 0);
        let segment = loop {
            let left = (self.bytes.len() as u64).saturating_sub(at);
            let met = match self.header(at, left) {
                Err(bad) if bad.number == 1 && self.fault.is("no-segment") => return self.absent(),
                met => met.map_err(|bad| {
                    let wrong = [("at-file-last", last), ("at-file-zero", 0)];
                    bad.or(self.fault, &wrong)
                })?,
            };
            last = at;
            at = met.body() + met.payload;
            if met.id == SEGMENT {
                break met;
            }
            if met.id == self.wanted && self.fault.is("before-taken") {
                return self.read(met);
            }
            if met.id == SEEK_HEAD && self.fault.is("before-head") {
                return self.follow(met);
            }
        };
        self.segment = segment.at;
        self.end = at;
        self.start = match () {
            () if self.fault.is("position-header") => segment.at,
            () if self.fault.is("position-file") => 0,
            () => segment.body(),
        };
        if segment.payload == 0 && self.fault.is("empty-segment") {
            self.end = self.bytes.len() as u64;
        }
        for (fault, id) in [("parts-first", self.wanted), ("heads-first", SEEK_HEAD)] {
            let met = self
                .look(segment.body(), id)
                .filter(|_| self.fault.is(fault));
            match met {
                Some(met) if id == SEEK_HEAD => return self.follow(met),
                Some(met) => return self.read(met),
                None => {}
            }
        }
        self.children(segment.body())
    }

    /// The first child of an id, from an address on.
    fn look(&self, mut at: u64, id: u32) -> Option<Met> {
        while at < self.end {
            let met = self.header(at, self.end - at).ok()?;
            if met.id == id {
                return Some(met);
            }
            at = met.body() + met.payload;
        }
        None
    }

    /// Goes over the children of the segment, of which the first stands there.
    fn children(&mut self, mut at: u64) -> Result<String, Refusal> {
        let mut last = None;
        let mut before = self.segment;
        while at < self.end || self.fault.is("after-taken") && at < self.bytes.len() as u64 {
            let left = self.end.saturating_sub(at);
            if self.fault.is("header-held") && left < 2 {
                return Err(refusal(3, at));
            }
            let met = self.header(at, left).map_err(|bad| {
                let wrong = [
                    ("at-child-segment", self.segment),
                    ("at-child-before", before),
                ];
                bad.or(self.fault, &wrong)
            })?;
            before = at;
            let end = met.body() + met.payload;
            let over = end > self.end && !self.fault.is("after-taken");
            if met.id == SEEK_HEAD && !self.fault.is("wanted-only") {
                if over && self.fault.is("head-overrun") {
                    return Err(refusal(3, at));
                }
                let told = self.follow(met)?;
                let passed = self.fault.is("head-passed") && told.starts_with("absent");
                if !passed {
                    return Ok(told);
                }
            } else if met.id == self.wanted {
                if over && self.fault.is("met-overrun") {
                    return Err(refusal(3, at));
                }
                if !self.fault.is("last-met") {
                    return self.read(met);
                }
                last = Some(met);
            }
            if end > self.bytes.len() as u64 && self.fault.is("skip-there") {
                return Err(refusal(1, at));
            }
            if over && !self.fault.is("skip-accepted") {
                let wrong = [
                    ("at-skip-segment", self.segment),
                    ("at-skip-start", self.start),
                    ("at-skip-end", self.end),
                    ("at-skip-behind", end),
                ];
                return Err(refusal(3, at).or(self.fault, &wrong));
            }
            at = end;
        }
        match last {
            Some(met) => self.read(met),
            None => self.absent(),
        }
    }

    /// Reads a head and all that it leads to.
    pub fn chain(&mut self, first: Met) -> Result<(), Refusal> {
        let mut head = first;
        loop {
            self.heads.push(head);
            let read = self.head(head);
            read.map_err(|bad| bad.or(self.fault, &[("at-head-inner", head.at)]))?;
            if self.fault.is("wanted-first") && self.entry(self.wanted).is_some() {
                break;
            }
            let Some(entry) = self.entry(SEEK_HEAD) else {
                break;
            };
            if self.fault.is("links-ignored") {
                break;
            }
            if !self.fault.is("link-kept") {
                self.entries.retain(|entry| entry.id != SEEK_HEAD);
            }
            head = self.next(entry)?;
        }
        Ok(())
    }

    /// The same, then looks the part up.
    pub fn follow(&mut self, first: Met) -> Result<String, Refusal> {
        self.chain(first)?;
        let Some(entry) = self.entry(self.wanted) else {
            return self.absent();
        };
        let at = self.sum(entry)?;
        let met = self.sought(at, entry)?;
        if met.id != self.wanted && !self.fault.is("stale-part") {
            if self.fault.is("stale-absent") {
                return self.absent();
            }
            return Err(self.stale(&met));
        }
        self.read(met)
    }

    /// 9 for what was found at a sought address.
    pub fn stale(&self, met: &Met) -> Refusal {
        let wrong = [
            ("at-nine-head", self.last_head()),
            ("at-nine-payload", met.body()),
            ("at-nine-segment", self.segment),
        ];
        refusal(9, met.at).or(self.fault, &wrong)
    }

    /// The addresses of the first and of the last head that was read.
    fn first_head(&self) -> u64 {
        self.heads.first().map_or(0, |head| head.at)
    }

    fn last_head(&self) -> u64 {
        self.heads.last().map_or(0, |head| head.at)
    }

    /// The head that an entry leads to: 8, 10, 11, its header, 9.
    fn next(&mut self, entry: Entry) -> Result<Met, Refusal> {
        let most = match () {
            () if self.fault.is("heads-65") => 65,
            () if self.fault.is("heads-63") => 63,
            () => 64,
        };
        // A reader that gives no 10 ends here.
        let full = self.heads.len() >= most;
        if full && self.fault.is("eight-late") {
            return Err(refusal(11, self.start.wrapping_add(entry.position)));
        }
        let at = self.sum(entry)?;
        let nothing = if at < self.bytes.len() as u64 { at } else { 0 };
        let wrong = [
            ("at-eleven-last", self.last_head()),
            ("at-eleven-first", self.first_head()),
            ("at-eleven-nothing", nothing),
        ];
        let eleven = refusal(11, at).or(self.fault, &wrong);
        if full && self.fault.is("eleven-first") {
            return Err(eleven);
        }
        let known = match &self.heads[..] {
            _ if self.fault.is("ten-never") => &[],
            [_, others @ ..] if self.fault.is("own-address") => others,
            [.., last] if self.fault.is("last-address") => std::slice::from_ref(last),
            all => all,
        };
        if known.iter().any(|head| head.at == at) {
            let wrong = [
                ("at-ten-last", self.last_head()),
                ("at-ten-first", self.first_head()),
                ("at-ten-holder", entry.head),
            ];
            return Err(refusal(10, at).or(self.fault, &wrong));
        }
        let late = self.fault.is("eleven-late");
        if full && !late {
            return Err(eleven);
        }
        let met = self.sought(at, entry)?;
        if met.id != SEEK_HEAD && !self.fault.is("stale-head") {
            return Err(self.stale(&met));
        }
        if full {
            return Err(eleven);
        }
        Ok(met)
    }

    /// The address of an entry; 8 with its id if there is none.
    pub fn sum(&mut self, entry: Entry) -> Result<u64, Refusal> {
        let wrapped = self.start.wrapping_add(entry.position);
        if wrapped >= self.start || self.fault.is("position-wraps") {
            return Ok(wrapped);
        }
        self.lent.about = match () {
            () if self.fault.is("eight-plain") => None,
            () if self.fault.is("eight-wanted") => Some(self.wanted),
            () => Some(entry.id),
        };
        let before = self.heads.iter().rev().nth(1);
        let wrong = [
            ("at-eight-first", self.first_head()),
            ("at-eight-holder", entry.head),
            ("at-eight-before", before.map_or(0, |head| head.at)),
            ("at-eight-payload", self.heads.last().map_or(0, Met::body)),
            ("at-eight-seek", entry.seek),
            ("at-eight-start", self.start),
            ("at-eight-wrapped", wrapped),
        ];
        Err(refusal(8, self.last_head()).or(self.fault, &wrong))
    }

    /// The header at the address that an entry names.
    pub fn sought(&self, at: u64, entry: Entry) -> Result<Met, Refusal> {
        let outside = at >= self.end && self.fault.is("position-outside");
        let at = if outside { self.bytes.len() as u64 } else { at };
        if at > self.bytes.len() as u64 && self.fault.is("inner-place-14") {
            return Err(refusal(14, 0));
        }
        let first = self.lent.marked(self.bytes, at, 4, 2);
        let early = first.is_ok_and(|(id, _)| id != u64::from(entry.id));
        if early && self.fault.is("nine-early") {
            return Err(refusal(9, at));
        }
        let wrong = [
            ("at-sought-head", self.last_head()),
            ("at-sought-seek", entry.seek),
            ("at-sought-position", entry.position),
        ];
        let met = self.header(at, 0);
        let met = met.map_err(|bad| bad.or(self.fault, &wrong))?;
        if self.fault.live {
            self.live_sought(&met, entry.id)?;
        }
        Ok(met)
    }

    /// The last entry for an id.
    pub fn entry(&self, id: u32) -> Option<Entry> {
        let mut entries = self.entries.iter();
        entries.rfind(|entry| entry.id == id).copied()
    }

    /// Reads a head's payload without rows, and takes its entries.
    fn head(&mut self, head: Met) -> Result<(), Refusal> {
        // Each element has two bytes or more.
        let room = if self.fault.is("head-rows") {
            self.lent.numbers.len() as u64
        } else {
            numbers_of(self.bytes.len() as u64 / 2 + 2)
        };
        let mut own = Lent::new(room, self.fault.plain_with("live-heads-plain"));
        own.head = true;
        let end = if self.fault.is("head-held") {
            self.end.min(self.bytes.len() as u64)
        } else {
            self.bytes.len() as u64
        };
        let bytes = &self.bytes[..end as usize];
        own.fill(&Read::new(head.body(), head.payload, SEGMENT, bytes))?;

        let rows: Vec<&[u64]> = own.numbers.chunks_exact(WIDTH).take(own.used).collect();
        let mut entries: Vec<Entry> = Vec::new();
        for (number, row) in rows.iter().enumerate() {
            let direct = row[6] == 0 || self.fault.is("seek-deep");
            if row[0] == u64::from(SEEK) && row[5] == 1 && direct {
                let named = self.seek(&rows, number);
                entries.extend(named.map(|(id, position)| Entry {
                    id,
                    position,
                    seek: row[2],
                    head: head.at,
                }));
            }
        }
        if self.fault.is("first-seek") {
            entries.reverse();
        }
        if self.fault.is("entries-dropped") {
            self.entries.clear();
        }
        if self.fault.is("earlier-head") {
            entries.append(&mut self.entries);
        }
        self.entries.append(&mut entries);
        Ok(())
    }

    /// The id and the position of the Seek of that row.
    fn seek(&self, rows: &[&[u64]], number: usize) -> Option<(u32, u64)> {
        let (mut ids, mut positions) = (Vec::new(), Vec::new());
        let inside = rows[number + 1..].iter();
        for row in inside.take_while(|row| row[6] > rows[number][6]) {
            let direct = row[1] == number as u64 + 1 || self.fault.is("member-deep");
            let from = (row[2] + row[3]) as usize;
            let bytes = self.bytes.get(from..from + row[4] as usize).unwrap_or(&[]);
            if row[0] == u64::from(SEEK_ID) && direct {
                ids.push(bytes);
            }
            let empty = bytes.is_empty() && self.fault.is("empty-position");
            if row[0] == u64::from(SEEK_POSITION) && direct && !empty {
                positions.push(bytes);
            }
        }
        let taken = |list: &[&[u8]], first| {
            let one = if first { list.first() } else { list.last() };
            one.map_or(Vec::new(), |bytes| bytes.to_vec())
        };
        if positions.is_empty() && self.fault.is("no-position") {
            return None;
        }
        let mut id = taken(&ids, self.fault.is("first-seek-id"));
        if id.len() > 4 {
            if self.fault.is("id-long") {
                id.clear();
            } else if self.fault.is("id-front") {
                id.truncate(4);
            } else {
                id.drain(..id.len() - 4);
            }
        }
        let mut position = taken(&positions, self.fault.is("first-position"));
        if self.fault.is("wide-position") && position.len() > 4 {
            position.drain(..position.len() - 4);
        }
        if self.fault.is("little-endian") {
            position.reverse();
        }
        let negative = position.first().is_some_and(|byte| *byte >= 0x80);
        if negative && self.fault.is("signed-position") {
            let ones = vec![0xFF; 8usize.saturating_sub(position.len())];
            position = [ones, position].concat();
        }
        Some((big_endian(&id) as u32, big_endian(&position)))
    }

    /// Reads the part into the lent table.
    pub fn read(&mut self, met: Met) -> Result<String, Refusal> {
        let end = if self.fault.is("part-held") {
            self.end.min(self.bytes.len() as u64)
        } else {
            self.bytes.len() as u64
        };
        let bytes = &self.bytes[..end as usize];
        let read = Read::new(met.body(), met.payload, self.parent, bytes);
        self.lent.fault = self.fault.plain_with("live-part-plain");
        let filled = self.lent.fill(&read);
        filled.map_err(|bad| bad.or(self.fault, &[("at-part-inner", met.at)]))?;
        let heads = self.count(self.heads.len());
        let heads = match heads {
            0 if self.fault.is("heads-met") => 1,
            count => count,
        };
        let (mut at, mut size) = (met.body(), met.payload);
        if self.fault.is("at-header") {
            at = met.at;
        }
        if self.fault.is("size-whole") {
            size += met.header;
        }
        Ok(format!("at {at} size {size} heads {heads} "))
    }

    pub fn absent(&self) -> Result<String, Refusal> {
        if self.fault.is("absent-refused") {
            return Err(refusal(1, self.end));
        }
        let heads = match self.count(self.heads.len()) {
            _ if self.fault.is("heads-absent") => 0,
            count => count,
        };
        Ok(format!("absent heads {heads} "))
    }

    /// How many heads are told.
    pub fn count(&self, heads: usize) -> usize {
        if self.fault.is("heads-short") {
            heads.saturating_sub(1)
        } else {
            heads
        }
    }
}

/// The number that some bytes make, at most eight.
fn big_endian(bytes: &[u8]) -> u64 {
    bytes
        .iter()
        .fold(0, |sum, byte| sum << 8 | u64::from(*byte))
}

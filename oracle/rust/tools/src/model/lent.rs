//! The lent table and the read that fills it, element by element with a list of
//! the masters that are open.

use crate::ended::before_zero;
use crate::refusal::{refusal, Refusal};
use crate::Fault;
use question::{whole_rows, MOST_NUMBERS, WIDTH};
use std::fmt::Write;
use tools::ids;

/// The arguments of a read.
pub struct Read<'a> {
    pub start: u64,
    pub size: u64,
    pub parent: u32,
    pub bytes: &'a [u8],
}

impl Read<'_> {
    pub fn new(start: u64, size: u64, parent: u32, bytes: &[u8]) -> Read<'_> {
        Read {
            start,
            size,
            parent,
            bytes,
        }
    }
}

/// A table of some numbers, of which the first rows are used.
pub struct Lent {
    pub numbers: Vec<u64>,
    pub used: usize,
    /// The id that a refusal carries, if any.
    pub about: Option<u32>,
    /// What is read is a seek head.
    pub head: bool,
    pub fault: Fault,
}

/// A master that is being read, or the whole payload.
struct Open {
    id: u32,
    /// The address of its header, or where the payload starts.
    at: u64,
    /// Its row's number plus 1, or 0.
    row: u64,
    /// Header and payload.
    whole: u64,
    /// The first address behind it.
    end: u64,
    left: u64,
}

/// What tells the row behind each: where elements begin and end, and how deep they are.
struct Placed {
    address: u64,
    end: u64,
    master: bool,
    depth: u64,
}

impl Placed {
    fn of(row: &[u64]) -> Placed {
        Placed {
            address: row[2],
            end: row[2] + row[3] + row[4],
            master: row[5] == 1,
            depth: row[6],
        }
    }
}

impl Lent {
    /// The table before a call: full of ones.
    pub fn new(numbers: u64, fault: Fault) -> Lent {
        Lent {
            numbers: vec![u64::MAX; numbers as usize],
            used: 0,
            about: None,
            head: false,
            fault,
        }
    }

    /// 14 for the arguments, which comes before all else.
    pub fn arguments(&self, read: &Read) -> Result<(), Refusal> {
        let (count, length) = (self.numbers.len() as u64, read.bytes.len() as u64);
        let past = if self.fault.is("start-at-end") {
            read.start >= length
        } else {
            read.start > length && !self.fault.is("start-past")
        };
        if past || broken(count, self.fault) {
            let wrong = [("at-14", read.start), ("at-14-end", length)];
            return Err(refusal(14, 0).or(self.fault, &wrong));
        }
        Ok(())
    }

    /// Fills the table with the rows of a payload.
    pub fn read(&mut self, read: &Read) -> Result<(), Refusal> {
        self.arguments(read)?;
        self.fill(read)
    }

    /// The same without a look at the arguments.
    pub fn fill(&mut self, read: &Read) -> Result<(), Refusal> {
        let filled = self.fill_from(read);
        filled.map_err(|bad| {
            let from = bad.at.wrapping_sub(read.start);
            bad.or(self.fault, &[("at-relative", from)])
        })
    }

    fn fill_from(&mut self, read: &Read) -> Result<(), Refusal> {
        let mut at = read.start;
        let mut open = vec![Open {
            id: read.parent,
            at,
            row: 0,
            whole: 0,
            end: read.start.saturating_add(read.size),
            left: read.size,
        }];
        while let Some(master) = open.last() {
            if master.left > 0 {
                at = self.element(at, read.bytes, &mut open)?;
                continue;
            }
            let (own, whole) = (master.at, master.whole);
            open.pop();
            self.take(own, whole, &mut open)?;
        }
        self.set_after();
        if self.fault.is("last-row") && self.used > 0 {
            self.used -= 1;
        }
        Ok(())
    }

    /// Tells each row the first one behind it. The rows are in the order of their addresses,
    /// and what is below an element begins before its end.
    fn set_after(&mut self) {
        let used = self.numbers.chunks_exact(WIDTH).take(self.used);
        let rows: Vec<Placed> = used.map(Placed::of).collect();
        for own in 0..rows.len() {
            let after = rows.partition_point(|row| row.address < rows[own].end);
            let told = self.after_told(&rows, own, after);
            // The last number of its row.
            self.numbers[WIDTH * own + WIDTH - 1] = told as u64;
        }
    }

    /// The row behind one, as the fault has it.
    fn after_told(&self, rows: &[Placed], own: usize, after: usize) -> usize {
        let (row, count) = (&rows[own], rows.len());
        let mut below = rows[own + 1..after].iter();
        let outer = |next: &Placed| next.depth < row.depth;
        match () {
            () if self.fault.is("after-plus") => after + 1,
            () if self.fault.is("after-last") => after - 1,
            () if self.fault.is("after-count") => count,
            () if self.fault.is("after-next") => own + 1,
            () if self.fault.is("after-direct") => {
                let direct = below.filter(|under| under.depth == row.depth + 1);
                own + 1 + direct.count()
            }
            () if self.fault.is("after-sibling") && rows.get(after).is_some_and(outer) => count,
            () if self.fault.is("after-once")
                && below.any(|under| under.master && under.end == row.end) =>
            {
                count
            }
            () if self.fault.is("after-master") && !row.master => 0,
            () if after == count && self.fault.is("after-zero") => 0,
            () if after == count && self.fault.is("after-room") => self.numbers.len() / WIDTH,
            () => after,
        }
    }

    /// One element, of a master only the header. Gives the next place.
    fn element(&mut self, at: u64, bytes: &[u8], open: &mut Vec<Open>) -> Result<u64, Refusal> {
        let depth = open.len() as u64 - 1;
        let master = &open[depth as usize];
        let (left, parent, outer) = (master.left, master.row, master.at);
        let end = open.iter().map(|open| open.end).min().unwrap_or(0);
        let bytes = if self.fault.is("held") {
            &bytes[..bytes.len().min(end as usize)]
        } else {
            bytes
        };

        if self.fault.is("limits-first") {
            self.limits(at, at, open)?;
        }
        let [id, header, size] = self.header(bytes, at, left).map_err(|bad| {
            let before = self.last_row().unwrap_or(outer);
            let wrong = [("at-header-master", outer), ("at-header-before", before)];
            bad.or(self.fault, &wrong)
        })?;
        let kind = self.kind(id as u32, open);
        let body = at + header;
        self.sized([at, id, header, size], outer, |number| {
            let limits = self.limits(at, body, open);
            limits.is_err_and(|bad| bad.number == number)
        })?;
        if self.fault.is("overrun-first") && header + size > left {
            return Err(refusal(3, at));
        }
        if kind != 1 && self.fault.is("limits-last") {
            self.body(kind, bytes, at, body, size)?;
        }
        self.limits(at, body, open)?;
        let there = bytes.get(body as usize..).unwrap_or(&[]);
        let told = match there.get(..size as usize) {
            Some(text) if (kind == 4 || kind == 5) && self.fault.is("row-zero") => {
                before_zero(text).len() as u64
            }
            _ => size,
        };
        self.row([id, parent, at, header, told, kind, depth, 0]);
        if kind == 1 {
            open.push(Open {
                id: id as u32,
                at,
                row: self.used as u64,
                whole: header + size,
                end: body + size,
                left: size,
            });
            return Ok(body);
        }
        let read = self.body(kind, bytes, at, body, size);
        read.map_err(|bad| bad.or(self.fault, &[("at-body-master", outer)]))?;
        self.take(at, header + size, open)?;
        Ok(body + size)
    }

    /// 17 in live mode for an unknown size, given where the header stands, its id, its length
    /// and the size, and the address of the master. A faulty reader has another refusal before
    /// it, of which it asks whether it is due.
    fn sized(
        &self,
        [at, id, header, size]: [u64; 4],
        master: u64,
        due: impl Fn(u64) -> bool,
    ) -> Result<(), Refusal> {
        let late = self.fault.is("live-17-12") && due(12)
            || self.fault.is("live-17-13") && (due(12) || due(13));
        let taken = match id as u32 {
            ids::CLUSTER => self.fault.is("live-cluster-payload"),
            ids::SEGMENT => self.fault.is("live-segment-payload"),
            _ => false,
        };
        if late || taken || !self.fault.live || !unknown([id, header, size], self.fault) {
            return Ok(());
        }
        let wrong = [("live-at-master", master), ("live-at-payload", at + header)];
        Err(refusal(17, at).or(self.fault, &wrong))
    }

    /// The address of the last row's header.
    fn last_row(&self) -> Option<u64> {
        let last = self.used.checked_sub(1)?;
        self.numbers.get(WIDTH * last + 2).copied()
    }

    /// The header at a place: the id, its own length and the payload's.
    pub fn header(&self, bytes: &[u8], at: u64, left: u64) -> Result<[u64; 3], Refusal> {
        let bad = |number| {
            let end = if number == 1 { bytes.len() as u64 } else { at };
            refusal(number, at).or(self.fault, &[("at-header-end", end)])
        };
        let (id, width) = self.marked(bytes, at, 4, 2).map_err(bad)?;
        let place = at + width;
        let wrong = [("at-header-size", place), ("header-at-size", place)];
        let size = self.marked(bytes, place, 8, 3);
        let (size, size_width) = size.map_err(|number| bad(number).or(self.fault, &wrong))?;
        let header = width + size_width;
        let size = self.payload_size(size, size_width, left.saturating_sub(header));
        Ok([id, header, size])
    }

    /// Takes a whole element, whose header stands there, from what its master has left.
    fn take(&self, at: u64, whole: u64, open: &mut [Open]) -> Result<(), Refusal> {
        let outer = open.len() == 1;
        let Some(master) = open.last_mut() else {
            return Ok(());
        };
        let tested = !self.fault.is("overrun-never") && (outer || !self.fault.is("overrun-outer"));
        if whole > master.left && tested {
            let wrong = [
                ("at-overrun-master", master.at),
                ("at-overrun-end", master.end),
                ("at-overrun-behind", at + whole),
            ];
            return Err(refusal(3, at).or(self.fault, &wrong));
        }
        master.left = master.left.saturating_sub(whole);
        Ok(())
    }

    /// 12 and 13 for an element by the addresses of its header and of its payload.
    fn limits(&self, at: u64, body: u64, open: &[Open]) -> Result<(), Refusal> {
        let deepest = match () {
            () if self.head && self.fault.is("head-deep") => return Ok(()),
            () if self.head && self.fault.is("head-depth") => 14,
            () if self.fault.is("depth-17") => 16,
            () if self.fault.is("depth-15") => 14,
            () => 15,
        };
        let short = usize::from(self.fault.is("row-short"));
        let room = self.numbers.len() / WIDTH;
        let full = self.used + short >= room && !self.fault.is("rows-dropped");
        let deep = open.len() as u64 - 1 > deepest;
        let master = open.last().map_or(at, |master| master.at);
        if deep && !(full && self.fault.is("rows-first")) {
            let wrong = [
                ("at-depth-master", master),
                ("at-depth-outer", open.get(1).map_or(at, |outer| outer.at)),
                ("at-limits-payload", body),
            ];
            return Err(refusal(12, at).or(self.fault, &wrong));
        }
        if full {
            let wrong = [
                ("at-rows-master", master),
                ("at-rows-last", self.last_row().unwrap_or(at)),
                ("at-limits-payload", body),
            ];
            return Err(refusal(13, at).or(self.fault, &wrong));
        }
        Ok(())
    }

    /// Writes a row, its fields as the fault has them. The row behind is told later.
    fn row(&mut self, fields: [u64; WIDTH]) {
        let [id, mut parent, address, header, payload, mut kind, mut depth, after] = fields;
        if self.fault.is("parent-off") {
            parent = parent.saturating_sub(1);
        }
        if self.fault.is("depth-off") {
            depth += 1;
        }
        if self.fault.is("kind-off") && kind == 5 {
            kind = 4;
        }
        let place = WIDTH * self.used;
        if let Some(row) = self.numbers.get_mut(place..place + WIDTH) {
            row.copy_from_slice(&[id, parent, address, header, payload, kind, depth, after]);
            self.used += 1;
        }
    }

    /// A number with its marker, and its width.
    pub fn marked(&self, bytes: &[u8], at: u64, widest: u64, wide: u64) -> Result<(u64, u64), u64> {
        let mut zeros = 0;
        let mut place = at as usize;
        let first = loop {
            match bytes.get(place) {
                None => return Err(1),
                Some(0) if self.fault.is("zero-run") => return Err(wide),
                Some(0) => zeros += 8,
                Some(byte) => break byte,
            }
            place += 1;
        };
        zeros += first.leading_zeros();
        let width = u64::from(zeros) + 1;
        if width > widest {
            return Err(wide);
        }
        let mut value = 0;
        for place in at..at + width {
            value = value << 8 | u64::from(*bytes.get(place as usize).ok_or(1u64)?);
        }
        Ok((value, width))
    }

    /// The size without its marker.
    fn payload_size(&self, marked: u64, width: u64, left: u64) -> u64 {
        let marker = 1 << (7 * width);
        let size = marked ^ marker;
        if size == marker - 1 && self.fault.is("unknown-size") {
            left
        } else if self.fault.is("narrow-size") {
            size & 0xFFFF_FFFF
        } else {
            size
        }
    }

    fn kind(&self, id: u32, open: &[Open]) -> u64 {
        let direct = open.last().map_or(0, |master| master.id);
        let special = open.iter().find(|open| ids::SPECIAL.contains(&open.id));
        let parent = match () {
            () if self.fault.is("outer-parent") => open[0].id,
            () if self.fault.is("full-set") => 0,
            () if self.fault.is("small-set-deep") => special.map_or(direct, |open| open.id),
            () => direct,
        };
        ids::kind(id, parent)
    }

    /// A leaf's body: its size, the end of the recording, its text. The header stands at its
    /// own address.
    pub fn body(
        &self,
        kind: u64,
        bytes: &[u8],
        own: u64,
        at: u64,
        size: u64,
    ) -> Result<(), Refusal> {
        if self.head && self.fault.is("head-unchecked") {
            return Ok(());
        }
        let there = bytes.len() as u64 >= at && bytes.len() as u64 - at >= size;
        let number = if self.fault.is("inner-14") { 14 } else { 1 };
        let wrong = [
            ("at-missing-payload", at),
            ("at-missing-end", bytes.len() as u64),
        ];
        let missing = refusal(number, own).or(self.fault, &wrong);
        let sized = |number| Err(refusal(number, own).or(self.fault, &[("at-size-payload", at)]));
        if !there && self.fault.is("end-first") {
            return Err(missing);
        }
        match (kind, size) {
            (2, 0) if self.fault.is("empty-signed") => return sized(1),
            (2 | 3, 0..=8) | (7, 4 | 8) | (8, 8) | (1 | 4 | 5 | 6, _) => {}
            (7, _) => return sized(5),
            (8, _) => return sized(6),
            _ => return sized(4),
        }
        if !there {
            return Err(missing);
        }
        let body = &bytes[at as usize..(at + size) as usize];
        let body = if self.fault.is("text-to-zero") {
            before_zero(body)
        } else {
            body
        };
        let text = kind == 4 || kind == 5;
        let wrong = String::from_utf8(body.to_vec()).err();
        if let Some(wrong) = wrong.filter(|_| text && !self.fault.is("text-unchecked")) {
            let byte = at + wrong.utf8_error().valid_up_to() as u64;
            let wrong = [("at-text-payload", at), ("at-text-byte", byte)];
            return Err(refusal(7, own).or(self.fault, &wrong));
        }
        Ok(())
    }

    /// Tells an answer with the table behind it, or a refusal with what the
    /// table holds then.
    pub fn told(&mut self, answer: Result<String, Refusal>) -> String {
        self.told_with(answer, true)
    }

    /// The same of a record, where the rows are only counted.
    pub fn counted(&mut self, answer: Result<String, Refusal>) -> String {
        self.told_with(answer, false)
    }

    fn told_with(&mut self, answer: Result<String, Refusal>, rows: bool) -> String {
        let mut told = match answer {
            Ok(before) => {
                let absent = before.starts_with("absent") && self.fault.is("absent-kept");
                if !absent && !self.fault.is("rest-kept") {
                    self.clear(self.used, self.fault.is("rest-narrow"));
                }
                before
            }
            Err(refusal) => {
                let number = refusal.number;
                let argument = number == 14 || number == 15;
                let kept = self.fault.is("table-kept")
                    || argument && self.fault.is("table-kept-14")
                    || number == 15 && !rows && self.fault.is("record-15-kept");
                if !kept {
                    self.clear(0, self.fault.is("table-narrow"));
                }
                let clear = zero(&self.numbers);
                let table = if clear { " table 0" } else { " table dirty" };
                return refusal.told(self.about, table, self.fault);
            }
        };
        write!(told, "rows {}", self.used).expect("a string takes everything");
        let shown = if rows { self.used } else { 0 };
        for row in self.numbers.chunks_exact(WIDTH).take(shown) {
            write!(told, " / {:X}", row[0]).expect("a string takes everything");
            for number in &row[1..] {
                write!(told, " {number}").expect("a string takes everything");
            }
        }
        let rest = &self.numbers[WIDTH * self.used..];
        told + if zero(rest) { " rest 0" } else { " rest dirty" }
    }

    /// Clears the whole table.
    pub fn emptied(&mut self) {
        self.clear(0, self.fault.is("table-narrow"));
    }

    /// Whether every number is 0.
    pub fn is_clear(&self) -> bool {
        zero(&self.numbers)
    }

    /// Clears the table from a row on; narrowly, the last number of each row stays.
    fn clear(&mut self, from: usize, narrowly: bool) {
        for (place, number) in self.numbers.iter_mut().enumerate().skip(WIDTH * from) {
            if !narrowly || place % WIDTH != WIDTH - 1 {
                *number = 0;
            }
        }
    }
}

/// Whether a size is unknown, given the id, the length of the header and the size.
pub fn unknown([id, header, size]: [u64; 3], fault: Fault) -> bool {
    let width = header - id_width(id);
    match () {
        () if fault.is("live-width-1") => width == 1 && size == 127,
        () if fault.is("live-width-8") => width == 8 && size == (1 << 56) - 1,
        () if fault.is("live-narrow") => (1..=width).any(|width| size == (1 << (7 * width)) - 1),
        () if fault.is("live-zero") => size == 0 || size == (1 << (7 * width)) - 1,
        () => size == (1 << (7 * width)) - 1,
    }
}

/// The bytes of an id.
pub fn id_width(id: u64) -> u64 {
    u64::from(71 - id.leading_zeros()) / 8
}

/// Whether a table's length is broken.
pub fn broken(count: u64, fault: Fault) -> bool {
    let most = MOST_NUMBERS - u64::from(fault.is("count-below"));
    let whole = match () {
        () if fault.is("any-length") => true,
        () if fault.is("length-narrow") => count % (WIDTH as u64 - 1) == 0,
        () => whole_rows(count),
    };
    !whole || count > most && !fault.is("any-count")
}

fn zero(numbers: &[u64]) -> bool {
    numbers.iter().all(|number| *number == 0)
}

//! The records: the rows of the lent table below a master, told from first to last
//! with each field as it stands by then.

use crate::ended::before_zero;
use crate::lent::{Lent, Read};
use crate::refusal::{refusal, Refusal};
use crate::Fault;
use question::{rows_in, List, Payload, Question, WIDTH};
use tools::ids::*;

/// What is asked: the record's payload, its indices from the outside in, and which
/// record it is.
pub struct Asked<'a> {
    pub payload: &'a Payload,
    parent: u32,
    /// The masters that lead to it, each with the index of the one that is meant.
    path: Vec<(u32, u64)>,
    sort: Sort,
}

/// A record, or a list's member by its index.
enum Sort {
    Attachment,
    Edition,
    Chapter,
    Display,
    Tag,
    Member(List, u64),
    Simple,
    Audio,
    Track,
    Info,
    Family(u64),
}

/// What a record question asks; `None` for any other.
pub fn asked(question: &Question) -> Option<Asked<'_>> {
    let (payload, path, sort) = match question {
        Question::Attachment { payload, k } => {
            (payload, vec![(ATTACHED_FILE, *k)], Sort::Attachment)
        }
        Question::Edition { payload, k } => (payload, vec![(EDITION, *k)], Sort::Edition),
        Question::Chapter { payload, k, i } => {
            let path = vec![(EDITION, *k), (CHAPTER, *i)];
            (payload, path, Sort::Chapter)
        }
        Question::Display { payload, k, i, j } => {
            let path = vec![(EDITION, *k), (CHAPTER, *i), (DISPLAY, *j)];
            (payload, path, Sort::Display)
        }
        Question::Tag { payload, k } => (payload, vec![(TAG, *k)], Sort::Tag),
        Question::Uid {
            payload,
            k,
            list,
            i,
        } => (payload, vec![(TAG, *k)], Sort::Member(*list, *i)),
        Question::Simple { payload, k, i } => {
            let path = vec![(TAG, *k), (SIMPLE, *i)];
            (payload, path, Sort::Simple)
        }
        Question::Audio { payload, k } => (payload, vec![(AUDIO, *k)], Sort::Audio),
        Question::Track { payload, k } => (payload, vec![(TRACK, *k)], Sort::Track),
        Question::Info { payload, k } => (payload, vec![(INFO, *k)], Sort::Info),
        Question::Family { payload, k, i } => (payload, vec![(INFO, *k)], Sort::Family(*i)),
        _ => return None,
    };
    Some(Asked {
        payload,
        parent: path[0].0,
        path,
        sort,
    })
}

/// The part that a record's parent belongs to.
fn part_of(parent: u32) -> u32 {
    let part = PARTS.iter().find(|(_, own)| *own == parent);
    part.map_or(PARTS[0].0, |(part, _)| *part)
}

/// Whether a payload of that parent is itself the record.
fn is_whole(parent: u32) -> bool {
    parent == AUDIO || parent == INFO
}

/// Reads, and tells the record, up to where the table stands in the answer.
pub fn record(lent: &mut Lent, asked: &Asked, fault: Fault) -> Result<String, Refusal> {
    let payload = asked.payload;
    let parent = match asked.parent {
        INFO if fault.is("info-full") => SEGMENT,
        INFO if fault.is("info-tracks") => PARTS[0].0,
        INFO => INFO,
        parent if fault.is("record-parent") => part_of(parent),
        parent => parent,
    };
    let read = Read::new(payload.start, payload.size, parent, &payload.bytes);
    // No more records than rows, and one audio or Info.
    let whole = is_whole(asked.parent);
    let most = if whole { 1 } else { rows_in(payload.numbers) };
    let beyond = asked.path[0].1 >= most;
    if beyond && fault.is("record-15-early") {
        return Err(refusal(15, 0));
    }
    lent.arguments(&read)?;
    if beyond && fault.is("record-15-first") {
        return Err(refusal(15, 0));
    }
    lent.fill(&read)?;
    let rows = lent.numbers.chunks_exact(WIDTH).take(lent.used).collect();
    let table = Table {
        rows,
        bytes: &payload.bytes,
        fault,
    };
    let told = table.told(asked);
    let told = told.map_err(|bad| bad.or(fault, &[("record-15-start", payload.start)]))?;
    if fault.is("record-rows") {
        lent.used = lent.used.min(1);
    }
    Ok(told + " ")
}

/// The rows that were read.
pub struct Table<'a> {
    rows: Vec<&'a [u64]>,
    bytes: &'a [u8],
    pub fault: Fault,
}

/// A master by its row, or the whole payload.
#[derive(Clone, Copy)]
pub struct Master {
    pub row: Option<usize>,
}

/// A field, from nothing to what the last child makes of it.
pub type Field = Option<usize>;

impl Table<'_> {
    pub fn id(&self, row: usize) -> u32 {
        self.rows[row][0] as u32
    }

    fn depth(&self, row: usize) -> u64 {
        self.rows[row][6]
    }

    /// The rows below a master, in order, of which the direct children are told.
    pub fn below(&self, master: Master) -> Vec<(usize, bool)> {
        let (from, depth) = match master.row {
            None => (0, 0),
            Some(row) => (row + 1, self.depth(row) + 1),
        };
        let siblings = self.fault.is("siblings") && master.row.is_some();
        let rows = from..self.rows.len();
        let rows = rows.take_while(|row| self.depth(*row) >= depth || siblings);
        rows.map(|row| (row, self.depth(row) == depth)).collect()
    }

    /// Its children that may be fields.
    pub fn children(&self, master: Master) -> Vec<usize> {
        let deep = self.fault.is("any-depth");
        let below = self.below(master).into_iter();
        let mut rows: Vec<usize> = below
            .filter_map(|(row, direct)| (direct || deep).then_some(row))
            .collect();
        if self.fault.is("first-child") {
            rows.reverse();
        }
        rows
    }

    /// The masters of an id right below a master, or at any depth.
    fn masters(&self, master: Master, id: u32, deep: bool) -> Vec<Master> {
        let fitting = |row: usize| self.id(row) == id && self.rows[row][5] == MASTER_KIND;
        let below = self.below(master).into_iter();
        let rows = below.filter(|(row, direct)| (*direct || deep) && fitting(*row));
        rows.map(|(row, _)| Master { row: Some(row) }).collect()
    }

    /// All records of an id below a master.
    fn records(&self, master: Master, id: u32) -> Vec<Master> {
        let fault = self.fault;
        if master.row.is_none() && fault.is("record-any-id") {
            let rows = self.below(master).into_iter().filter(|(_, direct)| *direct);
            return rows.map(|(row, _)| Master { row: Some(row) }).collect();
        }
        let deep = match id {
            CHAPTER => fault.is("nested-atoms"),
            DISPLAY => fault.is("nested-displays"),
            SIMPLE => fault.is("nested-simple"),
            _ => master.row.is_none() && fault.is("record-any-depth"),
        };
        if id == DISPLAY && fault.is("displays-all") {
            return self.masters(Master { row: None }, id, true);
        }
        self.masters(master, id, deep)
    }

    /// The record with an index.
    pub fn nth<T: Copy>(&self, all: &[T], index: u64, outer: bool) -> Result<T, Refusal> {
        let fault = self.fault;
        let last = self.rows.last().map_or(0, |row| row[2]);
        let missing = refusal(15, 0).or(fault, &[("record-15-last", last)]);
        let index = match () {
            () if fault.is("index-1") && outer => index.wrapping_sub(1),
            () if fault.is("inner-index-1") && !outer => index.wrapping_sub(1),
            () if fault.is("index-32") => index & 0xFFFF_FFFF,
            () => index,
        };
        if fault.is("index-last") && index >= all.len() as u64 {
            return all.last().copied().ok_or(missing);
        }
        let found = all.iter().zip(0u64..).find(|(_, own)| *own == index);
        found.map(|(thing, _)| *thing).ok_or(missing)
    }

    fn told(&self, asked: &Asked) -> Result<String, Refusal> {
        let mut master = Master { row: None };
        for (level, (id, index)) in asked.path.iter().enumerate() {
            if is_whole(*id) {
                let any = match asked.sort {
                    Sort::Info => "info-1",
                    Sort::Family(_) => "family-1",
                    _ => "audio-1",
                };
                let index = if self.fault.is(any) { &0 } else { index };
                self.nth(&[()], *index, true)?;
                break;
            }
            let mut all = self.records(master, *id);
            if *id == TRACK {
                all = self.counted_tracks(all);
            }
            let outer = master.row.map_or(0, |row| self.rows[row][2]);
            let found = self.nth(&all, *index, level == 0);
            let found = found.map_err(|bad| bad.or(self.fault, &[("record-15-outer", outer)]));
            master = found?;
        }
        match &asked.sort {
            Sort::Attachment => self.attachment(master),
            Sort::Edition => Ok(self.edition(master)),
            Sort::Chapter => Ok(self.chapter(master)),
            Sort::Display => Ok(self.display(master)),
            Sort::Tag => Ok(self.tag(master)),
            Sort::Member(list, index) => self.member(master, *list, *index),
            Sort::Simple => Ok(self.simple(master)),
            Sort::Audio => Ok(self.audio_of(|id| self.field(master, id))),
            Sort::Track => Ok(self.track(master)),
            Sort::Info => Ok(self.info()),
            Sort::Family(index) => self.family(*index),
        }
    }

    /// A field's child: the last of an id.
    pub fn field(&self, master: Master, id: u32) -> Field {
        let mut field = None;
        for row in self.children(master) {
            let kept = self.begins_with_zero(row) && self.fault.is("field-zero-kept");
            if self.id(row) == id && !(kept && field.is_some()) {
                field = Some(row);
            }
        }
        field
    }

    fn is_text(&self, row: usize) -> bool {
        matches!(self.rows[row][5], STRING_KIND | UTF8_KIND)
    }

    /// Whether a row is a text of which nothing is shown, though it is not empty.
    fn begins_with_zero(&self, row: usize) -> bool {
        self.is_text(row) && self.body(row).first() == Some(&0)
    }

    /// The bytes of a row.
    pub fn body(&self, row: usize) -> &[u8] {
        let from = (self.rows[row][2] + self.rows[row][3]) as usize;
        // A faulty reader may come to a row that is no leaf.
        let part = self.bytes.get(from..from + self.rows[row][4] as usize);
        part.unwrap_or(&[])
    }

    /// Where they stand.
    fn place(&self, row: usize) -> String {
        let [_, _, address, header, payload, ..] = *self.rows[row] else {
            unreachable!("a row has all its numbers");
        };
        if self.fault.is("field-header") {
            return format!("{address}+{}", header + payload);
        }
        if payload == 0 && self.fault.is("empty-unset") {
            return "unset".to_string();
        }
        if self.begins_with_zero(row) && self.fault.is("field-zero-unset") {
            return "unset".to_string();
        }
        let length = if self.is_text(row) && self.fault.is("field-zero") {
            before_zero(self.body(row)).len() as u64
        } else {
            payload
        };
        format!("{}+{length}", address + header)
    }

    pub fn range(&self, field: Field) -> String {
        field.map_or("unset".to_string(), |row| self.place(row))
    }

    /// The number of a row that has one.
    pub fn number(&self, row: usize) -> u64 {
        let body = self.body(row);
        let body = if self.fault.is("narrow-number") {
            &body[body.len().saturating_sub(4)..]
        } else {
            body
        };
        let mut number = 0;
        if self.fault.is("signed-number") && body.first().is_some_and(|byte| *byte >= 0x80) {
            number = u64::MAX;
        }
        for byte in body {
            number = number << 8 | u64::from(*byte);
        }
        number
    }

    pub fn number_told(&self, field: Field) -> String {
        match field {
            None if self.fault.is("number-zero") => "0".to_string(),
            Some(row) if self.fault.is("empty-number") && self.body(row).is_empty() => {
                "unset".to_string()
            }
            None => "unset".to_string(),
            Some(row) => self.number(row).to_string(),
        }
    }

    pub fn time(&self, field: Field) -> String {
        match field {
            Some(row) if self.fault.is("times-milli") => (self.number(row) / 1_000_000).to_string(),
            Some(row) if self.fault.is("times-second") => {
                let number = self.number(row);
                (number - number % 1_000_000_000).to_string()
            }
            _ => self.number_told(field),
        }
    }

    pub fn flag(&self, field: Field) -> &'static str {
        let fault = self.fault;
        let Some(row) = field else {
            return if fault.is("flag-no") { "no" } else { "unset" };
        };
        let yes = match self.body(row) {
            [] => fault.is("flag-empty"),
            [.., last] if fault.is("flag-byte") => *last != 0,
            _ if fault.is("flag-one") => self.number(row) == 1,
            body => body.iter().any(|byte| *byte != 0),
        };
        if yes {
            "yes"
        } else {
            "no"
        }
    }

    /// The language, as each child changes it.
    pub fn language(&self, master: Master, iso: u32, ietf: u32) -> String {
        let fault = self.fault;
        // What was set, and whether it is the IETF one.
        let mut language: Option<(usize, bool)> = None;
        for row in self.children(master) {
            let now = language.map(|(_, is_ietf)| is_ietf);
            let id = self.id(row);
            let taken = match now {
                Some(true) if id == iso => fault.is("iso-replaces"),
                Some(true) if id == ietf => !fault.is("ietf-kept"),
                Some(false) if id == iso => !fault.is("iso-kept"),
                Some(false) if id == ietf => {
                    let empty = self.body(row).is_empty();
                    !fault.is("ietf-weak") && !(empty && fault.is("language-empty"))
                }
                _ => id == iso || id == ietf,
            };
            if taken {
                language = Some((row, id == ietf));
            }
        }
        match language {
            None if fault.is("language-default") => "iso eng".to_string(),
            None => "unset".to_string(),
            Some((row, true)) => format!("ietf {}", self.place(row)),
            Some((row, false)) => format!("iso {}", self.place(row)),
        }
    }

    fn attachment(&self, file: Master) -> Result<String, Refusal> {
        let field = |id| self.field(file, id);
        let data = field(FILE_DATA);
        if let Some(row) = data.filter(|_| self.fault.is("data-text")) {
            let at = self.rows[row][2];
            String::from_utf8(self.body(row).to_vec()).map_err(|_| refusal(7, at))?;
        }
        Ok(format!(
            "description {} name {} mime {} data {}",
            self.range(field(FILE_DESCRIPTION)),
            self.range(field(FILE_NAME)),
            self.range(field(FILE_MIME)),
            self.range(data)
        ))
    }

    fn edition(&self, edition: Master) -> String {
        let flag = |id| self.flag(self.field(edition, id));
        let (mut hidden, mut default) = (flag(EDITION_HIDDEN), flag(EDITION_DEFAULT));
        if self.fault.is("flags-swapped") {
            (hidden, default) = (default, hidden);
        }
        format!(
            "uid {} hidden {hidden} default {default} ordered {} chapters {}",
            self.number_told(self.field(edition, EDITION_UID)),
            flag(EDITION_ORDERED),
            self.records(edition, CHAPTER).len()
        )
    }

    fn chapter(&self, chapter: Master) -> String {
        let field = |id| self.field(chapter, id);
        let enabled = match field(CHAPTER_ENABLED) {
            None if self.fault.is("enabled-yes") => "yes",
            enabled => self.flag(enabled),
        };
        let segment = field(CHAPTER_SEGMENT).filter(|row| {
            let text = String::from_utf8(self.body(*row).to_vec()).is_ok();
            text || !self.fault.is("segment-text")
        });
        format!(
            "uid {} start {} end {} hidden {} enabled {enabled} segment {} edition {} displays {}",
            self.number_told(field(CHAPTER_UID)),
            self.time(field(CHAPTER_START)),
            self.time(field(CHAPTER_END)),
            self.flag(field(CHAPTER_HIDDEN)),
            self.range(segment),
            self.number_told(field(CHAPTER_EDITION)),
            self.records(chapter, DISPLAY).len()
        )
    }

    fn display(&self, display: Master) -> String {
        format!(
            "string {} language {}",
            self.range(self.field(display, DISPLAY_STRING)),
            self.language(display, DISPLAY_ISO, DISPLAY_IETF)
        )
    }

    /// The Targets that count, in order: the last one, but for a fault.
    fn targets(&self, tag: Master) -> Vec<Master> {
        let mut all = self.masters(tag, TARGETS, false);
        if self.fault.is("targets-gather") || self.fault.is("targets-merge") {
            return all;
        }
        if self.fault.is("targets-first") {
            all.truncate(1);
        }
        if self.fault.is("targets-empty") {
            all.retain(|targets| !self.below(*targets).is_empty());
        }
        all.pop().into_iter().collect()
    }

    /// The members of a list of a tag.
    fn list(&self, tag: Master, list: List) -> Vec<usize> {
        let fault = self.fault;
        let swapped = fault.is("list-swapped");
        let id = match list {
            List::Track => TRACK_UID,
            List::Edition if swapped => TAG_CHAPTER_UID,
            List::Chapter if swapped => TAG_EDITION_UID,
            List::Edition => TAG_EDITION_UID,
            List::Chapter => TAG_CHAPTER_UID,
            List::Attachment => ATTACHMENT_UID,
        };
        let mut targets = self.targets(tag);
        if !fault.is("targets-gather") {
            targets = targets.pop().into_iter().collect();
        }
        if fault.is("target-direct") {
            targets.push(tag);
        }
        let rows = targets.iter().flat_map(|targets| {
            let below = self.below(*targets).into_iter();
            below.filter(|(row, direct)| *direct && self.id(*row) == id)
        });
        let mut rows: Vec<usize> = rows.map(|(row, _)| row).collect();
        if fault.is("list-last") {
            rows = rows.pop().into_iter().collect();
        }
        if fault.is("list-reversed") {
            rows.reverse();
        }
        rows
    }

    fn member(&self, tag: Master, list: List, index: u64) -> Result<String, Refusal> {
        match self.nth(&self.list(tag, list), index, false) {
            Err(_) if self.fault.is("list-zero") => Ok("uid 0".to_string()),
            row => Ok(format!("uid {}", self.number(row?))),
        }
    }

    fn tag(&self, tag: Master) -> String {
        let fault = self.fault;
        let simple = self.records(tag, SIMPLE).len();
        let targets = self.targets(tag);
        if targets.is_empty() && !fault.is("targets-none") {
            return format!("target no simple {simple}");
        }
        let field = |id| {
            let mut fields = targets.iter().map(|targets| self.field(*targets, id));
            if fault.is("targets-merge") {
                fields.rev().flatten().next()
            } else {
                fields.next_back().flatten()
            }
        };
        let count = |list| self.list(tag, list).len();
        let number = field(TARGET_NUMBER);
        let known = |row: &usize| matches!(self.number(*row), 10 | 20 | 30 | 40 | 50 | 60 | 70);
        let value = match number {
            None if fault.is("target-number") => "50".to_string(),
            _ if fault.is("target-known") => self.number_told(number.filter(known)),
            _ => self.number_told(number),
        };
        format!(
            "target yes value {value} type {} tracks {} editions {} chapters {} attachments {} simple {simple}",
            self.range(field(TARGET_TYPE)),
            count(List::Track),
            count(List::Edition),
            count(List::Chapter),
            count(List::Attachment)
        )
    }

    fn simple(&self, simple: Master) -> String {
        let fault = self.fault;
        let (text, binary) = (
            self.field(simple, SIMPLE_TEXT),
            self.field(simple, SIMPLE_BINARY),
        );
        let mut value = None;
        for row in self.children(simple) {
            if !matches!(self.id(row), SIMPLE_TEXT | SIMPLE_BINARY) {
                continue;
            }
            let kept = value.is_some()
                && (fault.is("value-first")
                    || fault.is("value-empty") && self.body(row).is_empty());
            if !kept {
                value = Some(row);
            }
        }
        if fault.is("text-first") {
            value = text.or(binary);
        }
        if fault.is("binary-first") {
            value = binary.or(text);
        }
        let value = match value {
            None => "unset".to_string(),
            Some(row) if self.id(row) == SIMPLE_TEXT => format!("text {}", self.place(row)),
            Some(row) => format!("binary {}", self.place(row)),
        };
        format!(
            "name {} language {} default {} value {value}",
            self.range(self.field(simple, SIMPLE_NAME)),
            self.language(simple, SIMPLE_ISO, SIMPLE_IETF),
            self.flag(self.field(simple, SIMPLE_DEFAULT))
        )
    }

    /// Audio by its fields.
    pub fn audio_of(&self, field: impl Fn(u32) -> Field) -> String {
        let (mut channels, mut depth) = (field(AUDIO_CHANNELS), field(AUDIO_DEPTH));
        if self.fault.is("depth-channels") {
            (channels, depth) = (depth, channels);
        }
        let output = field(0x78B5).filter(|_| self.fault.is("rate-output"));
        let rate = output.max(field(AUDIO_RATE));
        format!(
            "rate {} channels {} depth {}",
            rate.map_or("unset".to_string(), |row| self.float(row, "rate")),
            self.number_told(channels),
            self.number_told(depth)
        )
    }

    /// The pattern of a rate or a gamma as a float of 64 bits.
    pub fn float(&self, row: usize, of: &str) -> String {
        let faulty = |what: &str| self.fault.is(&format!("{of}-{what}"));
        let pattern = self
            .body(row)
            .iter()
            .fold(0, |sum, byte| sum << 8 | u64::from(*byte));
        let narrow = self.body(row).len() == 4;
        let mut float = if narrow {
            f64::from(f32::from_bits(pattern as u32))
        } else {
            f64::from_bits(pattern)
        };
        if faulty("narrow") {
            float = f64::from(float as f32);
        }
        if faulty("zero") && float == 0.0 {
            float = 0.0;
        }
        match () {
            () if faulty("bits") && narrow => format!("{pattern:016X}"),
            () if faulty("unset") && float == 0.0 => "unset".to_string(),
            () if float.is_nan() && !faulty("nan") => "nan".to_string(),
            () => format!("{:016X}", float.to_bits()),
        }
    }
}

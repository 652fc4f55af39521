//! The records, built straight from document 01 over the judge's own reading and
//! apart from the crate: a field is the last direct child of its id and kind.

use crate::reading::{before_zero, part, End, Payload, Row, Terms, CRATE, LIVE, OURS};
use crate::refusal::plain;
use crate::table::{digits, read, reason, with_table, Due, BOUNDED, NOWHERE};
use question::{List, Question};
use tools::ids::*;

/// The exception of the flags 55AB to 55AF of a track.
pub const MARKS: &str = "flags 55AB to 55AF";

/// There is no such record or list member.
const MISSING: End = End::Refused(15, NOWHERE);

/// The answers due to a question; `None` if it asks for no record.
pub fn due(question: &Question) -> Option<Due> {
    match question {
        Question::TrackType { number } => {
            let told = track_type(*number);
            Some(told_by(told, told, None))
        }
        Question::Label {
            range,
            label,
            bytes,
        } => {
            let told = stage_label(*range, label, bytes);
            Some(added(&told))
        }
        _ => {
            let payload = read_of(question)?;
            let ours = answer(question, &payload, OURS);
            let theirs = plain(&answer(question, &payload, CRATE));
            let bounded = || plain(&answer(question, &payload, BOUNDED));
            let exception = (plain(&ours) != theirs).then(|| {
                if but_marks(&ours, &theirs) {
                    MARKS
                } else {
                    reason(&bounded(), &theirs)
                }
            });
            Some(told_by(&ours, &theirs, exception))
        }
    }
}

/// Our answer in live mode; `None` if the question reads no payload for a record.
pub fn live(question: &Question) -> Option<String> {
    let payload = read_of(question)?;
    Some(answer(question, &payload, LIVE))
}

/// Our answer to a question that the port adds, which the crate has no answer to.
pub fn added(ours: &str) -> Due {
    told_by(ours, "no answer", Some("added"))
}

/// Whether two answers tell the same track but for the five marks, of which ours are
/// unset wherever they differ.
fn but_marks(ours: &str, theirs: &str) -> bool {
    let ours: Vec<&str> = ours.split(' ').collect();
    let theirs: Vec<&str> = theirs.split(' ').collect();
    let left_unset = |place: usize| {
        let named = place > 0 && MARK_NAMES.contains(&ours[place - 1]);
        named && ours[place] == "unset"
    };
    ours.len() == theirs.len()
        && (0..ours.len()).all(|place| ours[place] == theirs[place] || left_unset(place))
}

/// Our answer, and that of both builds.
pub fn told_by(ours: &str, theirs: &str, exception: Option<&'static str>) -> Due {
    Due {
        ours: ours.to_string(),
        checked: theirs.to_string(),
        wrapping: theirs.to_string(),
        exception,
    }
}

/// What a record question has read.
fn read_of(question: &Question) -> Option<Payload<'_>> {
    let (payload, parent) = payload_of(question)?;
    Some(Payload {
        start: payload.start,
        size: payload.size,
        parent,
        numbers: payload.numbers,
        bytes: &payload.bytes,
    })
}

/// The payload of a record question, and the parent under which it is read.
fn payload_of(question: &Question) -> Option<(&question::Payload, u32)> {
    match question {
        Question::Attachment { payload, .. } => Some((payload, ATTACHED_FILE)),
        Question::Edition { payload, .. }
        | Question::Chapter { payload, .. }
        | Question::Display { payload, .. } => Some((payload, EDITION)),
        Question::Tag { payload, .. }
        | Question::Uid { payload, .. }
        | Question::Simple { payload, .. } => Some((payload, TAG)),
        Question::Audio { payload, .. } => Some((payload, AUDIO)),
        Question::Track { payload, .. } => Some((payload, TRACK)),
        Question::Info { payload, .. } | Question::Family { payload, .. } => Some((payload, INFO)),
        _ => None,
    }
}

/// The answer by some terms: 14, the read, then 15.
fn answer(question: &Question, payload: &Payload, terms: Terms) -> String {
    let told = read(payload, terms).and_then(|rows| {
        let whole = Record {
            rows: &rows,
            own: 0,
            bytes: payload.bytes,
        };
        Ok(format!(
            "{} rows {} rest 0",
            record(question, whole, terms)?,
            rows.len()
        ))
    });
    with_table(told)
}

/// What a question asks of a payload that was read.
fn record(question: &Question, whole: Record, terms: Terms) -> Result<String, End> {
    Ok(match question {
        Question::Attachment { k, .. } => attachment(whole.member(ATTACHED_FILE, *k)?),
        Question::Edition { k, .. } => edition(whole.member(EDITION, *k)?),
        Question::Chapter { k, i, .. } => chapter(whole.member(EDITION, *k)?.member(CHAPTER, *i)?),
        Question::Display { k, i, j, .. } => {
            let chapter = whole.member(EDITION, *k)?.member(CHAPTER, *i)?;
            display(chapter.member(DISPLAY, *j)?)
        }
        Question::Tag { k, .. } => tag(whole.member(TAG, *k)?),
        Question::Uid { k, list, i, .. } => {
            let targets = targets(whole.member(TAG, *k)?).ok_or(MISSING)?;
            let uids = targets.numbers(match list {
                List::Track => TRACK_UID,
                List::Edition => TAG_EDITION_UID,
                List::Chapter => TAG_CHAPTER_UID,
                List::Attachment => ATTACHMENT_UID,
            });
            format!("uid {}", nth(&uids, *i)?)
        }
        Question::Simple { k, i, .. } => simple(whole.member(TAG, *k)?.member(SIMPLE, *i)?),
        // An audio payload is the record.
        Question::Audio { k, .. } => audio(nth(&[whole], *k)?),
        Question::Track { k, .. } => track(whole.member(TRACK, *k)?, terms),
        // So is one of Info.
        Question::Info { k, .. } => info(nth(&[whole], *k)?),
        Question::Family { k, i, .. } => {
            let families = nth(&[whole], *k)?.children(INFO_FAMILY, BINARY_KIND);
            let (_, family) = nth(&families, *i)?;
            format!("uid {}", range(family))
        }
        _ => unreachable!("it asks for a record"),
    })
}

/// The k-th of some things, or 15.
fn nth<T: Copy>(things: &[T], k: u64) -> Result<T, End> {
    let place = usize::try_from(k).ok();
    let thing = place.and_then(|place| things.get(place));
    thing.copied().ok_or(MISSING)
}

/// A record: a master's row, or the whole payload.
#[derive(Clone, Copy)]
struct Record<'a> {
    rows: &'a [Row],
    /// Its row's number plus 1, or 0.
    own: u64,
    bytes: &'a [u8],
}

impl<'a> Record<'a> {
    /// Its direct children of an id and kind, each with its row's number plus 1.
    fn children(&self, id: u32, kind: u64) -> Vec<(u64, &'a Row)> {
        let numbered = (1..).zip(self.rows);
        let own = self.own;
        let fitting = move |row: &Row| row.parent == own && row.id == id && row.kind == kind;
        numbered.filter(|(_, row)| fitting(row)).collect()
    }

    /// The records of an id among them.
    fn members(&self, id: u32) -> Vec<Record<'a>> {
        let masters = self.children(id, MASTER_KIND);
        let record = |(own, _): &(u64, &Row)| Record { own: *own, ..*self };
        masters.iter().map(record).collect()
    }

    /// The k-th of them, or 15.
    fn member(&self, id: u32, k: u64) -> Result<Record<'a>, End> {
        nth(&self.members(id), k)
    }

    /// The last child of an id and kind, with its row's number plus 1.
    fn last(&self, id: u32, kind: u64) -> Option<(u64, &'a Row)> {
        self.children(id, kind).pop()
    }

    /// A text or bytes, by its address and length.
    fn range(&self, id: u32, kind: u64) -> String {
        told(self.last(id, kind).map(|(_, row)| range(row)))
    }

    /// The number of a row.
    fn value(&self, row: &Row) -> u64 {
        let body = self.body(row).iter();
        body.fold(0, |sum, byte| sum << 8 | u64::from(*byte))
    }

    fn body(&self, row: &Row) -> &'a [u8] {
        let body = part(self.bytes, row.address + row.header, row.payload);
        body.expect("an accepted row is in the recording")
    }

    /// All numbers of an id, in order.
    fn numbers(&self, id: u32) -> Vec<u64> {
        let rows = self.children(id, UINT_KIND);
        rows.iter().map(|(_, row)| self.value(row)).collect()
    }

    /// A field that is a number.
    fn number(&self, id: u32) -> String {
        told(self.numbers(id).pop())
    }

    /// A flag, which is a truth value.
    fn flag(&self, id: u32) -> String {
        let flag = self.numbers(id).pop();
        told(flag.map(|number| if number == 0 { "no" } else { "yes" }))
    }

    /// A float.
    fn float(&self, id: u32) -> String {
        let float_of = |(_, row): (u64, &Row)| float(self.body(row));
        told(self.last(id, FLOAT_KIND).map(float_of))
    }

    /// A date, which is a signed number of eight bytes.
    fn date(&self, id: u32) -> String {
        let signed = |(_, row): (u64, &Row)| self.value(row) as i64;
        told(self.last(id, DATE_KIND).map(signed))
    }

    /// The last IETF language; only where there is none the last ISO one.
    fn language(&self, iso: u32, ietf: u32) -> String {
        if let Some((_, row)) = self.last(ietf, STRING_KIND) {
            return format!("ietf {}", range(row));
        }
        let iso = self.last(iso, STRING_KIND);
        told(iso.map(|(_, row)| format!("iso {}", range(row))))
    }
}

fn range(row: &Row) -> String {
    format!("{}+{}", row.address + row.header, row.payload)
}

/// A field as it is told, which may be unset.
fn told(field: Option<impl ToString>) -> String {
    field.map_or("unset".to_string(), |set| set.to_string())
}

fn attachment(file: Record) -> String {
    format!(
        "description {} name {} mime {} data {}",
        file.range(FILE_DESCRIPTION, UTF8_KIND),
        file.range(FILE_NAME, UTF8_KIND),
        file.range(FILE_MIME, STRING_KIND),
        file.range(FILE_DATA, BINARY_KIND)
    )
}

fn edition(edition: Record) -> String {
    format!(
        "uid {} hidden {} default {} ordered {} chapters {}",
        edition.number(EDITION_UID),
        edition.flag(EDITION_HIDDEN),
        edition.flag(EDITION_DEFAULT),
        edition.flag(EDITION_ORDERED),
        edition.members(CHAPTER).len()
    )
}

fn chapter(chapter: Record) -> String {
    format!(
        "uid {} start {} end {} hidden {} enabled {} segment {} edition {} displays {}",
        chapter.number(CHAPTER_UID),
        chapter.number(CHAPTER_START),
        chapter.number(CHAPTER_END),
        chapter.flag(CHAPTER_HIDDEN),
        chapter.flag(CHAPTER_ENABLED),
        chapter.range(CHAPTER_SEGMENT, BINARY_KIND),
        chapter.number(CHAPTER_EDITION),
        chapter.members(DISPLAY).len()
    )
}

fn display(display: Record) -> String {
    format!(
        "string {} language {}",
        display.range(DISPLAY_STRING, UTF8_KIND),
        display.language(DISPLAY_ISO, DISPLAY_IETF)
    )
}

/// Targets is a field: the last one counts.
fn targets(tag: Record) -> Option<Record> {
    tag.members(TARGETS).pop()
}

fn tag(tag: Record) -> String {
    let simple = tag.members(SIMPLE).len();
    let Some(targets) = targets(tag) else {
        return format!("target no simple {simple}");
    };
    let count = |id| targets.numbers(id).len();
    format!(
        "target yes value {} type {} tracks {} editions {} chapters {} attachments {} simple {simple}",
        targets.number(TARGET_NUMBER),
        targets.range(TARGET_TYPE, STRING_KIND),
        count(TRACK_UID),
        count(TAG_EDITION_UID),
        count(TAG_CHAPTER_UID),
        count(ATTACHMENT_UID)
    )
}

/// The value is the last of both kinds of it.
fn simple(simple: Record) -> String {
    let text = simple.last(SIMPLE_TEXT, UTF8_KIND);
    let binary = simple.last(SIMPLE_BINARY, BINARY_KIND);
    let value = match (text, binary) {
        (Some((place, text)), Some((other, _))) if place > other => {
            format!("text {}", range(text))
        }
        (_, Some((_, binary))) => format!("binary {}", range(binary)),
        (Some((_, text)), None) => format!("text {}", range(text)),
        (None, None) => "unset".to_string(),
    };
    format!(
        "name {} language {} default {} value {value}",
        simple.range(SIMPLE_NAME, UTF8_KIND),
        simple.language(SIMPLE_ISO, SIMPLE_IETF),
        simple.flag(SIMPLE_DEFAULT)
    )
}

fn audio(audio: Record) -> String {
    format!(
        "rate {} channels {} depth {}",
        audio.float(AUDIO_RATE),
        audio.number(AUDIO_CHANNELS),
        audio.number(AUDIO_DEPTH)
    )
}

/// The names of the flags 55AB to 55AF.
const MARK_NAMES: [&str; 5] = ["hearing", "visual", "text", "original", "commentary"];

fn track(track: Record, terms: Terms) -> String {
    let number_type = track.numbers(TRACK_TYPE).pop();
    let marks = MARK_NAMES.iter().zip(TRACK_MARKS);
    let marks: Vec<String> = marks
        .map(|(name, id)| format!("{name} {}", mark(track, id, terms)))
        .collect();
    let first = format!(
        "number {} uid {} type {} enabled {} default {} forced {} {} lacing {}",
        track.number(TRACK_NUMBER),
        track.number(TRACK_OWN_UID),
        told(number_type.map(track_type)),
        track.flag(TRACK_ENABLED),
        track.flag(TRACK_DEFAULT),
        track.flag(TRACK_FORCED),
        marks.join(" "),
        track.flag(TRACK_LACING)
    );
    format!(
        "{first} duration {} name {} language {} codec {} private {} codecname {} settings {}",
        track.number(TRACK_DURATION),
        track.range(TRACK_NAME, UTF8_KIND),
        track.language(TRACK_ISO, TRACK_IETF),
        track.range(TRACK_CODEC, STRING_KIND),
        track.range(TRACK_PRIVATE, BINARY_KIND),
        track.range(TRACK_CODEC_NAME, UTF8_KIND),
        settings(track)
    )
}

/// A flag of 55AB to 55AF. It is made of bytes, of which the crate takes the first; of
/// none it makes no flag.
fn mark(track: Record, id: u32, terms: Terms) -> String {
    let bytes = track.last(id, BINARY_KIND).filter(|_| !terms.unset_marks);
    let first = bytes.and_then(|(_, row)| track.body(row).first());
    told(first.map(|byte| if *byte == 0 { "no" } else { "yes" }))
}

/// The last of all video and audio of a track decides.
fn settings(track: Record) -> String {
    let (seen, heard) = (track.members(VIDEO).pop(), track.members(AUDIO).pop());
    match (seen, heard) {
        (Some(seen), Some(heard)) if heard.own > seen.own => format!("audio {}", audio(heard)),
        (Some(seen), _) => format!("video {}", video(seen)),
        (None, Some(heard)) => format!("audio {}", audio(heard)),
        (None, None) => "none".to_string(),
    }
}

/// Numbers that mean nothing leave a field unset, whatever stands before them.
fn video(video: Record) -> String {
    let interlaced = match video.numbers(VIDEO_INTERLACED).pop() {
        Some(1) => "yes",
        Some(2) => "no",
        _ => "unset",
    };
    let stereo = video.numbers(VIDEO_STEREO).pop();
    format!(
        "width {} height {} dwidth {} dheight {} interlaced {interlaced} stereo {} gamma {}",
        video.number(VIDEO_WIDTH),
        video.number(VIDEO_HEIGHT),
        video.number(VIDEO_SHOWN_WIDTH),
        video.number(VIDEO_SHOWN_HEIGHT),
        told(stereo.filter(|mode| *mode <= 14)),
        video.float(VIDEO_GAMMA)
    )
}

fn info(info: Record) -> String {
    let bytes = |id| info.range(id, BINARY_KIND);
    let text = |id| info.range(id, UTF8_KIND);
    let first = format!(
        "uid {} previous {} next {} families {} title {}",
        bytes(INFO_UID),
        bytes(INFO_PREVIOUS),
        bytes(INFO_NEXT),
        info.children(INFO_FAMILY, BINARY_KIND).len(),
        text(INFO_TITLE)
    );
    format!(
        "{first} duration {} scale {} date {} muxing {} writing {}",
        info.float(INFO_DURATION),
        info.number(INFO_SCALE),
        info.date(INFO_DATE),
        text(INFO_MUXING),
        text(INFO_WRITING)
    )
}

/// The pattern of a float as one of 64 bits; all NaNs are one.
fn float(body: &[u8]) -> String {
    let wide = match *body {
        [a, b, c, d] => f64::from(f32::from_be_bytes([a, b, c, d])),
        _ => f64::from_be_bytes(body.try_into().expect("a float has 4 or 8 bytes")),
    };
    if wide.is_nan() {
        return "nan".to_string();
    }
    format!("{:016X}", wide.to_bits())
}

fn track_type(number: u64) -> &'static str {
    match number {
        1 => "video",
        2 => "audio",
        3 => "complex",
        16 => "logo",
        17 => "subtitle",
        18 => "buttons",
        32 => "control",
        _ => "unknown",
    }
}

/// What is shown of the bytes of a range in the recording; where it is unset, or not in
/// it, or nothing is shown, the caller's own label, which is told whole.
fn stage_label(range: Option<(u64, u64)>, label: &[u8], bytes: &[u8]) -> String {
    let text = range.and_then(|(address, length)| part(bytes, address, length));
    let shown = text.map(before_zero).filter(|shown| !shown.is_empty());
    format!("label {}", digits(shown.unwrap_or(label)))
}

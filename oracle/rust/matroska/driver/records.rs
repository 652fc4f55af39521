//! The records, built by the crate from trees in which every text and every
//! run of bytes is replaced by its own address and length.

use super::read::{read, Row};
use super::{call, float, tracktype, Failed, Outcome, Reader};
use crate::ebml::{Element, ElementType};
use crate::{ids, Parseable};
use crate::{
    Attachment, Audio, Chapter, ChapterDisplay, ChapterEdition, Language, Settings, SimpleTag,
    StereoMode, Tag, TagValue, Target, TargetTypeValue, Track, Tracktype, Video,
};
use question::{List, Payload};
use std::convert::TryFrom;

/// What stands in a retold tree for each number. The crate shows an unset
/// number or flag as 0 or no; one that is set differs between `True` and
/// `Other`, one that is unset does not.
#[derive(Clone, Copy)]
pub(super) enum Numbers {
    /// The number as it was read.
    True,
    /// Another number, which also is another truth value.
    Other,
    /// The number that the crate reads as the target level `Collection`.
    Collection,
    /// The number that the crate reads as the track type `Video`.
    Video,
}

impl Numbers {
    fn unsigned(self, number: u64) -> u64 {
        match self {
            Numbers::True => number,
            Numbers::Other => u64::from(number == 0),
            Numbers::Collection => 70,
            Numbers::Video => 1,
        }
    }

    fn float(self, number: f64) -> f64 {
        match self {
            Numbers::Other if number.to_bits() == 0 => 1.0,
            Numbers::Other => 0.0,
            _ => number,
        }
    }
}

/// A payload that was read, of which the same record can be built again with
/// other numbers in it.
pub(super) struct Source<'a> {
    pub(super) payload: &'a Payload,
    pub(super) elements: Vec<Element>,
    rows: Vec<Row>,
}

impl Source<'_> {
    pub(super) fn read(payload: &Payload, parent: u32) -> Outcome<Source<'_>> {
        let (elements, rows) = read(payload.start, payload.size, parent, &payload.bytes)?;
        Ok(Source {
            payload,
            elements,
            rows,
        })
    }

    /// The tree with ranges in place of texts and bytes. The rows stand in
    /// the order in which the tree is walked.
    pub(super) fn retell(&self, numbers: Numbers) -> Vec<Element> {
        retell(&self.elements, &mut self.rows.iter(), numbers)
    }

    /// The children of the k-th master of that id, as the crate's `parse`
    /// picks them.
    fn entry(&self, id: u32, k: u64, numbers: Numbers) -> Outcome<Vec<Element>> {
        let entries = self
            .retell(numbers)
            .into_iter()
            .filter_map(|e| match e.val {
                ElementType::Master(children) if e.id == id => Some(children),
                _ => None,
            });
        nth(entries, k)
    }

    /// The k-th record as the crate's `parse` builds it from the bytes.
    fn own<T, P: Parseable<Output = Vec<T>>>(&self, k: u64) -> Outcome<T> {
        let mut reader = Reader::at(&self.payload.bytes, self.payload.start);
        let records = call(|| P::parse(&mut reader, self.payload.size))?;
        nth(records.into_iter(), k)
    }

    /// The end of every accepted answer: the rows are counted, not told.
    pub(super) fn rows(&self) -> String {
        format!("rows {} rest 0", self.rows.len())
    }

    /// The bytes that a range stands for; none for an unset one.
    pub(super) fn bytes(&self, range: &[u8]) -> Vec<u8> {
        let range = std::str::from_utf8(range).expect("a range is ASCII");
        match range.split_once('+') {
            None => Vec::new(),
            Some((address, length)) => {
                let address: usize = address.parse().expect("an address");
                let length: usize = length.parse().expect("a length");
                self.payload.bytes[address..address + length].to_vec()
            }
        }
    }

    /// The text that a range stands for.
    pub(super) fn text(&self, range: &str) -> String {
        String::from_utf8(self.bytes(range.as_bytes())).expect("the crate took it as text")
    }

    fn language(&self, language: &Language) -> Language {
        match language {
            Language::ISO639(range) => Language::ISO639(self.text(range)),
            Language::IETF(range) => Language::IETF(self.text(range)),
        }
    }
}

fn retell<'r>(
    elements: &[Element],
    rows: &mut impl Iterator<Item = &'r Row>,
    numbers: Numbers,
) -> Vec<Element> {
    let retold = elements.iter().map(|element| {
        let row = rows.next().expect("a row for each element");
        let range = format!("{}+{}", row.address + row.header, row.payload);
        Element {
            id: element.id,
            size: element.size,
            val: match &element.val {
                ElementType::Master(children) => {
                    ElementType::Master(retell(children, &mut *rows, numbers))
                }
                ElementType::Int(number) => ElementType::Int(*number),
                ElementType::UInt(number) => ElementType::UInt(numbers.unsigned(*number)),
                ElementType::Float(number) => ElementType::Float(numbers.float(*number)),
                ElementType::Date(date) => ElementType::Date(date.clone()),
                ElementType::String(_) => ElementType::String(range),
                ElementType::UTF8(_) => ElementType::UTF8(range),
                ElementType::Binary(_) => ElementType::Binary(range.into_bytes()),
            },
        }
    });
    retold.collect()
}

/// The k-th record or list member, or 15.
pub(super) fn nth<T>(mut items: impl Iterator<Item = T>, k: u64) -> Outcome<T> {
    usize::try_from(k)
        .ok()
        .and_then(|k| items.nth(k))
        .ok_or_else(|| Failed::Refused("15".to_string()))
}

pub(super) fn agree(same: bool) -> Outcome<()> {
    if same {
        Ok(())
    } else {
        Err(Failed::Fault)
    }
}

/// The mark of a field that is not set. The crate has to show it as it shows that
/// of an empty master.
pub(super) fn unset<T: PartialEq>(shown: T, empty: T) -> Outcome<String> {
    agree(shown == empty)?;
    Ok("unset".to_string())
}

/// An empty range is one that the crate never set.
pub(super) fn range(range: &str, empty: &str) -> Outcome<String> {
    if range.is_empty() {
        unset(range, empty)
    } else {
        Ok(range.to_string())
    }
}

pub(super) fn byte_range(bytes: &[u8], empty: &[u8]) -> Outcome<String> {
    let text = |bytes| std::str::from_utf8(bytes).expect("a range is ASCII");
    range(text(bytes), text(empty))
}

/// A text that the crate holds as an option.
pub(super) fn option_range(range: Option<&str>, empty: Option<&str>) -> Outcome<String> {
    match range {
        None => unset(range, empty),
        Some(range) => Ok(range.to_string()),
    }
}

/// A flag, from its value in the true tree and in the other.
fn flag(now: bool, other: bool, empty: bool) -> Outcome<String> {
    match (now, other) {
        _ if now == other => unset(now, empty),
        (true, _) => Ok("yes".to_string()),
        (false, _) => Ok("no".to_string()),
    }
}

/// A flag that the crate holds as an option.
fn option_flag(flag: Option<bool>, empty: Option<bool>) -> Outcome<String> {
    match flag {
        None => unset(flag, empty),
        Some(true) => Ok("yes".to_string()),
        Some(false) => Ok("no".to_string()),
    }
}

pub(super) fn number(number: Option<u64>, empty: Option<u64>) -> Outcome<String> {
    match number {
        None => unset(number, empty),
        Some(number) => Ok(number.to_string()),
    }
}

/// A number that the crate doesn't hold as an option.
fn bare_number(now: u64, other: u64, empty: u64) -> Outcome<String> {
    if now == other {
        unset(now, empty)
    } else {
        Ok(now.to_string())
    }
}

fn nanoseconds(time: std::time::Duration) -> u64 {
    u64::try_from(time.as_nanos()).expect("it was made from 64 bits")
}

/// A display of an empty master has an ISO language without a letter.
fn language(language: Option<&Language>, empty: Option<&Language>) -> Outcome<String> {
    match language {
        None => unset(language, empty),
        Some(Language::ISO639(range)) if range.is_empty() => unset(language, empty),
        Some(Language::ISO639(range)) => Ok(format!("iso {}", range)),
        Some(Language::IETF(range)) => Ok(format!("ietf {}", range)),
    }
}

pub(crate) fn attachment(payload: &Payload, k: u64) -> Outcome<String> {
    let source = Source::read(payload, ids::ATTACHEDFILE)?;
    let built = Attachment::build_entry(source.entry(ids::ATTACHEDFILE, k, Numbers::True)?);
    let own = source.own::<_, Attachment>(k)?;
    agree(
        own == Attachment {
            description: built.description.as_deref().map(|text| source.text(text)),
            name: source.text(&built.name),
            mime_type: source.text(&built.mime_type),
            data: source.bytes(&built.data),
        },
    )?;
    let empty = Attachment::build_entry(Vec::new());
    Ok(format!(
        "description {} name {} mime {} data {} {}",
        option_range(built.description.as_deref(), empty.description.as_deref())?,
        range(&built.name, &empty.name)?,
        range(&built.mime_type, &empty.mime_type)?,
        byte_range(&built.data, &empty.data)?,
        source.rows()
    ))
}

/// The k-th edition twice, with the true numbers and with others.
fn editions(source: &Source, k: u64) -> Outcome<(ChapterEdition, ChapterEdition)> {
    let build = |numbers| {
        source
            .entry(ids::EDITIONENTRY, k, numbers)
            .map(ChapterEdition::build_entry)
    };
    let now = build(Numbers::True)?;
    let display = |display: &ChapterDisplay| ChapterDisplay {
        string: source.text(&display.string),
        language: source.language(&display.language),
    };
    let chapter = |chapter: &Chapter| Chapter {
        segment_uid: chapter.segment_uid.as_deref().map(|uid| source.bytes(uid)),
        display: chapter.display.iter().map(display).collect(),
        ..chapter.clone()
    };
    let own = source.own::<_, ChapterEdition>(k)?;
    agree(
        own == ChapterEdition {
            chapters: now.chapters.iter().map(chapter).collect(),
            ..now.clone()
        },
    )?;
    Ok((now, build(Numbers::Other)?))
}

pub(crate) fn edition(payload: &Payload, k: u64) -> Outcome<String> {
    let source = Source::read(payload, ids::EDITIONENTRY)?;
    let (now, other) = editions(&source, k)?;
    let empty = ChapterEdition::build_entry(Vec::new());
    Ok(format!(
        "uid {} hidden {} default {} ordered {} chapters {} {}",
        number(now.uid, empty.uid)?,
        flag(now.hidden, other.hidden, empty.hidden)?,
        flag(now.default, other.default, empty.default)?,
        flag(now.ordered, other.ordered, empty.ordered)?,
        now.chapters.len(),
        source.rows()
    ))
}

/// The i-th chapter of the k-th edition, with the true numbers and with others.
fn chapters(source: &Source, k: u64, i: u64) -> Outcome<(Chapter, Chapter)> {
    let (now, other) = editions(source, k)?;
    let now = nth(now.chapters.into_iter(), i)?;
    let other = nth(other.chapters.into_iter(), i)?;
    Ok((now, other))
}

pub(crate) fn chapter(payload: &Payload, k: u64, i: u64) -> Outcome<String> {
    let source = Source::read(payload, ids::EDITIONENTRY)?;
    let (now, other) = chapters(&source, k, i)?;
    let empty = Chapter::build(Vec::new());
    let start = |chapter: &Chapter| nanoseconds(chapter.time_start);
    let segment = match now.segment_uid.as_deref() {
        None => unset(&now.segment_uid, &empty.segment_uid)?,
        Some(uid) => byte_range(uid, &[])?,
    };
    Ok(format!(
        "uid {} start {} end {} hidden {} enabled {} segment {} edition {} displays {} {}",
        bare_number(now.uid, other.uid, empty.uid)?,
        bare_number(start(&now), start(&other), start(&empty))?,
        number(
            now.time_end.map(nanoseconds),
            empty.time_end.map(nanoseconds)
        )?,
        flag(now.hidden, other.hidden, empty.hidden)?,
        flag(now.enabled, other.enabled, empty.enabled)?,
        segment,
        number(now.segment_edition_uid, empty.segment_edition_uid)?,
        now.display.len(),
        source.rows()
    ))
}

pub(crate) fn display(payload: &Payload, k: u64, i: u64, j: u64) -> Outcome<String> {
    let source = Source::read(payload, ids::EDITIONENTRY)?;
    let (chapter, _) = chapters(&source, k, i)?;
    let display = nth(chapter.display.into_iter(), j)?;
    let empty = ChapterDisplay::build(Vec::new());
    Ok(format!(
        "string {} language {} {}",
        range(&display.string, &empty.string)?,
        language(Some(&display.language), Some(&empty.language))?,
        source.rows()
    ))
}

/// The k-th tag as the crate builds it, checked against its own reading.
fn built_tag(source: &Source, k: u64, numbers: Numbers) -> Outcome<Tag> {
    let tag = Tag::build_entry(source.entry(ids::TAG, k, numbers)?);
    let own = source.own::<_, Tag>(k)?;
    if let Numbers::True = numbers {
        let simple = |tag: &SimpleTag| SimpleTag {
            name: source.text(&tag.name),
            language: tag.language.as_ref().map(|l| source.language(l)),
            default: tag.default,
            value: tag.value.as_ref().map(|value| match value {
                TagValue::String(range) => TagValue::String(source.text(range)),
                TagValue::Binary(range) => TagValue::Binary(source.bytes(range)),
            }),
        };
        agree(own.simple == tag.simple.iter().map(simple).collect::<Vec<_>>())?;
        agree(match (&own.targets, &tag.targets) {
            (None, None) => true,
            (Some(own), Some(target)) => {
                own.target_type_value == target.target_type_value
                    && own.target_type == target.target_type.as_deref().map(|t| source.text(t))
                    && own.track_uids == target.track_uids
                    && own.edition_uids == target.edition_uids
                    && own.chapter_uids == target.chapter_uids
                    && own.attachment_uids == target.attachment_uids
            }
            _ => false,
        })?;
    }
    Ok(tag)
}

/// The raw target number: the crate keeps only its level. It is the last
/// unsigned 68CA of the last Targets; that it is there and which level it
/// makes must be what the crate built. An unset one makes the level of an empty
/// master, which is that of the number 50.
fn target_number(source: &Source, k: u64, target: &Target) -> Outcome<Option<u64>> {
    let mut raw = None;
    for element in source.entry(ids::TAG, k, Numbers::True)? {
        if let (ids::TARGETS, ElementType::Master(children)) = (element.id, element.val) {
            raw = children.iter().rev().find_map(|child| match child.val {
                ElementType::UInt(number) if child.id == ids::TARGETTYPEVALUE => Some(number),
                _ => None,
            });
        }
    }
    let level = |target: &Target| target.target_type_value;
    let probe = built_tag(source, k, Numbers::Collection)?.targets;
    let set = probe.as_ref().and_then(level) == Some(TargetTypeValue::Collection);
    agree(set == raw.is_some())?;
    let empty = Target::build_entry(Vec::new());
    agree(match raw {
        Some(raw) => level(target) == Some(TargetTypeValue::from(raw)),
        None => level(target) == level(&empty) && level(&empty) == Some(TargetTypeValue::from(50)),
    })?;
    Ok(raw)
}

pub(crate) fn tag(payload: &Payload, k: u64) -> Outcome<String> {
    let source = Source::read(payload, ids::TAG)?;
    let tag = built_tag(&source, k, Numbers::True)?;
    let simple = format!("simple {} {}", tag.simple.len(), source.rows());
    let empty = Target::build_entry(Vec::new());
    Ok(match &tag.targets {
        None => format!("target no {}", simple),
        Some(target) => format!(
            "target yes value {} type {} tracks {} editions {} chapters {} attachments {} {}",
            number(target_number(&source, k, target)?, None)?,
            option_range(target.target_type.as_deref(), empty.target_type.as_deref())?,
            target.track_uids.len(),
            target.edition_uids.len(),
            target.chapter_uids.len(),
            target.attachment_uids.len(),
            simple
        ),
    })
}

pub(crate) fn uid(payload: &Payload, k: u64, list: List, i: u64) -> Outcome<String> {
    let source = Source::read(payload, ids::TAG)?;
    let target = nth(built_tag(&source, k, Numbers::True)?.targets.into_iter(), 0)?;
    let uids = match list {
        List::Track => target.track_uids,
        List::Edition => target.edition_uids,
        List::Chapter => target.chapter_uids,
        List::Attachment => target.attachment_uids,
    };
    let uid = nth(uids.into_iter(), i)?;
    Ok(format!("uid {} {}", uid, source.rows()))
}

pub(crate) fn simple(payload: &Payload, k: u64, i: u64) -> Outcome<String> {
    let source = Source::read(payload, ids::TAG)?;
    let build = |numbers| nth(built_tag(&source, k, numbers)?.simple.into_iter(), i);
    let (now, other) = (build(Numbers::True)?, build(Numbers::Other)?);
    let empty = SimpleTag::build_entry(Vec::new());
    let value = match &now.value {
        None => unset(&now.value, &empty.value)?,
        Some(TagValue::String(text)) => format!("text {}", range(text, "")?),
        Some(TagValue::Binary(bytes)) => format!("binary {}", byte_range(bytes, &[])?),
    };
    Ok(format!(
        "name {} language {} default {} value {} {}",
        range(&now.name, &empty.name)?,
        language(now.language.as_ref(), empty.language.as_ref())?,
        flag(now.default, other.default, empty.default)?,
        value,
        source.rows()
    ))
}

/// An audio payload is itself the record, so there is only the 0th.
pub(crate) fn audio(payload: &Payload, k: u64) -> Outcome<String> {
    let source = Source::read(payload, ids::AUDIO)?;
    nth(std::iter::once(()), k)?;
    let now = Audio::build(source.retell(Numbers::True));
    let other = Audio::build(source.retell(Numbers::Other));
    Ok(format!("{} {}", told_audio(&now, &other)?, source.rows()))
}

/// Audio from the true tree, and from the other.
fn told_audio(now: &Audio, other: &Audio) -> Outcome<String> {
    let empty = Audio::build(Vec::new());
    let bits = |audio: &Audio| audio.sample_rate.to_bits();
    let rate = if bits(now) == bits(other) {
        unset(bits(now), bits(&empty))?
    } else {
        float(now.sample_rate)
    };
    Ok(format!(
        "rate {} channels {} depth {}",
        rate,
        bare_number(now.channels, other.channels, empty.channels)?,
        number(now.bit_depth, empty.bit_depth)?
    ))
}

/// Video in the same way.
fn told_video(now: &Video, other: &Video) -> Outcome<String> {
    let empty = Video::build(Vec::new());
    let stereo = match now.stereo {
        None => unset(now.stereo, empty.stereo)?,
        Some(mode) => stereo_number(mode)?.to_string(),
    };
    let gamma = match now.gamma {
        None => unset(now.gamma, empty.gamma)?,
        Some(gamma) => float(gamma),
    };
    Ok(format!(
        "width {} height {} dwidth {} dheight {} interlaced {} stereo {} gamma {}",
        bare_number(now.pixel_width, other.pixel_width, empty.pixel_width)?,
        bare_number(now.pixel_height, other.pixel_height, empty.pixel_height)?,
        number(now.display_width, empty.display_width)?,
        number(now.display_height, empty.display_height)?,
        option_flag(now.interlaced, empty.interlaced)?,
        stereo,
        gamma
    ))
}

/// The number that makes a stereo mode, by the crate's own table. No two make the
/// same one.
fn stereo_number(mode: StereoMode) -> Outcome<u64> {
    let made_by = |number: &u64| {
        let element = Element {
            id: ids::STEREOMODE,
            size: 0,
            val: ElementType::UInt(*number),
        };
        Video::build(vec![element]).stereo == Some(mode)
    };
    let mut numbers = (0..256).filter(made_by);
    match (numbers.next(), numbers.next()) {
        (Some(number), None) => Ok(number),
        _ => Err(Failed::Fault),
    }
}

/// The settings, which are of one sort in both trees.
fn settings(now: &Settings, other: &Settings, empty: &Settings) -> Outcome<String> {
    match (now, other) {
        (Settings::None, Settings::None) => {
            agree(now == empty)?;
            Ok("none".to_string())
        }
        (Settings::Audio(now), Settings::Audio(other)) => {
            Ok(format!("audio {}", told_audio(now, other)?))
        }
        (Settings::Video(now), Settings::Video(other)) => {
            Ok(format!("video {}", told_video(now, other)?))
        }
        _ => Err(Failed::Fault),
    }
}

pub(crate) fn track(payload: &Payload, k: u64) -> Outcome<String> {
    let source = Source::read(payload, ids::TRACKENTRY)?;
    let build = |numbers| {
        source
            .entry(ids::TRACKENTRY, k, numbers)
            .map(Track::build_entry)
    };
    let (now, other) = (build(Numbers::True)?, build(Numbers::Other)?);
    // The crate looks into the bytes of 55AB to 55AF, so these five are told from the
    // record that it builds from the bytes. Settings are compared as they are shown:
    // there a NaN is equal to itself.
    let own = source.own::<_, Track>(k)?;
    agree(format!("{:?}", own.settings) == format!("{:?}", now.settings))?;
    agree(
        Track {
            settings: Settings::None,
            ..own.clone()
        } == Track {
            hearing_impaired: own.hearing_impaired,
            visual_impaired: own.visual_impaired,
            text_descriptions: own.text_descriptions,
            original: own.original,
            commentary: own.commentary,
            name: now.name.as_deref().map(|text| source.text(text)),
            language: now.language.as_ref().map(|l| source.language(l)),
            codec_id: source.text(&now.codec_id),
            codec_private: now.codec_private.as_deref().map(|part| source.bytes(part)),
            codec_name: now.codec_name.as_deref().map(|text| source.text(text)),
            settings: Settings::None,
            ..now.clone()
        },
    )?;
    let empty = Track::build_entry(Vec::new());
    // Unknown is a number without a name, or none at all.
    let told_type = match build(Numbers::Video)?.tracktype {
        Tracktype::Video => tracktype(now.tracktype).to_string(),
        _ => unset(now.tracktype, empty.tracktype)?,
    };
    let private = match now.codec_private.as_deref() {
        None => unset(&now.codec_private, &empty.codec_private)?,
        Some(private) => byte_range(private, &[])?,
    };
    Ok(format!(
        "number {} uid {} type {} enabled {} default {} forced {} hearing {} visual {} text {} \
         original {} commentary {} lacing {} duration {} name {} language {} codec {} private {} \
         codecname {} settings {} {}",
        bare_number(now.number, other.number, empty.number)?,
        bare_number(now.uid, other.uid, empty.uid)?,
        told_type,
        flag(now.enabled, other.enabled, empty.enabled)?,
        flag(now.default, other.default, empty.default)?,
        flag(now.forced, other.forced, empty.forced)?,
        option_flag(own.hearing_impaired, empty.hearing_impaired)?,
        option_flag(own.visual_impaired, empty.visual_impaired)?,
        option_flag(own.text_descriptions, empty.text_descriptions)?,
        option_flag(own.original, empty.original)?,
        option_flag(own.commentary, empty.commentary)?,
        // The crate's name for lacing.
        flag(now.interlaced, other.interlaced, empty.interlaced)?,
        number(
            now.default_duration.map(nanoseconds),
            empty.default_duration.map(nanoseconds)
        )?,
        option_range(now.name.as_deref(), empty.name.as_deref())?,
        language(now.language.as_ref(), empty.language.as_ref())?,
        range(&now.codec_id, &empty.codec_id)?,
        private,
        option_range(now.codec_name.as_deref(), empty.codec_name.as_deref())?,
        settings(&now.settings, &other.settings, &empty.settings)?,
        source.rows()
    ))
}

//! A track with its video or audio, told like the other records.

use crate::label;
use crate::records::{Field, Master, Table};
use tools::ids::*;

/// Faults that swap the ids of two fields.
const SWAPPED: [(&str, u32, u32); 13] = [
    ("track-number-uid", TRACK_NUMBER, TRACK_OWN_UID),
    ("track-tag-uid", TRACK_OWN_UID, TRACK_UID),
    ("track-enabled-default", TRACK_ENABLED, TRACK_DEFAULT),
    ("track-default-forced", TRACK_DEFAULT, TRACK_FORCED),
    ("track-forced-lacing", TRACK_FORCED, TRACK_LACING),
    ("track-name-codec", TRACK_NAME, TRACK_CODEC_NAME),
    ("track-codec-private", TRACK_CODEC, TRACK_PRIVATE),
    ("track-private-name", TRACK_PRIVATE, TRACK_CODEC_NAME),
    ("track-languages", TRACK_ISO, TRACK_IETF),
    ("video-width-height", VIDEO_WIDTH, VIDEO_HEIGHT),
    ("video-shown-swapped", VIDEO_SHOWN_WIDTH, VIDEO_SHOWN_HEIGHT),
    ("video-shown-width", VIDEO_WIDTH, VIDEO_SHOWN_WIDTH),
    ("video-shown-height", VIDEO_HEIGHT, VIDEO_SHOWN_HEIGHT),
];

/// The flags 55AB to 55AF by name, each with the fault that sets it.
const MARKS: [(&str, &str); 5] = [
    ("hearing", "track-hearing"),
    ("visual", "track-visual"),
    ("text", "track-text"),
    ("original", "track-original"),
    ("commentary", "track-commentary"),
];

/// What a track shows of its video or audio: the masters whose fields count, the later
/// ones first, and which of both they are.
struct Settings {
    masters: Vec<Master>,
    audio: bool,
}

impl Table<'_> {
    /// The id of a field.
    fn own_id(&self, id: u32) -> u32 {
        let swapped = SWAPPED.iter().find(|(fault, ..)| self.fault.is(fault));
        match swapped {
            Some((_, one, other)) if *one == id => *other,
            Some((_, one, other)) if *other == id => *one,
            _ => id,
        }
    }

    /// The tracks that are counted, among all.
    pub fn counted_tracks(&self, mut tracks: Vec<Master>) -> Vec<Master> {
        if self.fault.is("track-empty") {
            tracks.retain(|track| !self.below(*track).is_empty());
        }
        if self.fault.is("track-numberless") {
            tracks.retain(|track| self.field(*track, TRACK_NUMBER).is_some());
        }
        tracks
    }

    pub fn track(&self, track: Master) -> String {
        let fault = self.fault;
        let field = |id| self.field(track, self.own_id(id));
        let flag = |id, name: &str, default| match field(id) {
            None if fault.is(name) => default,
            flag => self.flag(flag),
        };
        let settings = self.settings(track);
        let lacing = match &settings {
            Some(settings) if fault.is("track-lacing-video") && !settings.audio => {
                self.flag(self.field(settings.masters[0], VIDEO_INTERLACED))
            }
            _ => flag(TRACK_LACING, "track-lacing-yes", "yes"),
        };
        let duration = field(TRACK_DURATION)
            .filter(|row| self.number(*row) > 0 || !fault.is("track-duration-zero"));
        let (mut iso, mut ietf) = (self.own_id(TRACK_ISO), self.own_id(TRACK_IETF));
        if fault.is("track-language-display") {
            (iso, ietf) = (DISPLAY_ISO, DISPLAY_IETF);
        }
        let private = field(TRACK_PRIVATE).filter(|row| {
            let text = String::from_utf8(self.body(*row).to_vec()).is_ok();
            text || !fault.is("track-private-text")
        });
        let first = format!(
            "number {} uid {} type {} enabled {} default {} forced {} {}lacing {lacing}",
            self.number_told(field(TRACK_NUMBER)),
            self.number_told(field(TRACK_OWN_UID)),
            self.type_told(field(TRACK_TYPE), &settings),
            flag(TRACK_ENABLED, "track-enabled-yes", "yes"),
            flag(TRACK_DEFAULT, "track-default-yes", "yes"),
            flag(TRACK_FORCED, "track-forced-no", "no"),
            self.marks(track),
        );
        format!(
            "{first} duration {} name {} language {} codec {} private {} codecname {} settings {}",
            self.time(duration),
            self.range(field(TRACK_NAME)),
            self.language(track, iso, ietf),
            self.range(field(TRACK_CODEC)),
            self.range(private),
            self.range(field(TRACK_CODEC_NAME)),
            self.settings_told(settings)
        )
    }

    fn type_told(&self, field: Field, settings: &Option<Settings>) -> &'static str {
        let fault = self.fault;
        match (field, settings) {
            (None, _) if fault.is("track-type-unset") => "unknown",
            (None, Some(settings)) if fault.is("track-type-settings") => {
                if settings.audio {
                    "audio"
                } else {
                    "video"
                }
            }
            (None, _) => "unset",
            (Some(row), _) => match label::track_type(self.number(row), fault) {
                "unknown" if fault.is("track-type-unknown") => "unset",
                named => named,
            },
        }
    }

    /// The flags 55AB to 55AF, which no reader sets but a faulty one.
    fn marks(&self, track: Master) -> String {
        let fault = self.fault;
        let mut told = String::new();
        for ((name, sets), id) in MARKS.iter().zip(TRACK_MARKS) {
            let found = self.field(track, id);
            let first = found.and_then(|row| self.body(row).first());
            let value = match first {
                _ if fault.is("track-marks-no") => "no",
                _ if fault.is("track-marks-flag") => self.flag(found),
                Some(0) if fault.is(sets) || fault.is("track-marks") => "no",
                Some(_) if fault.is(sets) || fault.is("track-marks") => "yes",
                _ => "unset",
            };
            told += &format!("{name} {value} ");
        }
        told
    }

    /// The last video or audio.
    fn settings(&self, track: Master) -> Option<Settings> {
        let fault = self.fault;
        let rows = if fault.is("settings-deep") {
            self.below(track).into_iter().map(|(row, _)| row).collect()
        } else {
            self.children(track)
        };
        let masters = rows.into_iter().map(|row| Master { row: Some(row) });
        let mut all: Vec<(Master, bool)> = masters
            .filter_map(|master| match self.id(master.row?) {
                VIDEO => Some((master, false)),
                AUDIO => Some((master, true)),
                _ => None,
            })
            .collect();
        let of = |audio: bool| all.iter().rfind(|(_, own)| *own == audio).copied();
        let wanted = match self.field(track, TRACK_TYPE).map(|row| self.number(row)) {
            Some(1) => of(false),
            Some(2) => of(true),
            _ => None,
        };
        let (video, audio) = (of(false), of(true));
        if fault.is("settings-empty") {
            all.retain(|(master, _)| !self.below(*master).is_empty());
        }
        let last = all.last().copied();
        let (master, audio) = match () {
            () if fault.is("settings-first") => all.first().copied(),
            () if fault.is("settings-audio") => audio.or(last),
            () if fault.is("settings-video") => video.or(last),
            () if fault.is("settings-type") => wanted,
            () => last,
        }?;
        let mut masters = vec![master];
        if fault.is("settings-merge") {
            let same = all.iter().rev().filter(|(_, own)| *own == audio);
            masters = same.map(|(master, _)| *master).collect();
        }
        if fault.is("settings-direct") {
            masters.push(track);
        }
        Some(Settings { masters, audio })
    }

    fn settings_told(&self, settings: Option<Settings>) -> String {
        let Some(Settings { masters, audio }) = settings else {
            return "none".to_string();
        };
        let field = |id| {
            let mut fields = masters.iter().map(|master| self.field(*master, id));
            fields.find_map(|field| field)
        };
        if audio {
            return format!("audio {}", self.audio_of(field));
        }
        format!("video {}", self.video_of(field, &masters))
    }

    fn video_of(&self, field: impl Fn(u32) -> Field, masters: &[Master]) -> String {
        let fault = self.fault;
        let number = |id| field(self.own_id(id));
        let (width, height) = (number(VIDEO_WIDTH), number(VIDEO_HEIGHT));
        let (mut shown_width, mut shown_height) =
            (number(VIDEO_SHOWN_WIDTH), number(VIDEO_SHOWN_HEIGHT));
        if fault.is("video-shown-default") {
            (shown_width, shown_height) = (shown_width.or(width), shown_height.or(height));
        }
        // What a number that means nothing does not replace.
        let kept = |id: u32, name: &str, means: fn(u64) -> bool| {
            let rows = self.children(masters[0]).into_iter();
            let mut rows = rows.filter(|row| self.id(*row) == id && means(self.number(*row)));
            if fault.is(name) {
                rows.next_back()
            } else {
                field(id)
            }
        };
        let interlaced = kept(VIDEO_INTERLACED, "interlaced-kept", |n| n == 1 || n == 2);
        let mut stereo = kept(VIDEO_STEREO, "stereo-kept", |n| n < 15);
        if fault.is("stereo-old") {
            stereo = stereo.max(field(0x53B9));
        }
        let gamma = field(VIDEO_GAMMA);
        format!(
            "width {} height {} dwidth {} dheight {} interlaced {} stereo {} gamma {}",
            self.number_told(width),
            self.number_told(height),
            self.number_told(shown_width),
            self.number_told(shown_height),
            self.interlaced(interlaced),
            self.stereo(stereo),
            gamma.map_or("unset".to_string(), |row| self.float(row, "gamma"))
        )
    }

    /// 1 is yes and 2 is no.
    fn interlaced(&self, field: Field) -> &'static str {
        let fault = self.fault;
        let Some(row) = field else {
            return if fault.is("interlaced-unset") {
                "no"
            } else {
                "unset"
            };
        };
        let number = if fault.is("interlaced-byte") {
            self.number(row) & 0xFF
        } else {
            self.number(row)
        };
        match number {
            0 if fault.is("interlaced-zero") => "no",
            2 if fault.is("interlaced-two") => "yes",
            3.. if fault.is("interlaced-three") => "yes",
            3.. if fault.is("interlaced-other") => "no",
            _ if fault.is("interlaced-flag") => self.flag(field),
            1 => "yes",
            2 => "no",
            _ => "unset",
        }
    }

    /// The numbers from 0 to 14 have a mode.
    fn stereo(&self, field: Field) -> String {
        let fault = self.fault;
        let Some(row) = field else {
            return if fault.is("stereo-unset") {
                "0".to_string()
            } else {
                "unset".to_string()
            };
        };
        let number = if fault.is("stereo-byte") {
            self.number(row) & 0xFF
        } else {
            self.number(row)
        };
        let shown = match number {
            0 => !fault.is("stereo-zero"),
            14 => !fault.is("stereo-14"),
            15 => fault.is("stereo-15") || fault.is("stereo-any"),
            16.. => fault.is("stereo-any"),
            _ => true,
        };
        if shown {
            number.to_string()
        } else {
            "unset".to_string()
        }
    }
}

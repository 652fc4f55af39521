//! The ids that the crate knows, by kind, and the parents that matter. They
//! choose what is asked, and tell the judge and the model which kind an id has.
//! Where that is not what the crate says, the judge's reading shows it.

pub const MASTER: [u32; 49] = [
    0x80, 0x8E, 0x8F, 0xA0, 0xA6, 0xAE, 0xB6, 0xB7, 0xBB, 0xC8, 0xDB, 0xE0, 0xE1, 0xE2, 0xE3, 0xE4,
    0xE8, 0xE9, 0x45B9, 0x4DBB, 0x5034, 0x5035, 0x55B0, 0x55D0, 0x5854, 0x61A7, 0x6240, 0x63C0,
    0x6624, 0x67C8, 0x6911, 0x6924, 0x6944, 0x6D80, 0x7373, 0x75A1, 0x7E5B, 0x7E7B, 0x1043A770,
    0x114D9B74, 0x1254C367, 0x1549A966, 0x1654AE6B, 0x18538067, 0x1941A469, 0x1A45DFA3, 0x1B538667,
    0x1C53BB6B, 0x1F43B675,
];

pub const INT: [u32; 4] = [0xFB, 0xFD, 0x537F, 0x75A2];

pub const UINT: [u32; 122] = [
    0x83, 0x88, 0x89, 0x91, 0x92, 0x96, 0x97, 0x98, 0x9A, 0x9B, 0x9C, 0x9D, 0x9F, 0xA7, 0xAA, 0xAB,
    0xB0, 0xB2, 0xB3, 0xB9, 0xBA, 0xC0, 0xC6, 0xC7, 0xC9, 0xCA, 0xCB, 0xCC, 0xCD, 0xCE, 0xCF, 0xD7,
    0xE5, 0xE6, 0xE7, 0xEA, 0xEB, 0xED, 0xEE, 0xF0, 0xF1, 0xF7, 0xFA, 0x4254, 0x4285, 0x4286,
    0x4287, 0x42F2, 0x42F3, 0x42F7, 0x4484, 0x4598, 0x45BC, 0x45BD, 0x45DB, 0x45DD, 0x4661, 0x4662,
    0x46AE, 0x47E1, 0x47E5, 0x47E6, 0x5031, 0x5032, 0x5033, 0x535F, 0x5378, 0x53AC, 0x53B8, 0x53B9,
    0x53C0, 0x54AA, 0x54B0, 0x54B2, 0x54B3, 0x54BA, 0x54BB, 0x54CC, 0x54DD, 0x55AA, 0x55B1, 0x55B2,
    0x55B3, 0x55B4, 0x55B5, 0x55B6, 0x55B7, 0x55B8, 0x55B9, 0x55BA, 0x55BB, 0x55BC, 0x55BD, 0x55EE,
    0x56AA, 0x56BB, 0x58D7, 0x6264, 0x63C3, 0x63C4, 0x63C5, 0x63C6, 0x63C9, 0x66BF, 0x66FC, 0x68CA,
    0x6922, 0x6955, 0x69BF, 0x69FC, 0x6DE7, 0x6DF8, 0x6EBC, 0x6FAB, 0x73C4, 0x73C5, 0x7446, 0x7E8A,
    0x7E9A, 0x234E7A, 0x23E383, 0x2AD7B1,
];

pub const STRING: [u32; 13] = [
    0x86, 0x4282, 0x437C, 0x437D, 0x437E, 0x447A, 0x447B, 0x4660, 0x63CA, 0x22B59C, 0x22B59D,
    0x26B240, 0x3B4040,
];

pub const UTF8: [u32; 15] = [
    0x85, 0x4487, 0x45A3, 0x466E, 0x467E, 0x4D80, 0x536E, 0x5654, 0x5741, 0x7384, 0x7BA9, 0x258688,
    0x3A9697, 0x3C83AB, 0x3E83BB,
];

pub const BINARY: [u32; 33] = [
    0xA1, 0xA2, 0xA3, 0xA4, 0xA5, 0xAF, 0xBF, 0xC1, 0xC4, 0xEC, 0x4255, 0x4444, 0x4485, 0x450D,
    0x465C, 0x4675, 0x47E2, 0x47E3, 0x47E4, 0x53AB, 0x63A2, 0x6532, 0x66A5, 0x6933, 0x69A5, 0x6E67,
    0x73A4, 0x7D7B, 0x7EA5, 0x7EB5, 0x2EB524, 0x3CB923, 0x3EB923,
];

pub const FLOAT: [u32; 16] = [
    0xB5, 0x4489, 0x55D1, 0x55D2, 0x55D3, 0x55D4, 0x55D5, 0x55D6, 0x55D7, 0x55D8, 0x55D9, 0x55DA,
    0x78B5, 0x23314F, 0x2383E3, 0x2FB523,
];

pub const DATE: [u32; 1] = [0x4461];

/// Every kind, in the order of the kinds' numbers.
pub const KINDS: [&[u32]; 8] = [&MASTER, &INT, &UINT, &STRING, &UTF8, &BINARY, &FLOAT, &DATE];

/// How many ids are listed.
pub const LISTED: u64 = 253;

/// A listed id by its number, all kinds one after the other.
pub fn listed(number: u64) -> u32 {
    let mut number = number as usize;
    for ids in KINDS {
        if number < ids.len() {
            return ids[number];
        }
        number -= ids.len();
    }
    unreachable!("there are {LISTED} listed ids")
}

/// The parents that have a small set of masters: Info, Tracks, Attachments,
/// Chapters and Tags.
pub const SPECIAL: [u32; 5] = [0x1549A966, 0x1654AE6B, 0x1941A469, 0x1043A770, 0x1254C367];

/// The EBML header, the segment, its clusters, and the seek heads in it with their entries.
pub const EBML: u32 = 0x1A45DFA3;
pub const SEGMENT: u32 = 0x18538067;
pub const CLUSTER: u32 = 0x1F43B675;
pub const SEEK_HEAD: u32 = 0x114D9B74;
pub const SEEK: u32 = 0x4DBB;
pub const SEEK_ID: u32 = 0x53AB;
pub const SEEK_POSITION: u32 = 0x53AC;

/// The four parts that can be searched for, each with the parent under which its
/// payload is read: Tracks, Attachments, Chapters and Tags.
pub const PARTS: [(u32, u32); 4] = [
    (0x1654AE6B, 0xAE),
    (0x1941A469, 0x61A7),
    (0x1043A770, 0x45B9),
    (0x1254C367, 0x7373),
];

/// The parent under which a part is read; `None` if the id is none of the four.
pub fn part_parent(id: u32) -> Option<u32> {
    let part = PARTS.iter().find(|part| part.0 == id);
    part.map(|part| part.1)
}

/// Info, whose payload is read under its own id.
pub const INFO: u32 = 0x1549A966;

/// The five parts that `open` reads, in the order in which it looks them up behind a seek head:
/// the name, the id and the parent of each.
pub const FIVE: [(&str, u32, u32); 5] = [
    ("info", INFO, INFO),
    ("tracks", PARTS[0].0, PARTS[0].1),
    ("attachments", PARTS[1].0, PARTS[1].1),
    ("chapters", PARTS[2].0, PARTS[2].1),
    ("tags", PARTS[3].0, PARTS[3].1),
];

/// The fields of Info, of which the families gather.
pub const INFO_UID: u32 = 0x73A4;
pub const INFO_PREVIOUS: u32 = 0x3CB923;
pub const INFO_NEXT: u32 = 0x3EB923;
pub const INFO_FAMILY: u32 = 0x4444;
pub const INFO_TITLE: u32 = 0x7BA9;
pub const INFO_DURATION: u32 = 0x4489;
pub const INFO_SCALE: u32 = 0x2AD7B1;
pub const INFO_DATE: u32 = 0x4461;
pub const INFO_MUXING: u32 = 0x4D80;
pub const INFO_WRITING: u32 = 0x5741;

/// The records of Attachments, Chapters and Tags, and of a track its audio. The
/// payload of the part is read under the record's id, and an E1 payload under its
/// own.
pub const ATTACHED_FILE: u32 = 0x61A7;
pub const EDITION: u32 = 0x45B9;
pub const CHAPTER: u32 = 0xB6;
pub const DISPLAY: u32 = 0x80;
pub const TAG: u32 = 0x7373;
pub const TARGETS: u32 = 0x63C0;
pub const SIMPLE: u32 = 0x67C8;
pub const AUDIO: u32 = 0xE1;

/// The fields of an attachment.
pub const FILE_DESCRIPTION: u32 = 0x467E;
pub const FILE_NAME: u32 = 0x466E;
pub const FILE_MIME: u32 = 0x4660;
pub const FILE_DATA: u32 = 0x465C;

/// Of an edition.
pub const EDITION_UID: u32 = 0x45BC;
pub const EDITION_HIDDEN: u32 = 0x45BD;
pub const EDITION_DEFAULT: u32 = 0x45DB;
pub const EDITION_ORDERED: u32 = 0x45DD;

/// Of a chapter and of its displays.
pub const CHAPTER_UID: u32 = 0x73C4;
pub const CHAPTER_START: u32 = 0x91;
pub const CHAPTER_END: u32 = 0x92;
pub const CHAPTER_HIDDEN: u32 = 0x98;
pub const CHAPTER_ENABLED: u32 = 0x4598;
pub const CHAPTER_SEGMENT: u32 = 0x6E67;
pub const CHAPTER_EDITION: u32 = 0x6EBC;
pub const DISPLAY_STRING: u32 = 0x85;
pub const DISPLAY_ISO: u32 = 0x437C;
pub const DISPLAY_IETF: u32 = 0x437D;

/// Of a tag's targets and of its simple tags.
pub const TARGET_NUMBER: u32 = 0x68CA;
pub const TARGET_TYPE: u32 = 0x63CA;
pub const TRACK_UID: u32 = 0x63C5;
pub const TAG_EDITION_UID: u32 = 0x63C9;
pub const TAG_CHAPTER_UID: u32 = 0x63C4;
pub const ATTACHMENT_UID: u32 = 0x63C6;
pub const SIMPLE_NAME: u32 = 0x45A3;
pub const SIMPLE_ISO: u32 = 0x447A;
pub const SIMPLE_IETF: u32 = 0x447B;
pub const SIMPLE_DEFAULT: u32 = 0x4484;
pub const SIMPLE_TEXT: u32 = 0x4487;
pub const SIMPLE_BINARY: u32 = 0x4485;

/// Of audio.
pub const AUDIO_RATE: u32 = 0xB5;
pub const AUDIO_CHANNELS: u32 = 0x9F;
pub const AUDIO_DEPTH: u32 = 0x6264;

/// A track, whose payload's parent is its own id, and the video in it.
pub const TRACK: u32 = 0xAE;
pub const VIDEO: u32 = 0xE0;

/// The fields of a track. The five marks are flags in Matroska's schema, and in no
/// set here.
pub const TRACK_NUMBER: u32 = 0xD7;
pub const TRACK_OWN_UID: u32 = 0x73C5;
pub const TRACK_TYPE: u32 = 0x83;
pub const TRACK_ENABLED: u32 = 0xB9;
pub const TRACK_DEFAULT: u32 = 0x88;
pub const TRACK_FORCED: u32 = 0x55AA;
pub const TRACK_MARKS: [u32; 5] = [0x55AB, 0x55AC, 0x55AD, 0x55AE, 0x55AF];
pub const TRACK_LACING: u32 = 0x9C;
pub const TRACK_DURATION: u32 = 0x23E383;
pub const TRACK_NAME: u32 = 0x536E;
pub const TRACK_ISO: u32 = 0x22B59C;
pub const TRACK_IETF: u32 = 0x22B59D;
pub const TRACK_CODEC: u32 = 0x86;
pub const TRACK_PRIVATE: u32 = 0x63A2;
pub const TRACK_CODEC_NAME: u32 = 0x258688;

/// Of video.
pub const VIDEO_WIDTH: u32 = 0xB0;
pub const VIDEO_HEIGHT: u32 = 0xBA;
pub const VIDEO_SHOWN_WIDTH: u32 = 0x54B0;
pub const VIDEO_SHOWN_HEIGHT: u32 = 0x54BA;
pub const VIDEO_INTERLACED: u32 = 0x9A;
pub const VIDEO_STEREO: u32 = 0x53B8;
pub const VIDEO_GAMMA: u32 = 0x2FB523;

/// The special parents, neighbours of two of them, and others.
pub const PARENTS: [u32; 14] = [
    0x1549A966, 0x1654AE6B, 0x1941A469, 0x1043A770, 0x1254C367, 0, 0xAE, 0x7373, 0x18538067,
    0x1654AE6A, 0x1254C368, 0x54C367, 0x4DBB, 0xFFFFFFFF,
];

/// Document 01's numbers of the kinds.
pub const MASTER_KIND: u64 = 1;
pub const INT_KIND: u64 = 2;
pub const UINT_KIND: u64 = 3;
pub const STRING_KIND: u64 = 4;
pub const UTF8_KIND: u64 = 5;
pub const BINARY_KIND: u64 = 6;
pub const FLOAT_KIND: u64 = 7;
pub const DATE_KIND: u64 = 8;

/// The ids that are masters under a parent: a small set under a special one,
/// else all of them.
pub fn masters(parent: u32) -> &'static [u32] {
    match parent {
        0x1549A966 => &[0x6924],
        0x1654AE6B => &[0x6924, 0xAE],
        0x1941A469 => &[0x61A7],
        0x1043A770 => &[0x45B9],
        0x1254C367 => &[0x7373],
        _ => &MASTER,
    }
}

/// The kind of an id under its parent. Ids that are in no set are binary, and
/// so are those that lose their master kind.
pub fn kind(id: u32, parent: u32) -> u64 {
    if masters(parent).contains(&id) {
        return MASTER_KIND;
    }
    let leaves = (INT_KIND..=DATE_KIND).zip(&KINDS[1..]);
    let mut found = leaves.filter(|(_, ids)| ids.contains(&id));
    found.next().map_or(BINARY_KIND, |(kind, _)| kind)
}

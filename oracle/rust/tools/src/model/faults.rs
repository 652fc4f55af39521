//! The faults that the model can be given, one a line: a name, and what a reader
//! that has it does. Such a reader could well be written, and the comparison and
//! the stored lists have to find every one.

/// Those of single headers and bodies: mostly which address a refusal carries.
pub const SINGLE: &str = "\
header-at-zero: a bad header is told by 0
header-at-size: a bad size is told by its own address
header-at-end: a header that ends too early is told by the recording's end
header-14-at: 14 of a header carries the place that was asked for
header-14-end: 14 of a header carries the recording's end
body-at-place: a refused body is told by its place
body-at-zero: a refused body is told by 0
body-at-before: a refused body is told by a header of two bytes before it
body-at-behind: a refused body is told by the place behind it
body-at-32: the address of a header has 32 bits
body-at-held: a refused body is told by the recording's end if its header is said to be behind it
body-at-missing: a body that ends too early is told by its place
body-at-size: a body of a wrong size is told by its place
body-at-text: a body that is no text is told by its place
body-14-address: 14 of a body carries the address of the header
body-14-place: 14 of a body carries the place that was asked for
body-14-past: an address past the end is 14
body-14-order: an address that is not before the place is 14
body-zero: a text is told up to its first zero
";

/// Those of the element table and the search.
pub const TABLE: &str = "\
parent-off: a parent is the row's number, without the 1
depth-off: the direct rows have depth 1
kind-off: both kinds of text have one number
after-plus: the first row behind is told with the 1 that a parent has
after-last: the last row below is told, and by a row without any its own
after-count: the row count is told though there is a row behind
after-next: the next row is told, whatever is below
after-direct: only direct children are passed over
after-sibling: the row count is told where no sibling is behind
after-once: the row count is told by a master that ends with a master below it
after-master: a leaf's is 0
after-zero: 0 is told where there is no row behind
after-room: the rows of the whole table are told where there is no row behind
last-row: the last row is left out
row-zero: the payload of a text row is told up to its first zero
held: a child is read as if nothing stood behind its master
overrun-first: 3 for an overrun is given before the body
overrun-never: 3 is not given for an overrun
overrun-outer: 3 is given for an overrun of the whole payload alone
rows-first: 13 is tested before 12
limits-first: 12 and 13 are tested before the header
limits-last: 12 and 13 are tested after a leaf's body
depth-17: a row at depth 16 is taken
depth-15: a row at depth 15 is not taken
row-short: the last row of the table is not used
rows-dropped: rows without room are dropped
table-kept: a refusal leaves what was written
table-kept-14: 14 and 15 leave the table as it was
table-narrow: a refusal leaves the last number of each row as it was
rest-kept: behind the last row the table is as it was
rest-narrow: behind the last row the last number of each is as it was
any-length: a length that is no whole count of rows is taken
length-narrow: the length has to be one of rows without their last number
any-count: more numbers than those of 4,096 rows are taken
count-below: the numbers of 4,096 rows are not taken
start-past: a start past the end is taken
start-at-end: a start at the end is not taken
inner-14: a body that is not there is 14
outer-parent: all kinds are those under the parent of the read
full-set: the small sets of masters are not known
small-set-deep: a small set holds for all that is below its parent
empty-signed: a signed integer of length 0 is 1
end-first: the end of the recording comes before 4, 5 and 6
text-unchecked: 7 is not given
text-to-zero: 7 is not given for what is behind the first zero of a text
unknown-size: a size of all ones is what its master has left
narrow-size: a size has 32 bits
zero-run: a first byte of 0 is too wide, whatever follows
header-end: the first byte behind a header belongs to it
outer-row: an address is told for the outermost row around it
early-15: 15 comes before 14
late-15: 15 comes after the read
start-15: the first byte of the payload is outside
end-15: the first byte behind the payload is inside
wrapped-15: the end of the payload wraps at 2^64
missing-15: an address whose byte does not exist is 15
unused-14: a row that is not used is not in the table
row-table: the table is told where a row is not in it
row-at-end: the row behind the last one is in the table
row-narrow: so many rows are in the table as if they lacked their last number
row-first: a row that is not in the table comes before the read
payload-zero: the payload of a text row ends before its first zero
range-after: a row whose row behind is not in the table has no range
range-wraps: the sum of address and lengths wraps at 2^64
range-address: a payload begins at its header
range-end: a payload may not end where the recording ends
shown-string: a row of kind string is no text row
shown-utf8: a row of kind utf8 is no text row
shown-binary: a row of kind binary is a text row
shown-any: a row of every kind is a text row
shown-unused: a row that is not used shows an empty text
shown-empty: a row whose text is empty is no text row
shown-ascii: a string that is not ASCII is no text
shown-header: shown text begins at its header
shown-address: shown text is told by its header's address
shown-start: shown text begins at the recording's start
shown-short: shown text has no last byte
shown-zeros: shown text is the whole text, with its zeros
shown-zeros-string: shown text of a string is the whole text
shown-zeros-utf8: shown text of UTF-8 is the whole text
shown-padded: only zeros at the end of shown text are left out
shown-zero: the zero that ends shown text is shown too
shown-zero-first: a row whose text begins with a zero is no text row
shown-last-zero: shown text ends before the last zero
shown-first-byte: shown text does not end at a zero that is the first byte
shown-last-byte: shown text does not end at a zero that is the last byte
shown-runs-on: shown text goes on to the first zero behind it
shown-range: shown text is told with the length of the whole text
shown-part: the whole text is told with the length of shown text
shown-table: the table is told where a row has no text
first-seek: the first Seek of an id in a head is taken
earlier-head: the entry of an earlier head is taken
first-seek-id: the first SeekID of a Seek is taken
first-position: the first SeekPosition of a Seek is taken
id-front: an id is the first four bytes of a SeekID
id-long: a SeekID of more than four bytes names nothing
seek-deep: a Seek at any depth of a head is taken
member-deep: a SeekID or SeekPosition at any depth of a Seek is taken
no-position: a Seek without a position is passed over
empty-position: a SeekPosition of length 0 is passed over
little-endian: a SeekPosition has its last byte first
signed-position: a SeekPosition is a signed number
wide-position: only the last four bytes of a SeekPosition count
wanted-first: the part is looked up before a link is followed
links-ignored: an entry for a further head is not followed
link-kept: a link stays among the entries, and is followed again
entries-dropped: a linked head begins with no entries
own-address: the first head's address is not remembered
last-address: only the address of the head that was read last is remembered
ten-never: 10 is not given
eleven-first: 11 comes before 10
eleven-late: 11 comes after the header and 9
eight-late: 8 comes after 11
heads-65: a 65th head is read
heads-63: a 64th head is not read
heads-short: the first head is not counted
heads-absent: no heads are counted where the part is absent
heads-met: a part that is met counts one head
head-unchecked: what a head holds beside its headers is not looked at
head-rows: what a head holds needs room in the table
head-depth: the direct children of a head have depth 1
head-deep: 12 is not given in a head
head-held: a head is read as if nothing stood behind its segment
head-passed: a part that no head names is looked for behind the first head
part-parent: a part is read under its own id
part-held: a part is read as if nothing stood behind its segment
stale-head: another element in place of a further head is read as one
stale-part: another element in place of the part is read as the part
stale-absent: where another element is in place of the part, the part is absent
position-header: positions count from the segment's header
position-file: positions count from the recording's start
position-wraps: the sum of start and position wraps at 2^64
position-outside: a place behind the segment is past the end
eight-plain: 8 has no id
eight-wanted: 8 has the id of the part that is asked for
nine-early: 9 comes before the size of the header is read
skip-accepted: a skipped child may overrun the segment
skip-there: the bytes of a skipped child have to exist
header-held: a child's header may not reach behind the segment
met-overrun: a part that is met may not overrun the segment
head-overrun: a head that is met may not overrun the segment
parts-first: all children are looked through for the part before a head is read
heads-first: all children are looked through for a head before a part is met
empty-segment: a segment of size 0 goes to the end of the recording
last-met: the last part that is met is taken
before-taken: a part before the segment is taken
before-head: a head before the segment is read
after-taken: what stands behind the segment is looked through too
no-segment: a recording without a segment has no parts
wanted-only: heads are skipped
absent-refused: an absent part is refused with 1
absent-kept: where the part is absent the table is left as it was
other-id: an id that is none of the four parts is searched for
late-14: 14 comes after the search
inner-place-14: a sought place past the end is 14
at-header: a part is told by its header's address
size-whole: a part's size is told with its header
at-none: a refusal has no address
at-none-14: 14 and 15 have no address
at-zero: every address is 0
at-32: an address has 32 bits
at-hex: an address is told in hexadecimal digits
at-behind: an address is told behind the table
at-relative: an address counts from the start of the payload that is read
at-held: an address past the end is told as the recording's end
at-header-master: a bad header is told by its master's address
at-header-before: a bad header is told by the last element before it
at-header-size: a bad size is told by its own address
at-header-end: a header that ends too early is told by the recording's end
at-missing-payload: a body that ends too early is told by its own address
at-missing-end: a body that ends too early is told by the recording's end
at-size-payload: a body of a wrong size is told by its own address
at-text-payload: a body that is no text is told by its own address
at-text-byte: a body that is no text is told by its first wrong byte
at-body-master: a refused body is told by its master's address
at-overrun-master: an overrun is told by the master's address
at-overrun-end: an overrun is told by the place where the master ends
at-overrun-behind: an overrun is told by the place behind the child
at-depth-master: 12 carries the master's address
at-depth-outer: 12 carries the outermost master's address
at-rows-master: 13 carries the master's address
at-rows-last: 13 carries the address of the last row that had room
at-limits-payload: 12 and 13 carry the address behind the header
at-14: 14 carries the start that was asked for
at-14-end: 14 carries the recording's end
at-15: 15 carries the address that was asked for
at-15-start: 15 carries the start of the payload
at-row: a row that is not in the table is told by its number
at-range: a row whose range is not in the recording is told by its address
at-text-row: a row that is no text row is told by its address
at-file-last: where no segment is found the last element is told
at-file-zero: where no segment is found 0 is told
at-child-segment: a bad header in the segment is told by the segment's address
at-child-before: a bad header in the segment is told by the child before it
at-skip-segment: a skipped child that overruns is told by the segment's address
at-skip-start: a skipped child that overruns is told by the start of the segment's payload
at-skip-end: a skipped child that overruns is told by the segment's end
at-skip-behind: a skipped child that overruns is told by the place behind it
at-head-inner: what is refused in a head is told by the head's address
at-part-inner: what is refused in a part is told by the part's address
at-sought-head: a bad header at a sought address is told by the last head's address
at-sought-seek: a bad header at a sought address is told by the Seek's address
at-sought-position: a bad header at a sought address is told by the position
at-nine-head: 9 carries the last head's address
at-nine-payload: 9 carries the address behind the header that was found
at-nine-segment: 9 carries the segment's address
at-eight-first: 8 carries the first head's address
at-eight-holder: 8 carries the address of the head that has the entry
at-eight-before: 8 carries the address of the head before the last
at-eight-payload: 8 carries the address behind the last head's header
at-eight-seek: 8 carries the Seek's address
at-eight-start: 8 carries the start of the segment's payload
at-eight-wrapped: 8 carries the sum as it wraps
at-ten-last: 10 carries the last head's address
at-ten-first: 10 carries the first head's address
at-ten-holder: 10 carries the address of the head that has the entry
at-eleven-last: 11 carries the 64th head's address
at-eleven-first: 11 carries the first head's address
at-eleven-nothing: 11 carries 0 where nothing is at the address
";

/// Those of the address question without a table.
pub const OWNER: &str = "\
owner-end-plus: an element holds the first byte behind it
owner-end-minus: an element does not hold the last byte of its payload
owner-end-wraps: the end of the payload wraps at 2^64
owner-end-held: the payload ends where the recording ends
owner-header-short: the last byte of a header belongs to the payload
owner-header-id: the bytes of a size belong to the payload
owner-overrun-header: an address in a header is told before the overrun
owner-overrun-body: an address in a payload is told before the overrun
owner-overrun-leaf: a leaf may overrun its master
owner-overrun-master: a master may overrun its own
owner-overrun-late: 3 for a master is given after what is in it
owner-overrun-size: the header does not count for an overrun
owner-overrun-full: an element that fills what is left is an overrun
owner-depth-never: 12 is not given
owner-depth-first: 12 is given before the header
owner-depth-late: 12 is given after 3 for an overrun
owner-depth-leaf: 12 is given for a master alone
owner-depth-held: 12 is given for the element that holds the address alone
owner-into-leaf: a leaf is gone into
owner-into-binary: bytes are gone into
owner-body-there: the payload that holds the address has to exist
owner-byte-there: the byte at the address has to exist
owner-body-sized: 4, 5 and 6 are given for the payload that holds the address
owner-body-text: 7 is given for the payload that holds the address
owner-skipped-there: the bytes of an element before the address have to exist
owner-skipped-body: a leaf before the address is checked
owner-skipped-master: a master before the address is read
owner-reads-on: what stands behind the address is read
owner-full: the whole payload has to be accepted
owner-rows: 13 is given for the 4,097th header
owner-ones: a size of all ones is refused
owner-at-body: a payload is told by its own address
owner-at-master: the master's address is told
owner-at-relative: an address is told from the start of the payload
owner-at-row: how many headers came before is told
owner-table: a refusal tells of a table
";

/// Those of the element table that a reader without one could have too.
pub const SHARED_TABLE: [&str; 39] = [
    "overrun-never",
    "overrun-outer",
    "depth-17",
    "depth-15",
    "start-past",
    "start-at-end",
    "outer-parent",
    "full-set",
    "small-set-deep",
    "unknown-size",
    "narrow-size",
    "zero-run",
    "header-end",
    "outer-row",
    "early-15",
    "late-15",
    "start-15",
    "end-15",
    "wrapped-15",
    "missing-15",
    "at-none",
    "at-none-14",
    "at-zero",
    "at-32",
    "at-hex",
    "at-header-master",
    "at-header-before",
    "at-header-size",
    "at-header-end",
    "at-overrun-master",
    "at-overrun-end",
    "at-overrun-behind",
    "at-depth-master",
    "at-depth-outer",
    "at-limits-payload",
    "at-14",
    "at-14-end",
    "at-15",
    "at-15-start",
];

/// Those of the records, the label and the track types.
pub const RECORD: &str = "\
record-parent: a record's payload is read under its part's id
record-any-depth: a record is counted at any depth of the payload
record-any-id: every direct row of the payload is counted as a record
record-15-kept: 15 after the read leaves what was read
record-15-first: 15 comes before the read where it can be known
record-15-early: 15 comes before 14 where it can be known
record-15-start: 15 carries the start of the payload
record-15-last: 15 carries the last row's address
record-15-outer: 15 carries the address of the record that lacks the member
record-rows: only the record's own rows are counted
index-1: the first index counts from 1
inner-index-1: the inner indices count from 1
index-32: an index has 32 bits
index-last: an index behind the last record gives the last one
first-child: the first child of a field's id is taken
any-depth: a field is taken from any depth below its record
siblings: a field is taken from the records behind it too
field-header: a text is told with its header
field-zero: a text is told up to its first zero
field-zero-unset: a text that begins with a zero is told as unset
field-zero-kept: a text that begins with a zero does not replace another one
empty-unset: a text or bytes of length 0 is told as unset
number-zero: an unset number is told as 0
empty-number: a number of length 0 is told as unset
narrow-number: only the last four bytes of a number count
signed-number: a number has a sign
flag-no: an unset flag is told as no
flag-one: only 1 is yes
flag-byte: only the last byte of a flag counts
flag-empty: a flag of length 0 is yes
enabled-yes: a chapter whose flag is unset is enabled
flags-swapped: hidden and default are swapped
data-text: a file's data has to be text
nested-atoms: nested atoms are counted as chapters
nested-displays: the displays of nested atoms and displays are counted
nested-simple: nested simple tags are counted
displays-all: displays are counted over all chapters of the edition
times-milli: times are told in milliseconds
times-second: only whole seconds of a time count
segment-text: a segment's uid is told where it is text alone
iso-replaces: an ISO language replaces an IETF one before it
ietf-kept: an IETF language does not replace another one
iso-kept: an ISO language does not replace another one
ietf-weak: an IETF language does not replace an ISO one
language-empty: an IETF language of length 0 does not replace an ISO one
language-default: an unset language is English
targets-first: the first of two Targets is taken
targets-gather: the lists gather over all Targets
targets-merge: what the last Targets does not set is taken from those before
targets-empty: Targets without children is told as none
targets-none: a tag without Targets has empty ones
target-direct: the members of a list may stand in the tag itself
target-number: an unset target number is told as 50
target-known: only the numbers of the seven levels are taken
list-last: of a list only the last member counts
list-reversed: a list is told from its end
list-swapped: the editions and the chapters of a list are swapped
list-zero: a list member that is not there is 0
text-first: a text is taken before bytes, whatever stands last
binary-first: bytes are taken before a text, whatever stands last
value-first: the first of text and bytes is taken
value-empty: a value of length 0 does not replace another one
audio-1: every index has the same audio
rate-bits: the pattern of a rate of 4 bytes is not widened
rate-narrow: a rate has 32 bits
rate-nan: a NaN is told by its pattern
rate-zero: a negative zero is told as zero
rate-unset: a rate of 0 is told as unset
rate-output: the output rate is taken too
depth-channels: channels and depth are swapped
type-logo: 16 is unknown
type-byte: only the last byte of a track type counts
type-18: 18 is unknown
type-zero: 0 is video
label-unset: an unset range gives the empty label
label-empty: an empty range gives the empty label
label-empty-zero: a text that begins with a zero gives the empty label
label-own-empty: where the caller's label is empty, a text that begins with a zero is told
label-own-zero: the caller's label ends before its first zero
label-cut: of a range that passes the end the bytes that are there are told
label-end: a range may not end where the recording ends
label-over: a range may pass the end if there is a zero before the end
label-wraps: the sum of a range wraps at 2^64
label-refused: a range that is not in the recording is 14
label-text: bytes that are no text give the caller's label
label-text-behind: bytes behind the first zero that are no text give the caller's label
label-zeros: zeros stay in a label
label-padded: only zeros at the end of a label are left out
label-zero: the zero that ends a label is told too
label-last-zero: a label ends before the last zero
label-first-byte: a label does not end at a zero that is the first byte
label-last-byte: a label does not end at a zero that is the last byte
label-runs-on: a label goes on to the first zero behind it
label-before: the caller's label is taken where there is one
";

/// Those of a track. The faults of records that are named behind them hold for it too.
pub const TRACK: &str = "\
track-number-uid: a track's number and uid are swapped
track-tag-uid: the uid of a tag's list is taken for a track's
track-enabled-default: the flags enabled and default are swapped
track-default-forced: the flags default and forced are swapped
track-forced-lacing: the flags forced and lacing are swapped
track-name-codec: the names of track and codec are swapped
track-codec-private: the codec and its private bytes are swapped
track-private-name: the codec's private bytes and its name are swapped
track-languages: the ISO language is the IETF one, and the other way round
track-language-display: the languages of a display are taken
track-empty: a track without children is not counted
track-numberless: a track without a number is not counted
track-type-unset: an unset type is unknown
track-type-unknown: a type that has no name is told as unset
track-type-settings: an unset type is that of the settings
track-enabled-yes: an unset flag enabled is yes
track-default-yes: an unset flag default is yes
track-forced-no: an unset flag forced is no
track-lacing-yes: an unset flag lacing is yes
track-lacing-video: the lacing of a track with video is that video's interlacing
track-hearing: 55AB is set as in the crate
track-visual: 55AC is set as in the crate
track-text: 55AD is set as in the crate
track-original: 55AE is set as in the crate
track-commentary: 55AF is set as in the crate
track-marks: 55AB to 55AF are set as in the crate
track-marks-no: 55AB to 55AF are told as no
track-marks-flag: 55AB to 55AF are read as numbers
track-duration-zero: a duration of 0 is told as unset
track-private-text: private bytes are told where they are text alone
settings-first: the first video or audio is taken
settings-audio: audio is taken wherever there is one
settings-video: video is taken wherever there is one
settings-type: the settings are those of the track's type
settings-empty: video or audio without children is passed over
settings-deep: video and audio are taken from any depth of the track
settings-merge: what the last video or audio does not set is taken from those before
settings-direct: the fields of video and audio may stand in the track itself
video-width-height: width and height are swapped
video-shown-swapped: width and height to display are swapped
video-shown-width: the widths of pixels and to display are swapped
video-shown-height: the heights of pixels and to display are swapped
video-shown-default: what is to display is the pixels where it is unset
interlaced-two: 2 is yes
interlaced-zero: 0 is no
interlaced-three: 3 and more is yes
interlaced-other: 3 and more is no
interlaced-flag: any number but 0 is yes, and 0 is no
interlaced-kept: a number that is neither 1 nor 2 does not replace another one
interlaced-unset: an unset one is no
interlaced-byte: only the last byte counts
stereo-15: 15 is told
stereo-any: every number is told
stereo-14: 14 is told as unset
stereo-zero: 0 is told as unset
stereo-unset: an unset one is 0
stereo-kept: a number of 15 or more does not replace another one
stereo-byte: only the last byte counts
stereo-old: the old stereo mode 53B9 is taken too
gamma-bits: the pattern of a gamma of 4 bytes is not widened
gamma-narrow: a gamma has 32 bits
gamma-nan: a NaN is told by its pattern
gamma-zero: a negative zero is told as zero
gamma-unset: a gamma of 0 is told as unset
";

/// Those of live mode.
pub const LIVE: &str = "\
live-never: live mode is the plain one
live-read-plain: a read is plain in live mode
live-whose-plain: the address question is plain in live mode
live-row-plain: the read before a row's payload or shown text is plain in live mode
live-owner-plain: the address question without a table is plain in live mode, and takes unknown sizes
live-search-plain: the search is plain in live mode
live-record-plain: the read of a record is plain in live mode
live-heads-plain: seek heads are read as in plain mode
live-part-plain: the part that is found is read as in plain mode
live-width-1: only a size of one byte can be unknown
live-width-8: only a size of eight bytes can be unknown
live-narrow: a size is unknown if it is all ones of some width, as 40 7F
live-zero: a size of 0 is unknown too
live-17-12: in a payload 17 comes after 12
live-17-13: in a payload 17 comes after 12 and 13
live-17-9: at a sought address 17 comes after 9
live-cluster-payload: a Cluster of unknown size is read in a payload
live-segment-payload: a Segment of unknown size is read in a payload
live-at-master: 17 carries the address of the element around
live-at-payload: 17 carries the address behind the header
live-owner-12: 17 comes after 12 in the address question without a table
live-owner-3: 17 comes after 12 and 3 there
live-owner-held: an unknown size before the address is skipped there
live-owner-cluster: a Cluster of unknown size is skipped there, or gone into
live-owner-segment: a Segment of unknown size is skipped there, or gone into
live-sought-segment: a Segment of unknown size at a sought address is 17
live-sought-cluster: a Cluster of unknown size at a sought address is 17
live-sought-taken: an unknown size at a sought address is taken as a number
live-before-any: an unknown size before the segment is skipped by its number
live-before-cluster: a Cluster of unknown size before the segment is 17
live-head-taken: a seek head of unknown size that is met is read
live-part-taken: the part is read if its size is unknown where it is met
live-void-ends: a Void ends a Cluster
live-crc-ends: a CRC-32 ends a Cluster
live-group-ends: a BlockGroup ends a Cluster
live-wide-ends: every id of four bytes ends a Cluster
live-head-inside: a seek head does not end a Cluster
live-info-inside: Info does not end a Cluster
live-tracks-inside: Tracks does not end a Cluster
live-chapters-inside: Chapters does not end a Cluster
live-cluster-inside: a Cluster does not end a Cluster
live-cues-inside: Cues does not end a Cluster
live-attachments-inside: Attachments does not end a Cluster
live-tags-inside: Tags does not end a Cluster
live-ebml-cluster: an EBML header does not end a Cluster
live-ebml-segment: an EBML header does not end a Segment
live-segment-cluster: a Segment does not end a Cluster
live-segment-segment: a Segment does not end a Segment
live-end-17: an EBML header of unknown size that ends a Segment is 17
live-known-ends: an EBML header or Segment ends a Segment of known size
live-known-cluster: a Cluster of known size ends where one of unknown size would
live-limit: an ending is counted from the recording, not from the known Segment around
live-recording-first: the recording's end comes before that of the known Segment
live-inner-segment: a Segment of unknown size in one of known size ends with the recording
live-inner-17: a Segment of unknown size in one of known size is 17
live-nested-17: a Cluster of unknown size in a Segment that is passed over is 17
live-block-overrun: a block over the known Segment's end is 3
live-overrun: a child over the recording's end in a Segment of unknown size is 3
live-past-end: a place past the end is 1 in a Segment of unknown size
live-past-cluster: a place past the end is 1 in a Cluster of unknown size
live-scan: an ending is found by its bytes, wherever they stand
live-cut: a header that is cut in the middle is the end
live-cut-at: a bad header in a Cluster is told by the Cluster's address
live-child-skipped: an unknown size in a Cluster goes on to the end
live-child-taken: an unknown size in a Cluster is taken as a number
live-group-into: a BlockGroup of unknown size in a Cluster is gone into
";

/// The faults of records that a reader of tracks could have as well.
pub const SHARED: [&str; 47] = [
    "record-parent",
    "record-any-depth",
    "record-any-id",
    "record-15-kept",
    "record-15-first",
    "record-15-early",
    "record-15-start",
    "record-15-last",
    "record-rows",
    "index-1",
    "index-32",
    "index-last",
    "first-child",
    "any-depth",
    "siblings",
    "field-header",
    "field-zero",
    "field-zero-unset",
    "field-zero-kept",
    "empty-unset",
    "number-zero",
    "empty-number",
    "narrow-number",
    "signed-number",
    "flag-no",
    "flag-one",
    "flag-byte",
    "flag-empty",
    "times-milli",
    "times-second",
    "iso-replaces",
    "ietf-kept",
    "iso-kept",
    "ietf-weak",
    "language-empty",
    "language-default",
    "rate-bits",
    "rate-narrow",
    "rate-nan",
    "rate-zero",
    "rate-unset",
    "rate-output",
    "depth-channels",
    "type-logo",
    "type-byte",
    "type-18",
    "type-zero",
];

/// Those of the whole recording at once.
pub const OPEN: &str = "\
open-searches: the parts are those of five searches
open-first-wins: the first of each part that is met stands
open-first-skipped: a part behind one of its sort is not read
open-first-info: a second Info is not read
open-last-read: of each part only the last that is met is read, after the walk
open-before-forgotten: what was met before the head is forgotten
open-unnamed-forgotten: what was met before the head is forgotten where the head has no entry
open-sought-kept: a sought part does not replace one that was met
open-info-last: Info is looked up last
open-tracks-first: Tracks is looked up before Info
open-chapters-first: Chapters is looked up before Attachments
open-tags-first: Tags is looked up before Chapters
open-order-reversed: the five are looked up from the last to the first
open-order-file: the five are looked up in the order of their positions
open-eights-first: 8 comes for all five before any header
open-headers-first: the headers of all five come before the first read
open-behind-walked: the children behind the head are walked over too
open-behind-missing: what no head names is looked for behind the head
open-before-segment: parts before the segment are read
open-heads-skipped: heads are skipped
open-info-skipped: Info is passed over
open-info-full: Info is read with the full set of masters
open-parts-small: the other four are read with the small sets
open-overrun-taken: a part that was read may overrun the segment
open-overrun-first: 3 for an overrun comes before the part's own refusal
open-overrun-skipped: a part that overruns is not read
open-overrun-segment: an overrun is told by the segment's address
open-overrun-payload: an overrun is told by the address of the part's payload
open-overrun-end: an overrun is told by the segment's end
open-overrun-head: a head that overruns the segment is 3
open-sought-outside: a sought part outside of the segment is 3
open-stale-kept: a stale entry leaves what was met
open-stale-absent: a part with a stale entry is absent
open-tables-kept: a refusal leaves what was written
open-tables-one: a refusal clears the table of the part that is refused alone
open-tables-others: a refusal leaves the table of the part that is refused
open-tables-tags: a refusal leaves the table of Tags
open-tables-info-kept: a refusal leaves the table of Info
open-tables-info: all tables have the length of the first
open-tables-swapped: the tables of Tracks and of Attachments are swapped
open-14-kept: 14 leaves the tables as they were
open-broken-kept: 14 leaves the table of broken length as it was
open-14-first: only the length of the first table is tested
open-14-tags: the length of the last table is not tested
open-rows-left: the rows of an earlier and longer part are left behind the later one's
open-rows-gather: the rows of an earlier part take room from the later one
open-heads-none: no heads are counted
open-heads-one: only the first head is counted
open-heads-more: one head more is counted
open-heads-each: the heads are counted for each part
open-heads-found: no heads are counted where no part is found
open-absent-at: an absent part has a place
open-empty-absent: an empty part is absent
open-at-header: a part is told by its header's address
open-live-plain: live mode is the plain one
open-live-part: a part of unknown size that is met is read
";

/// Those of Info and its families.
pub const INFO: &str = "\
info-full: Info is read with the full set of masters
info-tracks: Info is read under the id of Tracks
info-1: every index has the same Info
family-1: every index has the same families
info-uid-previous: the uid and the previous one are swapped
info-uid-family: the uid and the families are swapped
info-previous-next: the previous and the next uid are swapped
info-title-muxing: the title and the muxing application are swapped
info-muxing-writing: both applications are swapped
info-file-title: the name of the file is taken for the title
info-title-name: the name of a track is taken for the title
info-scale-duration: scale and duration are swapped
info-scale-default: an unset scale is told as 1,000,000
info-scale-zero: a scale of 0 is told as unset
info-scale-zero-default: a scale of 0 is told as 1,000,000
info-duration-none: an unset duration is told as 0
info-duration-scaled: the duration is told in nanoseconds
info-duration-product: the duration is told with the scale in it
info-duration-positive: a duration that is not above 0 is told as unset
duration-bits: the pattern of a duration of 4 bytes is not widened
duration-narrow: a duration has 32 bits
duration-nan: a NaN is told by its pattern
duration-zero: a negative zero is told as zero
duration-unset: a duration of 0 is told as unset
info-date-unsigned: a date has no sign
info-date-little: a date has its last byte first
info-date-seconds: a date is told in seconds
info-date-narrow: a date has 32 bits
info-date-1970: a date counts from 1970
info-date-unset: a date of 0 is told as unset
info-date-zero: an unset date is told as 0
info-families-more: one family more is counted
info-families-less: one family less is counted
info-families-deep: families are counted at any depth
info-families-empty: an empty family is not counted
info-families-last: only the last family counts
info-families-reversed: the families are told from the last one on
family-missing: a family that is not there is unset
family-none-14: where there is no family it is 14
";

/// Those of the element table and the search that a reader of the whole recording could have too.
pub const SHARED_OPEN: [&str; 121] = [
    "parent-off",
    "depth-off",
    "kind-off",
    "after-plus",
    "after-last",
    "after-count",
    "after-next",
    "after-direct",
    "after-sibling",
    "after-once",
    "after-master",
    "after-zero",
    "after-room",
    "last-row",
    "row-zero",
    "held",
    "overrun-first",
    "overrun-never",
    "overrun-outer",
    "limits-first",
    "limits-last",
    "depth-17",
    "depth-15",
    "row-short",
    "rows-dropped",
    "table-narrow",
    "rest-kept",
    "rest-narrow",
    "any-length",
    "length-narrow",
    "any-count",
    "count-below",
    "inner-14",
    "outer-parent",
    "full-set",
    "small-set-deep",
    "empty-signed",
    "end-first",
    "text-unchecked",
    "text-to-zero",
    "unknown-size",
    "narrow-size",
    "zero-run",
    "first-seek",
    "earlier-head",
    "first-seek-id",
    "first-position",
    "id-front",
    "id-long",
    "seek-deep",
    "member-deep",
    "empty-position",
    "little-endian",
    "signed-position",
    "wide-position",
    "links-ignored",
    "link-kept",
    "entries-dropped",
    "own-address",
    "last-address",
    "ten-never",
    "eleven-late",
    "heads-65",
    "heads-63",
    "heads-short",
    "head-unchecked",
    "head-rows",
    "head-depth",
    "head-deep",
    "head-held",
    "stale-head",
    "position-wraps",
    "position-outside",
    "eight-plain",
    "late-14",
    "inner-place-14",
    "at-none",
    "at-none-14",
    "at-zero",
    "at-32",
    "at-hex",
    "at-behind",
    "at-relative",
    "at-header-master",
    "at-header-before",
    "at-header-size",
    "at-header-end",
    "at-missing-payload",
    "at-missing-end",
    "at-size-payload",
    "at-text-payload",
    "at-text-byte",
    "at-body-master",
    "at-overrun-master",
    "at-overrun-end",
    "at-overrun-behind",
    "at-depth-master",
    "at-depth-outer",
    "at-rows-master",
    "at-rows-last",
    "at-limits-payload",
    "at-14-end",
    "at-head-inner",
    "at-part-inner",
    "at-sought-head",
    "at-sought-seek",
    "at-sought-position",
    "at-nine-head",
    "at-nine-payload",
    "at-nine-segment",
    "at-eight-first",
    "at-eight-before",
    "at-eight-payload",
    "at-eight-seek",
    "at-eight-start",
    "at-eight-wrapped",
    "at-ten-last",
    "at-ten-first",
    "at-ten-holder",
    "at-eleven-last",
    "at-eleven-first",
];

/// Those of live mode that it could have.
pub const SHARED_LIVE: [&str; 42] = [
    "live-never",
    "live-heads-plain",
    "live-part-plain",
    "live-width-1",
    "live-width-8",
    "live-narrow",
    "live-zero",
    "live-17-9",
    "live-cluster-payload",
    "live-segment-payload",
    "live-at-master",
    "live-at-payload",
    "live-sought-cluster",
    "live-sought-taken",
    "live-void-ends",
    "live-crc-ends",
    "live-group-ends",
    "live-wide-ends",
    "live-head-inside",
    "live-info-inside",
    "live-tracks-inside",
    "live-chapters-inside",
    "live-cluster-inside",
    "live-cues-inside",
    "live-attachments-inside",
    "live-tags-inside",
    "live-ebml-cluster",
    "live-ebml-segment",
    "live-segment-cluster",
    "live-segment-segment",
    "live-known-cluster",
    "live-limit",
    "live-recording-first",
    "live-nested-17",
    "live-block-overrun",
    "live-overrun",
    "live-past-end",
    "live-scan",
    "live-cut-at",
    "live-child-skipped",
    "live-child-taken",
    "live-group-into",
];

/// The faults of records that a reader of Info could have as well.
pub const SHARED_INFO: [&str; 21] = [
    "record-15-kept",
    "record-15-first",
    "record-15-early",
    "record-15-start",
    "record-15-last",
    "record-rows",
    "index-1",
    "inner-index-1",
    "index-32",
    "index-last",
    "first-child",
    "any-depth",
    "field-header",
    "field-zero",
    "field-zero-unset",
    "field-zero-kept",
    "empty-unset",
    "number-zero",
    "empty-number",
    "narrow-number",
    "signed-number",
];

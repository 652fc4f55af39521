/*
  uzrafmed.h - the C face of Uzrafmed, a verified reader of Matroska's element structure.

  It implements the rules of docs/01-scope.md, which comments here call document 01, as later requests change them
  (docs/DECISIONS.md: a row has eight numbers where document 01 has seven, a refusal has an address, a shown text ends
  before its first zero byte, the address question can be put without a table, a live mode knows sizes that are unknown,
  and all parts can be had at once, Info among them). Those rules rest on RFC 8794 (sizes, integers, floats, dates, the
  end of a text), RFC 9559 (the ids) and RFC 3629 (UTF-8). It is proved that every call ends and answers, on all bytes
  and all numbers, as the definitions in crates/NAME/specs say, which are written from document 01 and these requests.
  docs/TRUSTED.md lists what has to be believed; this header, which is written by hand, is in it. What is asked of the
  caller is in "What every call asks and promises" below.

  The library is for x86-64 programs under System V's calling convention. Of the C library it needs memset and its
  like (memcpy, memmove, memcmp) and nothing else. `tools/install PREFIX` installs it as libuzrafmed.a and
  libuzrafmed.so, with a pkg-config file:

      cc -std=c99 example.c $(pkg-config --cflags --libs uzrafmed) -o example

  Without installing: `viewer/build` has the proved calls written to target/staticlib/libviewer.a, and viewer/refusals.c
  has the words.

  There are seven proved calls, and a table of words:

      uz_open            reads Info, Tracks, Attachments, Chapters and Tags, each into a table of rows of its own
      uz_find_part       finds Tracks, Attachments, Chapters or Tags, and reads it into a table of rows
      uz_row_payload     tells where in the recording the payload of a row is
      uz_shown_text      tells where the text of a row is, as it is shown to a person
      uz_whose_byte      reads a payload into a table, and names the row that holds an address
      uz_owner           names the element that holds an address, without a table
      uz_owner_chain     the same, and the masters around that element
      uz_refusal_words   tells what a refusal means, what its address is and what to do; plain C, not proved

  A whole program, which prints the address and the shown text of every chapter string of a recording, and its own
  label, -, for an empty one. A program that writes to a terminal has to escape control characters besides
  (viewer/stages/show.c does).

--- example.c
#define _POSIX_C_SOURCE 200809L
#define _FILE_OFFSET_BITS 64
#include "uzrafmed.h"
#include <fcntl.h>
#include <stdio.h>
#include <sys/mman.h>
#include <sys/stat.h>

static uint64_t table[UZ_MOST_NUMBERS];

int main(int count, char **words) {
    struct stat about;
    int file = count == 2 ? open(words[1], O_RDONLY) : -1;
    if (file < 0 || fstat(file, &about) != 0) return 2;
    if (about.st_size <= 0 || (uint64_t)about.st_size > UZ_MOST_BYTES) return 2; // look at the length first
    size_t length = (size_t)about.st_size;
    void *mapped = mmap(NULL, length, PROT_READ, MAP_PRIVATE, file, 0);
    if (mapped == MAP_FAILED) return 2;
    const uint8_t *recording = mapped;

    uz_part part = uz_find_part(recording, length, UZ_CHAPTERS, table, UZ_MOST_NUMBERS, UZ_PLAIN);
    if (part.refused != 0)
        fprintf(stderr, "refused %u at %llu: %s\n", (unsigned)part.refused, (unsigned long long)part.refused_at,
                uz_refusal_words(part.refused).meaning);
    for (uint64_t row = 0; row < part.rows; row++) {
        if (table[row * UZ_WIDTH + UZ_ID] != 0x85) continue; // the id of a ChapString
        uz_range text = uz_shown_text(recording, length, table, UZ_MOST_NUMBERS, row);
        printf("%llu ", (unsigned long long)text.at);
        if (text.length == 0) putchar('-'); // an empty text is no label
        fwrite(recording + text.at, 1, (size_t)text.length, stdout);
        putchar('\n');
    }
    return part.refused != 0;
}
--- end of example.c

  Addresses. An address counts bytes from the start of the recording, and the first byte has address 0. This holds
  for every address that is given or taken, whatever part it lies in.

  The table. The caller lends numbers of 64 bits, UZ_WIDTH a row, and a call writes one row for each element of a
  payload, in the order of the file: a master (an element that holds elements) stands right before what it holds.
  Row R of a table T is T[R * UZ_WIDTH] up to T[R * UZ_WIDTH + UZ_WIDTH - 1]; the columns are named below. A table has
  0 to UZ_MOST_ROWS rows, so its count of numbers is a multiple of UZ_WIDTH and at most UZ_MOST_NUMBERS.

  Where it broke. A refusal comes with an address, `refused_at`: the header of the element that was being read. Where
  the header itself is at fault, or was to be read and is not there, it is the address where that header begins. For 8
  it is the last seek head that was read, for 10 and 11 the seek head that was not. For 14 and 15, whose fault lies in
  what was asked and not in the recording, it is 0. But 0 is also the address of the first byte, so it is the number of
  the refusal that tells whether there is an address. The address may lie past the recording's end, up to 2^64-1:
  compare it with `length` before a byte is read there. What it is for each number stands in the lists of the calls
  below. uz_row_payload and uz_shown_text refuse with 14 alone, and their reply has no address.

  Rows below a row. The last number of row R, A = T[R * UZ_WIDTH + UZ_AFTER], is the first row after it that does not
  lie in its element, or the count of rows where there is none. It is a row's number as it is, without the plus 1 of
  UZ_PARENT, and never 0 in a row that was written. So rows R + 1 up to A - 1 are what the element holds, at any depth;
  a leaf, and a master that holds nothing, has A = R + 1. The next element in the same master, where there is one, is
  row A, with the UZ_PARENT of row R. So the direct children of a master are the rows C = R + 1, then
  C = T[C * UZ_WIDTH + UZ_AFTER], and so on while C < A.

  Live mode. The size of an element may be all ones in its own width, as FF, 7F FF up to 01 FF FF FF FF FF FF FF: RFC
  8794 calls that unknown, and a recorder writes it on the Segment and on each Cluster where it can't go back, or until
  it is stopped. Five calls take a `mode`, their last argument:

      UZ_PLAIN   a size of all ones is a plain number, as document 01 says. So a live recording is mostly refused with
                 1 or 3 behind its first Cluster, and a part may be found in a Cluster's frames.
      UZ_LIVE    a size of all ones is unknown. uz_open and uz_find_part then know where a Segment or a Cluster ends; on
                 any other element that a call meets an unknown size is refusal 17.

  Use live mode for a recording that was streamed, that is still being written, or whose recorder was stopped. A call
  that meets no header of unknown size gives the same reply and the same table in both modes, so live mode may be asked
  first; where a seek entry leads into other bytes, one can be met there though no element of the recording has one.

  In live mode a Cluster of unknown size ends before the next SeekHead, Info, Tracks, Chapters, Cluster, Cues,
  Attachments, Tags, Segment or EBML header, at the end of a Segment of known size, or at the end of the recording; a
  Segment of unknown size before the next Segment or EBML header, or at the end of the recording. Void and CRC-32 end
  neither. The end is found by the headers and sizes of what the Cluster holds, never by a look at the bytes between. A
  block that reaches past the end, of the recording or of the Segment, ends with it; a header that is cut off is refusal
  1. These endings count for the way to the parts alone, over the file's elements and the segment's children. In a
  payload, that of a part, of a seek head or one that is asked for, and on the way to an owner, every unknown size is
  17, a Cluster's too: no row ever has one.

  What every call asks and promises.

  - `recording` points to `length` bytes, `table` to `numbers` numbers and `chain` to `links` numbers; of the five
    tables of uz_open each points to as many as its own count says. None of them may be NULL, not even for a count of 0;
    then it may point anywhere else. Tables and chain are aligned as a uint64_t is. None overlaps the recording, and no
    two tables of one call overlap. The counts are true: a table or chain whose count is refused is filled with zeros
    all the same.
  - The recording is only read, and only its `length` bytes. Nothing is allocated, nothing is kept after the
    call, there is no global state. Calls may run at the same time, on the same recording too, if each that writes
    a table or a chain has one that no other call uses meanwhile. A call takes less than 16 kilobytes of stack
    (measured, not proved).
  - Damaged or hostile bytes are answered like any others: the call ends, with an answer or a refusal.
  - A refusal is a number from 1 to 15 or 17 in `refused`. Every other number of the reply is then 0, but `id` for 8 and
    `refused_at`, and every number of each table or of the chain that the call was to write is 0. After acceptance
    `refused` and `refused_at` are 0, and so are the numbers of a table beyond its last row, or of the chain behind its
    last address. No other outcome exists, and equal arguments get equal answers.
  - The tests come in a fixed order, so a recording with two faults gets one number, always the same: 14 comes
    before all else, then 15, then the others in the order in which the reader meets the elements. Of one element of a
    payload it is the header (1, 2, 3), 17, 12, 13, the body (1, 4 to 7), then 3 where it is larger than what was left.

  What no call promises.

  - That the bytes stay the same. A mapped file that another program writes or cuts short while a call runs may
    give any answer, or a signal of the operating system. Read it into memory where that can happen.
  - What happens on a NULL pointer, a wrong count, a misaligned table or chain, or an overlap: the call may crash.
  - That an id is one that Matroska knows. Every id of one to four bytes is accepted; one that is not in document
    01's list has the kind binary. What the elements mean is not looked at: a chapter may lack its name.
  - That a part of a live recording is there. A recorder that was stopped may have written none of its chapters and
    tags, or a seek head whose entries were never filled in, or a Segment of size 0: the reply is then what the head or
    the size says, absent, 1, 8 or 9, in live mode too.
  - Speed. The time of a search or of uz_open is at most about 64 times that of one pass over the recording, of the
    address question about one pass; skipped elements are not touched, but in live mode the headers in a Cluster of
    unknown size are. For each part that uz_open reads it clears those rows first that an earlier one left in the
    table. Without a table the address question looks at headers alone, and its time grows with how many stand before
    the address, each master around it with the siblings before it; what they hold is not touched. A header that begins
    with zero bytes is looked through to its first other byte, and ends the call. A shown text takes one pass over
    itself, however long the payload goes on behind it, and uz_row_payload no pass at all.
*/
#ifndef UZRAFMED_H
#define UZRAFMED_H

#include <stddef.h>
#include <stdint.h>

#ifdef __cplusplus
extern "C" {
#endif

/* Limits of document 01; the width is document 02's, C-15. */
#define UZ_MOST_BYTES UINT64_C(4294967295)        /* the longest recording */
#define UZ_WIDTH 8                                /* the numbers of a row */
#define UZ_MOST_ROWS 4096                         /* the most rows of a table */
#define UZ_MOST_NUMBERS (UZ_MOST_ROWS * UZ_WIDTH) /* the most numbers of a table */
#define UZ_MOST_HEADS 64                          /* the most seek heads that a search reads */
#define UZ_MOST_DEPTH 15                          /* the largest depth of a row */
#define UZ_MOST_LINKS 16                          /* the most addresses of a chain */

/* The four parts that uz_find_part takes; uz_open reads them and Info. */
#define UZ_TRACKS UINT32_C(0x1654AE6B)
#define UZ_ATTACHMENTS UINT32_C(0x1941A469)
#define UZ_CHAPTERS UINT32_C(0x1043A770)
#define UZ_TAGS UINT32_C(0x1254C367)
#define UZ_INFO UINT32_C(0x1549A966)

/* How sizes of all ones are taken: the `mode` of five calls. Any other number is refused with 14. */
#define UZ_PLAIN UINT32_C(0) /* as plain numbers */
#define UZ_LIVE UINT32_C(1)  /* as unknown: live mode, above */

/* The parent ids that uz_open and uz_find_part read the elements of each part under. uz_whose_byte gives the same rows,
   and uz_owner the element of one of them, if it is asked with the same one. Info is read under its own id, so that the
   small set of masters holds for its direct children. */
#define UZ_UNDER_TRACKS UINT32_C(0xAE)
#define UZ_UNDER_ATTACHMENTS UINT32_C(0x61A7)
#define UZ_UNDER_CHAPTERS UINT32_C(0x45B9)
#define UZ_UNDER_TAGS UINT32_C(0x7373)
#define UZ_UNDER_INFO UZ_INFO

/* The columns of a row. */
#define UZ_ID 0      /* the element's id, its marker bit included */
#define UZ_PARENT 1  /* the row number of its master plus 1; 0 if it has none in the table */
#define UZ_ADDRESS 2 /* the address of its header */
#define UZ_HEADER 3  /* how many bytes the header has, 2 to 12 */
#define UZ_PAYLOAD 4 /* how many bytes the payload has; they follow the header */
#define UZ_KIND 5    /* one of the kinds below */
#define UZ_DEPTH 6   /* 0 for a direct element of the payload that was read, up to UZ_MOST_DEPTH */
#define UZ_AFTER 7   /* the first row after it that is not below it, or the count of rows; a number without plus 1 */

/* The kinds of an element, by what its payload holds. A row of any kind but UZ_MASTER is a leaf row. */
#define UZ_MASTER 1   /* elements; their rows follow */
#define UZ_SIGNED 2   /* a signed integer, big-endian, 0 to 8 bytes */
#define UZ_UNSIGNED 3 /* an unsigned integer, big-endian, 0 to 8 bytes */
#define UZ_STRING 4   /* a text; it is UTF-8 too, and may hold zero bytes: uz_shown_text tells where it ends */
#define UZ_UTF8 5     /* a text in UTF-8; it may hold zero bytes likewise */
#define UZ_BINARY 6   /* bytes */
#define UZ_FLOAT 7    /* a float, big-endian, 4 or 8 bytes */
#define UZ_DATE 8     /* a signed integer of 8 bytes: nanoseconds from 2001-01-01 */

/* Refusals: one number for each broken rule, with what uz_refusal_words says of it. docs/REFUSALS.md has the rules
   whole, and what to do. */
#define UZ_ACCEPTED 0          /* no refusal */
#define UZ_PAST_END 1          /* a byte needed lies beyond the end of the file */
#define UZ_INVALID_ID 2        /* an id has more than four bytes */
#define UZ_INVALID_SIZE 3      /* a size has more than eight bytes, or an element is larger than what holds it */
#define UZ_INVALID_INTEGER 4   /* an integer has more than eight bytes */
#define UZ_INVALID_FLOAT 5     /* a float has other than 4 or 8 bytes */
#define UZ_INVALID_DATE 6      /* a date has other than 8 bytes */
#define UZ_NOT_UTF8 7          /* a text is not UTF-8 */
#define UZ_INVALID_SEEK_HEAD 8 /* a seek entry has no usable position: it was never filled in, or is too large */
#define UZ_STALE_ENTRY 9       /* a seek entry is stale: another element stands at its address */
#define UZ_HEAD_AGAIN 10       /* seek heads lead back to one that was read */
#define UZ_TOO_MANY_HEADS 11   /* 64 linked seek heads were read, and the last names one more */
#define UZ_TOO_DEEP 12         /* elements are nested more than 16 deep */
#define UZ_NO_FREE_ROW 13      /* the part has more elements than the table has rows, 4096 at most */
#define UZ_BAD_ARGUMENT 14     /* a length, part, mode, start or row given is out of bounds, or the row is no text */
#define UZ_OUTSIDE 15          /* the address is outside the payload */
#define UZ_UNKNOWN_SIZE 17     /* live mode: the size of an element other than a Segment or Cluster is not known */

/* What a refusal means. The texts are constants of the library. */
typedef struct uz_words {
    const char *name;    /* its name here, without UZ_ */
    const char *rule;    /* when exactly it is given */
    const char *meaning; /* the same in plain words, short enough for a line */
    const char *where;   /* what its address is, in plain words */
    const char *next;    /* what to do next; FILE stands for the recording, NEW.mkv for a new one */
} uz_words;

/* The reply of uz_find_part. */
typedef struct uz_part {
    uint64_t refused;    /* 0, or the number of the refusal; then the others are 0, but `id` for 8 and `refused_at` */
    uint64_t id;         /* for refusal 8 the id that the entry names, else 0 */
    uint64_t refused_at; /* for 1 to 13 and 17 the address where it broke, which may be 0 or past the end; else 0 */
    uint64_t found;      /* 1, or 0 for an absent part: then at, size and rows are 0 */
    uint64_t at;         /* the address of the part's payload, that is the first byte after its header */
    uint64_t size;       /* how many bytes the payload has; all of them are in the recording */
    uint64_t rows;       /* how many rows were written */
    uint64_t heads;      /* how many seek heads were read, 0 to 64; counted for an absent part too */
} uz_part;

/* What uz_open tells of one of the five parts. */
typedef struct uz_found {
    uint64_t found; /* 1, or 0 for an absent part: then the others are 0 */
    uint64_t at;    /* the address of the part's payload, that is the first byte after its header */
    uint64_t size;  /* how many bytes the payload has; all of them are in the recording */
    uint64_t rows;  /* how many rows were written into its table */
} uz_found;

/* The reply of uz_open. */
typedef struct uz_opened {
    uint64_t refused;    /* 0, or the number of the refusal; then the others are 0, but `id` for 8 and `refused_at` */
    uint64_t id;         /* for refusal 8 the id that the entry names, else 0 */
    uint64_t refused_at; /* for 1 to 13 and 17 the address where it broke, which may be 0 or past the end; else 0 */
    uint64_t heads;      /* how many seek heads were read, 0 to 64 */
    uz_found info;
    uz_found tracks;
    uz_found attachments;
    uz_found chapters;
    uz_found tags;
} uz_opened;

/* The reply of uz_row_payload and uz_shown_text: bytes `at` up to `at + length - 1`, all of them in the recording. */
typedef struct uz_range {
    uint64_t refused; /* 0, or UZ_BAD_ARGUMENT; then the others are 0 */
    uint64_t at;      /* the address of the first byte; the recording's length at most */
    uint64_t length;  /* how many bytes there are; may be 0 */
} uz_range;

/* The reply of uz_whose_byte. */
typedef struct uz_place {
    uint64_t refused;    /* 0, or the number of the refusal; then the others are 0, but `refused_at` */
    uint64_t refused_at; /* for 1 to 13 and 17 the address where it broke, which may be 0 or past the end; else 0 */
    uint64_t row;        /* the number of the one row that holds the address, from 0 on */
    uint64_t in_payload; /* 1 if its payload holds the address (it is a leaf row), 0 if its header does */
    uint64_t rows;       /* how many rows were written */
} uz_place;

/* The reply of uz_owner and uz_owner_chain. */
typedef struct uz_owned {
    uint64_t refused;    /* 0, or the number of the refusal; then the others are 0, but `refused_at` */
    uint64_t refused_at; /* for 1, 2, 3, 12 and 17 the address where it broke, may be 0 or past the end; else 0 */
    uint64_t at;         /* the address of the header of the element that holds the byte */
    uint64_t in_payload; /* 1 if its payload holds the byte (it is no master), 0 if its header does */
    uint64_t depth;      /* how many masters stand around it in the payload that was asked for, 0 to UZ_MOST_DEPTH */
} uz_owned;

/*
  Reads all parts of a recording, each into a table of its own: Info, Tracks, Attachments, Chapters and Tags.

  It goes over the segment's elements up to the first seek head, and reads each of the five that it meets, in the order
  of the file; of two of one id the last stands, and the first is read all the same. From a seek head on it follows the
  entries, to all further heads and then to Info, Tracks, Attachments, Chapters and Tags, in this order; the last entry
  of an id wins, and what it leads to replaces what was met before. A part without an entry stands as it was met, or is
  absent. So it is not five searches: uz_find_part takes the first part that it meets, and looks at nothing behind it.
  But where uz_open accepts and read a head, each of the four that was not met before that head is as its search finds
  it.

  One entry that is stale, or one part that is broken, refuses the whole call: ask uz_find_part for the single parts
  then.

  Each table has a pointer and a count of numbers, as that of uz_find_part, and is held to the same bounds. The table of
  a part that is absent is all zeros. `mode` is UZ_PLAIN or UZ_LIVE; in live mode the way is that of uz_find_part.

  Owns: nothing. Reads: the recording. Writes: every number of the five tables.

  Refusals, of which all but 13 and 14 are the recording's, in the order in which the elements are met; of a sought part
  8, its header, 17, 9, then its elements:
     1, 2, 4 to 7, 12, 17  as for uz_find_part, of each part that is read
     3  as there; also a part that was met before a head and overruns the segment, if the segment's size is known: it is
        read first. A seek head that overruns is no 3, nor is a sought part outside the segment
     8, 9, 10, 11  as there; `id` is UZ_INFO or its like, or 0x114D9B74 for a further seek head
    13  a part has more elements than its own table has rows, also one that a later part replaces
    14  length exceeds UZ_MOST_BYTES, one of the five counts is no multiple of UZ_WIDTH or exceeds UZ_MOST_NUMBERS, or
        mode is none of the two

  What `refused_at` is, by the number: as for uz_find_part.

  Not promised: that the parts lie within the segment, that each is the only one of its id, or that two parts do not
  overlap. A recording with several segments is read in the first alone.
*/
uz_opened uz_open(const uint8_t *recording, size_t length, uint64_t *info, size_t info_numbers, uint64_t *tracks,
                  size_t tracks_numbers, uint64_t *attachments, size_t attachments_numbers, uint64_t *chapters,
                  size_t chapters_numbers, uint64_t *tags, size_t tags_numbers, uint32_t mode);

/*
  Finds a part of a recording and reads its payload into the table.

  The search goes over the segment's elements up to the first seek head, or to the part itself if that comes first.
  From a seek head on it follows the entries, to further heads and to the part; the last entry of an id wins. An
  entry is believed only if the header at its address has the id that it names. A seek head that does not name a
  part hides it, though it stands in the segment. A part that is not there is an accepted reply.

  `part` is UZ_TRACKS, UZ_ATTACHMENTS, UZ_CHAPTERS or UZ_TAGS. `mode` is UZ_PLAIN or UZ_LIVE.

  In live mode a Segment of unknown size has no end but its ending: its children are met up to there, and none of them
  can overrun it. A Cluster of unknown size is passed over up to its ending, before the segment and in it, and so is a
  Segment of unknown size in one of known size. At an address that an entry leads to, the order is the header, 17, then
  9; a Segment or Cluster there is 9, whatever its size.

  Owns: nothing. Reads: the recording. Writes: every number of the table.

  Refusals, of which all but 13 and 14 are the recording's:
     1  there is no segment, or a header, a seek head or the part reaches past the recording's end; in live mode also
        where a Segment of known size goes on behind the end
     2  the id of a header that was read has more than four bytes
     3  the size in such a header has more than eight bytes; or an element of the part or of a seek head is larger
        than what its master had left; or an element of known size that is passed over overruns the segment, if the
        segment's size is known
     4  an integer of the part or of a seek head has more than eight bytes
     5  a float there has other than 4 or 8 bytes
     6  a date there has other than 8 bytes
     7  a text there is not UTF-8
     8  an entry's address exceeds 2^64-1; `id` is UZ_TRACKS or its like, or 0x114D9B74 for a further seek head
     9  an entry is stale: at its address is a header with another id
    10  seek heads lead back to one that was read
    11  64 linked seek heads were read, and the last names one more
    12  an element of the part or of a seek head would lie at depth 16
    13  the part has more elements than the table has rows
    14  length exceeds UZ_MOST_BYTES, numbers is no multiple of UZ_WIDTH or exceeds UZ_MOST_NUMBERS, part is none of
        the four, or mode none of the two
    17  live mode alone: the size of an element on the way, in a Cluster on the way or at the address of an entry is
        unknown, and it is no Segment or Cluster; or that of any element of a seek head or of the part is

  What `refused_at` is, by the number:
     1  where the header begins that was not there whole; for a number, a text or bytes that are cut off, the header of
        these; with no segment, where the next header would begin; for an entry that leads past the end, where it leads
     2  where that header begins
     3  where that header begins; for an element that is too large its own header, not its master's or the segment's
     4, 5, 6, 7  the header of that integer, float, date or text
     8  the header of the last seek head that was read, which need not be the one that holds the entry
     9  the address that the entry leads to, where the header with another id begins
    10  the address of the seek head that would be read once more
    11  the address of the 65th seek head, which is not looked at: anything or nothing may be there
    12, 13, 17  the header of that element
    14  0

  Not promised: that the part lies within the segment, that it is the only one of its id, or that two parts do not
  overlap. A recording with several segments is searched in the first alone.
*/
uz_part uz_find_part(const uint8_t *recording, size_t length, uint32_t part, uint64_t *table, size_t numbers,
                     uint32_t mode);

/*
  Tells where the payload of a row is. After acceptance the bytes from recording + at on, `length` of them, may be
  read.

  The table is usually one that another call wrote, but may hold any numbers: only the row's address, header length
  and payload length are looked at, and no sum wraps. A row of an accepted table is never refused for its range if
  the recording is the same.

  Owns: nothing. The bytes stay the caller's. Reads: the table; of the recording only its length. Writes: nothing.

  Refusals:
    14  length exceeds UZ_MOST_BYTES, numbers is no multiple of UZ_WIDTH or exceeds UZ_MOST_NUMBERS, the table has no
        such row (row >= numbers / UZ_WIDTH), or the row's range is not in the recording

  Not promised: that the row was ever written. An unused row is all zeros and gives 0 bytes at address 0, so
  compare row with the `rows` of the call that wrote the table.
*/
uz_range uz_row_payload(const uint8_t *recording, size_t length, const uint64_t *table, size_t numbers, uint64_t row);

/*
  Tells where the shown text of a text row is, that is of a row of kind UZ_STRING or UZ_UTF8: its payload up to the
  first zero byte, which is not part of it, or the whole payload if there is none. Recorders pad texts with zero bytes,
  and write a shorter text over a longer one, so what follows a zero byte counts for nothing (RFC 8794, section 13).
  `at` is the address of the payload, whatever the length. After acceptance the bytes from recording + at on, `length`
  of them, may be read, and none of them is 0.

  An empty shown text counts as no label: where the first string of a stage that is set has one, show a label of your
  own, and not the next string.

  The table is usually one that another call wrote, but may hold any numbers: the row's kind is believed as it stands
  there, its address, header length and payload length are taken as uz_row_payload takes them, and no other number
  counts. A text row of an accepted table is never refused if the recording is the same, and its shown text is UTF-8:
  the call that wrote it held the whole payload to that, also what follows a zero byte.

  Owns: nothing. The bytes stay the caller's. Reads: the table; of the recording its length and, after all tests, the
  payload up to and with its first zero byte. Writes: nothing.

  Refusals:
    14  those of uz_row_payload, or the row is no text row. An unused row, which is all zeros, is none.

  Not promised: that the bytes are UTF-8 where the row is not one that an accepted call wrote for the same recording.
  Control characters other than the zero byte are left in.
*/
uz_range uz_shown_text(const uint8_t *recording, size_t length, const uint64_t *table, size_t numbers, uint64_t row);

/*
  Reads the payload of `size` bytes from the address `start` on into the table, and names the one row that holds
  `address`: by its header, or, if it is a leaf row, by its payload. Every byte of an accepted payload has exactly
  one such row.

  For a part, start and size are `at` and `size` of uz_find_part, and `parent` is UZ_UNDER_TRACKS or its like; the
  rows are then those of uz_find_part. For the payload of a master row, parent is that row's id, and rows and depths
  count from there. Any parent is allowed; 0 is none. It decides which ids are masters: below Info, Tracks,
  Attachments, Chapters and Tags themselves only few are. `mode` is UZ_PLAIN or UZ_LIVE, and that of uz_find_part where
  the rows are to be the same.

  Owns: nothing. Reads: the recording. Writes: every number of the table.

  Refusals, in this order: 14, 15, then those of the elements as they are met:
     1  the recording ends before an element of the payload does
     2  an id has more than four bytes
     3  a size has more than eight bytes, or an element is larger than what its master, or the payload, had left
     4  an integer has more than eight bytes
     5  a float has other than 4 or 8 bytes
     6  a date has other than 8 bytes
     7  a text is not UTF-8
    12  an element would lie at depth 16
    13  the payload has more elements than the table has rows
    14  length exceeds UZ_MOST_BYTES, numbers is no multiple of UZ_WIDTH or exceeds UZ_MOST_NUMBERS, start exceeds
        length, or mode is none of the two
    15  address is not one of the `size` bytes from start on
    17  live mode alone: the size of an element is unknown, a Segment's or Cluster's too

  What `refused_at` is, by the number:
     1, 2, 3  where that header begins; for the body that the recording ends in, and for an element that is too large,
        the header of that element, not its master's
     4, 5, 6, 7  the header of that integer, float, date or text
    12, 13, 17  the header of that element
    14, 15  0
  It may lie behind the payload: an element is read, with all that it holds, before it is held to what was left.

  Not promised: that start is the begin of an element. Bytes from elsewhere are read as elements too, and are
  mostly refused. start + size may exceed the recording or 2^64-1; such a payload is refused where its bytes run
  out, mostly with 1.
*/
uz_place uz_whose_byte(const uint8_t *recording, size_t length, uint64_t start, uint64_t size, uint32_t parent,
                       uint64_t address, uint64_t *table, size_t numbers, uint32_t mode);

/*
  Names the element that holds `address`, in the payload of `size` bytes from the address `start` on: the address
  question without a table, for one byte at once. Take uz_whose_byte where the rows are wanted too.

  Headers are read from the front of the payload. An element that ends before the address is passed over by its size; a
  master that holds the address is gone into, and its headers are read likewise, up to the element that has the address
  in its header, or that is no master and has it in its payload. Start, size and parent are those of uz_whose_byte. To
  ask of the whole file, start is 0, size UINT64_MAX and parent 0: then the EBML header, the segment, seek heads and
  Clusters are elements like others, and depths count from there. In live mode a Segment of unknown size is then 17,
  since endings are not looked for here; ask with the payload of a part that uz_find_part found.

  On a payload that uz_whose_byte accepts in the same mode both name the same: `at` is the address of its row,
  `in_payload` is its in_payload, and `depth` is the depth of that row. But no body is looked at, not even that of the
  element itself: it may be no number, text or date of its kind, and the recording may end within it. What stands behind
  the address is not read either. So there is a reply for many payloads that uz_whose_byte refuses.

  Owns: nothing. Reads: of the recording the headers that it comes to. Writes: nothing.

  Refusals, in this order: 14, 15, then those of each header as it is met, before the address is looked for in it:
     1  the recording ends before the header does
     2  the id has more than four bytes
     3  the size has more than eight bytes
    17  live mode alone: the size is unknown, a Segment's or Cluster's too
    12  the element would lie at depth 16
     3  the element, header and payload, is larger than what its master, or the payload, had left
    14  length exceeds UZ_MOST_BYTES, start exceeds length, or mode is none of the two
    15  address is not one of the `size` bytes from start on
  There is no 13, and none of 4 to 11.

  What `refused_at` is, by the number:
     1, 2, 3, 12, 17  where that header begins; for an element that is too large its own header, not its master's
    14, 15  0

  Not promised: that start is the begin of an element, or that the payload of the element lies in the recording: `at`
  does, with the whole header, and the address may lie behind the recording's end. start + size may exceed the
  recording or 2^64-1.
*/
uz_owned uz_owner(const uint8_t *recording, size_t length, uint64_t start, uint64_t size, uint32_t parent,
                  uint64_t address, uint32_t mode);

/*
  The same reply as that of uz_owner, and the chain of elements down to the byte: chain[0] is the address of the header
  of the outermost element that holds it, each further one lies directly in the one before, and chain[depth] is `at`.
  All but the last are masters. Zeros follow.

  `links` is 0 to UZ_MOST_LINKS, and UZ_MOST_LINKS are always enough. If it is not more than depth, the first `links`
  addresses are written, and depth tells how many masters there are.

  Owns: nothing. Reads: of the recording the headers that it comes to. Writes: every number of the chain.

  Refusals: those of uz_owner, in the same order, at the same addresses; 14 also if links exceeds UZ_MOST_LINKS. Every
  number of the chain is then 0.

  Not promised: what uz_owner does not promise. 0 is also the address of the first byte, so it is `depth` that tells
  where the chain ends, not a zero.
*/
uz_owned uz_owner_chain(const uint8_t *recording, size_t length, uint64_t start, uint64_t size, uint32_t parent,
                        uint64_t address, uint64_t *chain, size_t links, uint32_t mode);

/*
  Tells what the number of a refusal means and where its address points, in words for a person. Every number has an
  answer: 0 is 'no refusal', and one that is none of 0 to 15 and 17 'an unknown number'. It is plain C
  (viewer/refusals.c), not proved, and docs/REFUSALS.md is made from it.
*/
uz_words uz_refusal_words(uint64_t refused);

#ifdef __cplusplus
}
#endif

#endif

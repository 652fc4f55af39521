// What the viewer works out itself because the C face has no call for it yet: the children of a
// row, the row of an owner, the number in a row, a chapter's first display, whether a text is a
// label, a tag's value, a track's type, a header, the walk over the segment's children with the
// endings of live mode, and the entries of seek heads. None of this is proved. The reader has a
// proved form of each, and this file goes when the C face has it too.
#ifndef UNPROVED_H
#define UNPROVED_H

#include "parts.h"

#include <limits.h>
#include <stdbool.h>

// No row: what is not set.
#define NO_ROW UINT64_MAX

// The first direct child of that id and kind from row `from` on, and the last one; NO_ROW if there
// is none. `from` is the first child's row, or row_after of one. The parent NO_ROW stands for the
// payload of the part itself.
uint64_t next_child(const part *in, uint64_t parent, uint64_t from, uint64_t id, uint64_t kind);
uint64_t last_child(const part *in, uint64_t parent, uint64_t id, uint64_t kind);

// Where the children of a row begin; for NO_ROW, row 0.
uint64_t first_row(uint64_t parent);

// The row whose header begins at an address, which is that of one of them.
uint64_t row_at(const part *in, uint64_t address);

// How many rows of that id stand between a row and its ancestor, one inside the other, with nothing
// else between; NO_LEVEL if something else is. Both are masters.
#define NO_LEVEL UINT_MAX
unsigned level_below(const part *in, uint64_t ancestor, uint64_t row, uint64_t id);

// The next row that may have a level, behind one of this level: inside it, or after it if it has
// none.
uint64_t next_nested(const part *in, uint64_t row, unsigned level);

// The language that counts: the last IETF one, else the last ISO 639 one.
uint64_t language_of(const part *in, uint64_t row, uint64_t ietf, uint64_t iso);

// The value of a simple tag: the later of its last string and its last bytes.
uint64_t tag_value(const part *in, uint64_t simple);

// The unsigned number in a row of up to eight bytes; a flag is set if it is not 0.
uint64_t number_in(const part *in, uint64_t row);
bool flag_in(const part *in, uint64_t row, bool unset);

// The string of a chapter's first display that has one, from row `from` on as for next_child, and
// the display itself.
uint64_t next_string(const part *in, uint64_t atom, uint64_t from, uint64_t *display);

// The row of a string that is set, if its shown text is a label; NO_ROW for an empty one, which
// counts as none.
uint64_t label_in(const part *in, uint64_t string);

// The word for a track's type; "unknown" for a number that is none.
const char *track_type(uint64_t type);

// A header of the recording: its id and size, and where its payload begins. `unknown`: the size is
// all ones.
typedef struct {
    uint64_t at;
    uint64_t id;
    uint64_t size;
    uint64_t payload;
    bool unknown;
} header;

// Reads the header at any address; the answer is 0 or the refusal's number.
uint64_t read_header(const recording *from, uint64_t at, header *to);

// Finds the first segment; false if the elements before it lead to none.
bool find_segment(const recording *from, header *segment);

// Steps over the segment's children. Begin with `child` all zeros. False at the segment's end, at a
// header that can't be read, and behind a child of unknown size; in live mode a Cluster of unknown
// size is passed over up to its ending.
bool next_in_segment(const recording *from, const header *segment, header *child);

// The masters around a byte that the owner question does not go into in live mode: the Segment, and
// a Cluster of unknown size, from the outside in. Where the question is then to begin, in the last
// of them, and whether it is that one's own header that holds the byte.
#define MOST_AROUND 4
typedef struct {
    header masters[MOST_AROUND];
    unsigned count;
    uint64_t start;
    bool in_header;
} surroundings;

// Finds them. There are none in plain mode.
void find_around(const recording *from, uint64_t address, surroundings *to);

// An entry of a seek head: the address of its header, the id that it names, and its position in so
// many bytes.
typedef struct {
    uint64_t at;
    uint64_t id;
    uint64_t position;
    uint64_t width;
} seek_entry;

// Reads the payload of a head into rows, those of `to`, whose reply has the refusal if there is
// one. Answers whether it is accepted; a head of no bytes is not.
bool read_head(const recording *from, const header *head, part *to);

// The entry in a Seek, by its row in a head.
seek_entry entry_in(const part *head, uint64_t seek);

// The entry for an id that counts: the last in the seek heads that the search reads, which are the
// first in the segment and those that are linked from it. False if there is none, or if the search
// meets an element of that id before any head.
bool find_entry(const recording *from, const header *segment, uint64_t id, seek_entry *to);

#endif

// The four parts of a recording, each found by the reader and held in a table of its own.
#ifndef PARTS_H
#define PARTS_H

#include "recording.h"
#include "uzrafmed.h"

// A part: what it is, and what the reader says of it.
typedef struct {
    const char *name;
    uint32_t id;
    uint32_t parent; // the id that its elements are read under
    const recording *from;
    uz_part reply;
    uint64_t *table;
} part;

#define PARTS 4
enum { TRACKS_PART, ATTACHMENTS_PART, CHAPTERS_PART, TAGS_PART };

// Asks for the four parts, in the order above.
void find_parts(const recording *from, part all[PARTS]);

// The element of a part that holds a byte, by the headers alone, and the addresses of the headers
// from the outermost element down to it. An absent or refused part has no bytes, and is refused.
uz_owned owner_in(const part *in, uint64_t address, uint64_t chain[UZ_MOST_LINKS]);

// A number of a row's table.
uint64_t cell(const part *in, uint64_t row, unsigned column);

// The first row behind a row and all that it holds; the count of rows if there is none.
uint64_t row_after(const part *in, uint64_t row);

// The address of a row's header.
uint64_t header_of(const part *in, uint64_t row);

// The place of a row's payload, which lies in the recording.
uz_range payload_of(const part *in, uint64_t row);

// The place of a row's shown text: its payload up to the first zero byte. Refused for a row that is
// no text.
uz_range text_of(const part *in, uint64_t row);

#endif

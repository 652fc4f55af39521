// What is odd about a file, in words: the reader's replies alone do not tell it.
#ifndef REMARKS_H
#define REMARKS_H

#include "parts.h"

#include <stdbool.h>

// One remark, and what to do next; NULL if that is the refusal's own matter.
typedef struct {
    char words[200];
    const char *next;
} remark;

#define MOST_REMARKS 16
typedef struct {
    remark all[MOST_REMARKS];
    unsigned count;
    // Whether there is a segment at all.
    bool segment;
    // The segment has no size yet, so that absent parts say nothing.
    bool unfinished;
    // The header of a part that stands in the segment and is not found, else 0.
    uint64_t stands[PARTS];
    // The refusals that a remark explains better than their own words.
    bool explained[UZ_UNKNOWN_SIZE + 1];
    // What is worth a line though nothing is wrong; else empty.
    char note[200];
} remarks;

// Looks at the file where the reader's replies leave something open: a file that is no Matroska or
// was not finished, one that ends before its segment does, parts that a seek head hides or leads
// past, parts that are there more than once, sizes that are not known and call for live mode.
void find_remarks(const recording *from, const part all[PARTS], remarks *to);

#endif

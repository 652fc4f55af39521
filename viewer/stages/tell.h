// What both ways of asking tell: a row, and a refusal.
#ifndef TELL_H
#define TELL_H

#include "parts.h"

#include <stdbool.h>

// ' WORD ADDRESS+LENGTH'.
void tell_place(const char *word, uint64_t at, uint64_t length);

// If the part holds the byte, a line on standard output: the part, the row, header or payload, its
// id with Matroska's name, its kind, its two ranges, and the shown text if it is a text. Below it a
// line for each master around that row, from the outside in. Answers the outermost row that holds
// the byte, or NO_ROW (unproved.h) if the part does not hold it.
uint64_t tell_owner(const part *in, uint64_t address);

// Whether a refusal has an address: 14 and 15 are about what was asked, and have none.
bool has_address(uint64_t number);

// A line on standard error: the part, the number, for 8 the id of the entry, the address where it
// broke with what stands there, and the meaning. Answers status 1.
int tell_refused(const part *of, uint64_t number, uint64_t id, uint64_t at);

// A line on standard error with what to do next.
void tell_next(const recording *from, const char *next);

#endif

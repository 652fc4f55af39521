// Editions and their stages.
#ifndef CHAPTERS_H
#define CHAPTERS_H

#include "parts.h"

// For each edition a line, in file order; below it a line for each of its atoms, by start, then in
// file order, those without a start last; below an atom its own atoms likewise, set in by two
// spaces more.
void tell_chapters(const part *chapters);

// The same as JSON, in file order, each atom with the address of its parent.
void json_chapters(const part *chapters);

#endif

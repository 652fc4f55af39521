// A field of a record, by the row that holds it; NO_ROW (unproved.h) is a field that is not set.
#ifndef FIELD_H
#define FIELD_H

#include "parts.h"

// A number as it is, the shown text between quotation marks, 'bytes LENGTH' for bytes, and - for
// NO_ROW.
void show_field(const part *in, uint64_t row);

// A code of letters, digits and hyphens, as a language has, without quotation marks; anything else
// as show_field does.
void show_code(const part *in, uint64_t row);

#endif

// Matroska's names of elements.
#ifndef NAMES_H
#define NAMES_H

#include <stdint.h>

// The name of an id, or "-" for one that the list (viewer/names.def) does not have.
const char *element_name(uint64_t id);

// The word for a kind of row, as a listing has it.
const char *kind_name(uint64_t kind);

#endif

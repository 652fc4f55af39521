// Whose byte an address is.
#ifndef WHOSE_H
#define WHOSE_H

#include "recording.h"

// Tells each row of a part or of a seek head that holds the byte, and for a byte of no part the
// element of the file, each with the masters around it, and what is wrong with the recording.
// Answers the status.
int tell_whose(const recording *from, uint64_t address);

#endif

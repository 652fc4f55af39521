// What is told of seek heads: an entry, where it leads, and what stands there.
#ifndef SEEKHEADS_H
#define SEEKHEADS_H

#include "unproved.h"

// Whether the position is all ones in four bytes or more: a recorder reserves such an entry, and
// fills it in at its end.
bool is_unfilled(const seek_entry *entry);

// If the address lies in the payload of a seek head of the segment, tells its row with the masters
// around it, and the entry that it belongs to: where that leads and what stands there. Answers
// whether it does; if the head is refused it does not, and `status` becomes 1.
bool tell_seek_head(const recording *from, uint64_t address, int *status);

#endif

// What is wrong with a recording, told on standard error.
#ifndef FAULTS_H
#define FAULTS_H

#include "parts.h"
#include "remarks.h"

// A line for each refused part, one for each remark on the file, and what to do next. `all` has the
// four parts, and if `count` is one more, the file as it was asked for an address. Where there is
// no segment the remark says all there is to say of the parts. Answers the status: 1 if anything is
// told.
int tell_faults(const part all[], unsigned count, const remarks *odd);

#endif

// A recording: its name as it was given, its bytes, mapped read-only, and the mode to read it in.
#ifndef RECORDING_H
#define RECORDING_H

#include <stdint.h>

typedef struct {
    const char *name;
    const uint8_t *bytes;
    uint64_t length;
    uint32_t mode; // UZ_PLAIN or UZ_LIVE
} recording;

// Maps a file of 1 to UZ_MOST_BYTES bytes; the mode is plain. Answers status 0, or 1 after a line
// on standard error. A file that another program cuts short while it is mapped ends the viewer with
// SIGBUS.
int recording_open(const char *name, recording *to);

void recording_close(const recording *from);

#endif

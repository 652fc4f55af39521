// Tracks: which one is the serial console.
#ifndef TRACKS_H
#define TRACKS_H

#include "parts.h"

// A line for each track: the address of its header, its number, type and name; - stands for none.
void tell_tracks(const part *tracks);

// The same as JSON, with uid, language and codec.
void json_tracks(const part *tracks);

#endif

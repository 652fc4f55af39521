// Tags: the bench settings.
#ifndef TAGS_H
#define TAGS_H

#include "parts.h"

// For each tag a line with its target, and below it a line for each simple tag, in file order; one
// inside another is set in by two spaces more. A uid of the target is told by what has that uid in
// the other parts.
void tell_tags(const part all[PARTS]);

// The same as JSON, each simple tag with the address of its parent.
void json_tags(const part *tags);

#endif

// The help text.
#ifndef HELP_H
#define HELP_H

// Its first line is the usage.
extern const char help_text[];

#endif

// How bytes, addresses and times are shown to a person.
#ifndef SHOW_H
#define SHOW_H

#include <stdbool.h>
#include <stddef.h>
#include <stdint.h>
#include <stdio.h>

// Whether each address is followed by its hexadecimal form: set once, from the options.
extern bool addresses_in_hex;

// A text of a recording, which the reader has checked as UTF-8. Control characters and the
// backslash are shown as \xNN, each byte of them, so that a recording can't command a terminal, and
// a line is one row.
void show_text(FILE *out, const uint8_t *bytes, uint64_t length);

// The same between quotation marks; one inside is \x22, so that no name can end before its end.
void show_quoted(FILE *out, const uint8_t *bytes, uint64_t length);

// A word of the command line, which may be any bytes: what is not ASCII is shown as \xNN too.
void show_word(FILE *out, const char *word);

// An address in decimal, and with --hex its hexadecimal form behind a slash.
void show_address(uint64_t address);

// An address in both forms, with --hex or without: where a recording is broken, one goes to the
// byte with a hex viewer.
void show_both(FILE *out, uint64_t address);

// A time in nanoseconds as h:mm:ss.mmm, cut and not rounded.
void show_time(uint64_t nanoseconds);

// Two spaces for each level.
void show_indent(unsigned levels);

// One line on standard error, 'stages: NAME: WHAT'. Answers status 1, for the caller to hand on.
int fault(const char *name, const char *what);

#endif

// JSON on standard output, written as it is told. Commas and line feeds are put in here.
#ifndef JSON_H
#define JSON_H

#include "parts.h"

#include <stdbool.h>

// Open and close an object or a list; `key` is NULL inside a list and for the outermost. One that
// is `on_line` of its own begins a new line, so that two outputs can be compared line by line.
void json_open(const char *key, char bracket, bool on_line);
void json_close(char bracket);

// Members: `key` is NULL inside a list. A word that is NULL is null.
void json_number(const char *key, uint64_t number);
void json_word(const char *key, const char *word);
void json_null(const char *key);

// A field, by its row: null for NO_ROW, else the place of its whole payload and its value: a
// number, the shown text, or, for json_flag, true or false. Bytes have a place and no value.
void json_field(const char *key, const part *in, uint64_t row);
void json_flag(const char *key, const part *in, uint64_t row);

// How an atom or a simple tag is nested: the address of the one that holds it, null on level 0, and
// the level.
void json_nested(const part *in, uint64_t row, unsigned level);

// The end of the outermost object.
void json_end(void);

#endif

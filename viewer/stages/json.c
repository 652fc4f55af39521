// Writes JSON. A shown text keeps every byte: what JSON can't hold as it is, is escaped.
#include "json.h"

#include "unproved.h"

#include <inttypes.h>
#include <stdio.h>
#include <string.h>

// Whether a member stands before the next one in the innermost object or list.
static bool follows = false;

static void text(const uint8_t *bytes, uint64_t length) {
    putchar('"');
    for (uint64_t i = 0; i < length; i++) {
        if (bytes[i] == '"' || bytes[i] == '\\')
            printf("\\%c", bytes[i]);
        else if (bytes[i] < 0x20 || bytes[i] == 0x7F)
            printf("\\u%04X", bytes[i]);
        else if (bytes[i] == 0xC2 && i + 1 < length && bytes[i + 1] < 0xA0)
            printf("\\u%04X", bytes[++i]);
        else
            putchar(bytes[i]);
    }
    putchar('"');
}

static void member(const char *key, bool on_line) {
    if (follows)
        putchar(',');
    if (on_line)
        putchar('\n');
    else if (follows)
        putchar(' ');
    if (key != NULL)
        printf("\"%s\": ", key);
    follows = true;
}

void json_open(const char *key, char bracket, bool on_line) {
    member(key, on_line);
    putchar(bracket);
    follows = false;
}

void json_close(char bracket) {
    putchar(bracket);
    follows = true;
}

void json_number(const char *key, uint64_t number) {
    member(key, false);
    printf("%" PRIu64, number);
}

void json_word(const char *key, const char *word) {
    if (word == NULL) {
        json_null(key);
        return;
    }
    member(key, false);
    text((const uint8_t *)word, strlen(word));
}

void json_null(const char *key) {
    member(key, false);
    fputs("null", stdout);
}

static void field(const char *key, const part *in, uint64_t row, bool flag) {
    if (row == NO_ROW) {
        json_null(key);
        return;
    }
    uz_range range = payload_of(in, row);
    uz_range shown = text_of(in, row);
    json_open(key, '{', false);
    json_number("at", range.at);
    json_number("length", range.length);
    if (flag) {
        member("value", false);
        fputs(number_in(in, row) != 0 ? "true" : "false", stdout);
    } else if (shown.refused == UZ_ACCEPTED) {
        member("value", false);
        text(in->from->bytes + shown.at, shown.length);
    } else if (cell(in, row, UZ_KIND) == UZ_UNSIGNED) {
        json_number("value", number_in(in, row));
    }
    json_close('}');
}

void json_field(const char *key, const part *in, uint64_t row) {
    field(key, in, row, false);
}

void json_flag(const char *key, const part *in, uint64_t row) {
    field(key, in, row, true);
}

void json_nested(const part *in, uint64_t row, unsigned level) {
    if (level == 0)
        json_null("parent");
    else
        json_number("parent", header_of(in, cell(in, row, UZ_PARENT) - 1));
    json_number("level", level);
}

void json_end(void) {
    json_close('}');
    putchar('\n');
    follows = false;
}

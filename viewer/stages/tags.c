// Tags with their targets, and the simple tags in them.
#include "tags.h"

#include "field.h"
#include "ids.h"
#include "json.h"
#include "show.h"
#include "unproved.h"

#include <inttypes.h>
#include <stdio.h>

// A list of uids in a target: the id of its members, and what they name: a master of a part, by its
// id and its uid's.
typedef struct {
    const char *word;
    const char *key;
    uint64_t member;
    unsigned part;
    uint64_t master;
    uint64_t uid;
} uid_list;

static const uid_list lists[] = {
    {"track", "tracks", TAG_TRACK_UID, TRACKS_PART, TRACK_ENTRY, TRACK_UID},
    {"edition", "editions", TAG_EDITION_UID, CHAPTERS_PART, EDITION_ENTRY, EDITION_UID},
    {"chapter", "chapters", TAG_CHAPTER_UID, CHAPTERS_PART, CHAPTER_ATOM, CHAPTER_UID},
    {"attachment", "attachments", TAG_ATTACHMENT_UID, ATTACHMENTS_PART, ATTACHED_FILE, FILE_UID},
};
#define LISTS (sizeof lists / sizeof *lists)

static uint64_t tag_at(const part *in, uint64_t from) {
    return next_child(in, NO_ROW, from, TAG, UZ_MASTER);
}

// ---- As text ----

// Whether a record's uid is the number.
static bool has_uid(const part *in, const uid_list *list, uint64_t row, uint64_t number) {
    uint64_t uid = last_child(in, row, list->uid, UZ_UNSIGNED);
    return uid != NO_ROW && number_in(in, uid) == number;
}

// The first atom in an edition, by atoms alone, whose uid is the number.
static uint64_t atom_in(const part *in, const uid_list *list, uint64_t edition, uint64_t number) {
    unsigned level;
    for (uint64_t row = edition + 1; row < row_after(in, edition);
         row = next_nested(in, row, level)) {
        level = level_below(in, edition, row, CHAPTER_ATOM);
        if (level != NO_LEVEL && has_uid(in, list, row, number))
            return row;
    }
    return NO_ROW;
}

// The first record whose uid is the number: a track, edition or file directly in its part, or an
// atom in an edition there. Each is looked at once, however many uids it has.
static uint64_t having_uid(const part *in, const uid_list *list, uint64_t number) {
    bool atoms = list->master == CHAPTER_ATOM;
    uint64_t outer = atoms ? EDITION_ENTRY : list->master;
    uint64_t row = next_child(in, NO_ROW, 0, outer, UZ_MASTER);
    for (; row != NO_ROW; row = next_child(in, NO_ROW, row_after(in, row), outer, UZ_MASTER)) {
        uint64_t found = row;
        if (atoms)
            found = atom_in(in, list, row, number);
        else if (!has_uid(in, list, row, number))
            found = NO_ROW;
        if (found != NO_ROW)
            return found;
    }
    return NO_ROW;
}

static uint64_t name_of(const part *in, uint64_t master) {
    uint64_t display = NO_ROW;
    switch (cell(in, master, UZ_ID)) {
    case TRACK_ENTRY:
        return last_child(in, master, TRACK_NAME, UZ_UTF8);
    case CHAPTER_ATOM:
        return next_string(in, master, first_row(master), &display);
    case ATTACHED_FILE:
        return last_child(in, master, FILE_NAME, UZ_UTF8);
    }
    return NO_ROW;
}

// What a uid of the target names: its address and its name, if that is a label, or the uid if
// nothing has it.
static void tell_uid(const part *in, const uid_list *list, uint64_t number) {
    uint64_t master = having_uid(in, list, number);
    printf(" %s ", list->word);
    if (master == NO_ROW) {
        printf("uid %" PRIu64, number);
        return;
    }
    show_address(header_of(in, master));
    uint64_t name = label_in(in, name_of(in, master));
    if (name != NO_ROW) {
        putchar(' ');
        show_field(in, name);
    }
}

static void tell_target(const part all[PARTS], uint64_t target) {
    const part *in = &all[TAGS_PART];
    uint64_t value = last_child(in, target, TARGET_TYPE_VALUE, UZ_UNSIGNED);
    uint64_t type = last_child(in, target, TARGET_TYPE, UZ_STRING);
    if (value == NO_ROW)
        putchar('-');
    else
        printf("%" PRIu64, number_in(in, value));
    if (type != NO_ROW) {
        fputs(" type ", stdout);
        show_field(in, type);
    }
    for (size_t i = 0; i < LISTS; i++) {
        uint64_t row = next_child(in, target, first_row(target), lists[i].member, UZ_UNSIGNED);
        for (; row != NO_ROW;
             row = next_child(in, target, row_after(in, row), lists[i].member, UZ_UNSIGNED))
            tell_uid(&all[lists[i].part], &lists[i], number_in(in, row));
    }
}

static void tell_simple(const part *in, uint64_t simple, unsigned level) {
    uint64_t name = last_child(in, simple, TAG_NAME, UZ_UTF8);
    uint64_t value = tag_value(in, simple);
    show_indent(level + 1);
    show_address(header_of(in, simple));
    putchar(' ');
    show_field(in, name);
    putchar(' ');
    if (value == NO_ROW) {
        putchar('-');
    } else {
        show_address(payload_of(in, value).at);
        putchar(' ');
        show_field(in, value);
    }
    putchar('\n');
}

void tell_tags(const part all[PARTS]) {
    const part *in = &all[TAGS_PART];
    for (uint64_t tag = tag_at(in, 0); tag != NO_ROW; tag = tag_at(in, row_after(in, tag))) {
        uint64_t target = last_child(in, tag, TARGETS, UZ_MASTER);
        fputs("tag ", stdout);
        show_address(header_of(in, tag));
        fputs(" target ", stdout);
        if (target == NO_ROW)
            putchar('-');
        else
            tell_target(all, target);
        putchar('\n');
        unsigned level;
        for (uint64_t row = tag + 1; row < row_after(in, tag); row = next_nested(in, row, level)) {
            level = level_below(in, tag, row, SIMPLE_TAG);
            if (level != NO_LEVEL)
                tell_simple(in, row, level);
        }
    }
}

// ---- As JSON ----

static void json_target(const part *in, uint64_t target) {
    if (target == NO_ROW) {
        json_null("target");
        return;
    }
    json_open("target", '{', false);
    json_number("at", header_of(in, target));
    json_field("value", in, last_child(in, target, TARGET_TYPE_VALUE, UZ_UNSIGNED));
    json_field("type", in, last_child(in, target, TARGET_TYPE, UZ_STRING));
    for (size_t i = 0; i < LISTS; i++) {
        json_open(lists[i].key, '[', false);
        uint64_t row = next_child(in, target, first_row(target), lists[i].member, UZ_UNSIGNED);
        for (; row != NO_ROW;
             row = next_child(in, target, row_after(in, row), lists[i].member, UZ_UNSIGNED))
            json_field(NULL, in, row);
        json_close(']');
    }
    json_close('}');
}

static void json_simple(const part *in, uint64_t simple, unsigned level) {
    uint64_t value = tag_value(in, simple);
    bool binary = value != NO_ROW && cell(in, value, UZ_KIND) == UZ_BINARY;
    json_open(NULL, '{', true);
    json_number("at", header_of(in, simple));
    json_nested(in, simple, level);
    json_field("name", in, last_child(in, simple, TAG_NAME, UZ_UTF8));
    json_field("language", in, language_of(in, simple, TAG_LANGUAGE_IETF, TAG_LANGUAGE));
    json_flag("default", in, last_child(in, simple, TAG_DEFAULT, UZ_UNSIGNED));
    json_field("string", in, binary ? NO_ROW : value);
    json_field("binary", in, binary ? value : NO_ROW);
    json_close('}');
}

void json_tags(const part *in) {
    json_open("tags", '[', true);
    for (uint64_t tag = tag_at(in, 0); tag != NO_ROW; tag = tag_at(in, row_after(in, tag))) {
        json_open(NULL, '{', true);
        json_number("at", header_of(in, tag));
        json_target(in, last_child(in, tag, TARGETS, UZ_MASTER));
        json_open("simple", '[', false);
        unsigned level;
        for (uint64_t row = tag + 1; row < row_after(in, tag); row = next_nested(in, row, level)) {
            level = level_below(in, tag, row, SIMPLE_TAG);
            if (level != NO_LEVEL)
                json_simple(in, row, level);
        }
        json_close(']');
        json_close('}');
    }
    json_close(']');
}

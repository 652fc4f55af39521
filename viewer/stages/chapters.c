// Editions, and the atoms in them: a stage stands below the atom that holds it, wherever its name
// stands.
#include "chapters.h"

#include "field.h"
#include "ids.h"
#include "json.h"
#include "show.h"
#include "unproved.h"

#include <inttypes.h>
#include <stdlib.h>

static uint64_t edition_at(const part *in, uint64_t from) {
    return next_child(in, NO_ROW, from, EDITION_ENTRY, UZ_MASTER);
}

static uint64_t field(const part *in, uint64_t row, uint64_t id) {
    return last_child(in, row, id, UZ_UNSIGNED);
}

// Unset flags count as Matroska's defaults: shown, and enabled.
static bool is_hidden(const part *in, uint64_t atom) {
    return flag_in(in, field(in, atom, CHAPTER_FLAG_HIDDEN), false);
}

static bool is_enabled(const part *in, uint64_t atom) {
    return flag_in(in, field(in, atom, CHAPTER_FLAG_ENABLED), true);
}

// ---- As text ----

static void tell_time(const part *in, uint64_t row) {
    if (row == NO_ROW)
        putchar('-');
    else
        show_time(number_in(in, row));
    putchar(' ');
}

// The label, which is the first string that is set; behind it each further one, after its language.
// An empty first one is no label, and none of the others takes its place.
static void tell_name(const part *in, uint64_t atom) {
    uint64_t display = NO_ROW;
    uint64_t string = next_string(in, atom, first_row(atom), &display);
    putchar(' ');
    show_field(in, label_in(in, string));
    while (string != NO_ROW) {
        string = next_string(in, atom, row_after(in, display), &display);
        if (string == NO_ROW)
            break;
        putchar(' ');
        show_code(in, language_of(in, display, CHAP_LANGUAGE_IETF, CHAP_LANGUAGE));
        putchar(' ');
        show_field(in, string);
    }
}

// An atom among its siblings.
typedef struct {
    uint64_t row;
    bool starts;
    uint64_t start;
} sibling;

static int in_order(const void *left, const void *right) {
    const sibling *a = left;
    const sibling *b = right;
    if (a->starts != b->starts)
        return a->starts ? -1 : 1;
    if (a->start != b->start)
        return a->start < b->start ? -1 : 1;
    return a->row < b->row ? -1 : a->row > b->row;
}

// The siblings of all levels that are being told. Each is a row of its own, so a table's rows are
// room enough.
static sibling siblings[UZ_MOST_ROWS];

static void tell_atoms(const part *in, uint64_t parent, unsigned level, sibling *room) {
    size_t count = 0;
    uint64_t row = next_child(in, parent, first_row(parent), CHAPTER_ATOM, UZ_MASTER);
    for (; row != NO_ROW;
         row = next_child(in, parent, row_after(in, row), CHAPTER_ATOM, UZ_MASTER)) {
        uint64_t start = field(in, row, CHAPTER_TIME_START);
        bool starts = start != NO_ROW;
        room[count++] = (sibling){row, starts, starts ? number_in(in, start) : 0};
    }
    qsort(room, count, sizeof *room, in_order);
    for (size_t i = 0; i < count; i++) {
        uint64_t atom = room[i].row;
        show_indent(level);
        tell_time(in, field(in, atom, CHAPTER_TIME_START));
        tell_time(in, field(in, atom, CHAPTER_TIME_END));
        show_address(header_of(in, atom));
        tell_name(in, atom);
        if (is_hidden(in, atom))
            fputs(" hidden", stdout);
        if (!is_enabled(in, atom))
            fputs(" disabled", stdout);
        putchar('\n');
        tell_atoms(in, atom, level + 1, room + count);
    }
}

void tell_chapters(const part *chapters) {
    for (uint64_t row = edition_at(chapters, 0); row != NO_ROW;
         row = edition_at(chapters, row_after(chapters, row))) {
        uint64_t uid = field(chapters, row, EDITION_UID);
        fputs("edition ", stdout);
        show_address(header_of(chapters, row));
        if (uid != NO_ROW)
            printf(" uid %" PRIu64, number_in(chapters, uid));
        if (flag_in(chapters, field(chapters, row, EDITION_FLAG_DEFAULT), false))
            fputs(" default", stdout);
        if (flag_in(chapters, field(chapters, row, EDITION_FLAG_HIDDEN), false))
            fputs(" hidden", stdout);
        if (flag_in(chapters, field(chapters, row, EDITION_FLAG_ORDERED), false))
            fputs(" ordered", stdout);
        putchar('\n');
        tell_atoms(chapters, row, 1, siblings);
    }
}

// ---- As JSON ----

static void json_display(const part *in, uint64_t display) {
    json_open(NULL, '{', false);
    json_number("at", header_of(in, display));
    json_field("string", in, last_child(in, display, CHAP_STRING, UZ_UTF8));
    json_field("language", in, language_of(in, display, CHAP_LANGUAGE_IETF, CHAP_LANGUAGE));
    json_close('}');
}

static void json_atom(const part *in, uint64_t atom, unsigned level) {
    json_open(NULL, '{', true);
    json_number("at", header_of(in, atom));
    json_nested(in, atom, level);
    json_field("uid", in, field(in, atom, CHAPTER_UID));
    json_field("start", in, field(in, atom, CHAPTER_TIME_START));
    json_field("end", in, field(in, atom, CHAPTER_TIME_END));
    json_flag("hidden", in, field(in, atom, CHAPTER_FLAG_HIDDEN));
    json_flag("enabled", in, field(in, atom, CHAPTER_FLAG_ENABLED));
    json_open("marks", '[', false);
    if (is_hidden(in, atom))
        json_word(NULL, "hidden");
    if (!is_enabled(in, atom))
        json_word(NULL, "disabled");
    json_close(']');
    uint64_t display = NO_ROW;
    json_field("name", in, label_in(in, next_string(in, atom, first_row(atom), &display)));
    json_open("displays", '[', false);
    uint64_t row = next_child(in, atom, first_row(atom), CHAPTER_DISPLAY, UZ_MASTER);
    for (; row != NO_ROW;
         row = next_child(in, atom, row_after(in, row), CHAPTER_DISPLAY, UZ_MASTER))
        json_display(in, row);
    json_close(']');
    json_close('}');
}

static void json_edition(const part *in, uint64_t edition) {
    json_open(NULL, '{', true);
    json_number("at", header_of(in, edition));
    json_field("uid", in, field(in, edition, EDITION_UID));
    json_flag("hidden", in, field(in, edition, EDITION_FLAG_HIDDEN));
    json_flag("default", in, field(in, edition, EDITION_FLAG_DEFAULT));
    json_flag("ordered", in, field(in, edition, EDITION_FLAG_ORDERED));
    json_open("atoms", '[', false);
    unsigned level;
    for (uint64_t row = edition + 1; row < row_after(in, edition);
         row = next_nested(in, row, level)) {
        level = level_below(in, edition, row, CHAPTER_ATOM);
        if (level != NO_LEVEL)
            json_atom(in, row, level);
    }
    json_close(']');
    json_close('}');
}

void json_chapters(const part *chapters) {
    json_open("editions", '[', true);
    for (uint64_t row = edition_at(chapters, 0); row != NO_ROW;
         row = edition_at(chapters, row_after(chapters, row)))
        json_edition(chapters, row);
    json_close(']');
}

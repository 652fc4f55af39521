// stages: a viewer of bench recordings, on the C face of the reader. Here: what is asked and
// listed, and the status. viewer/README.md says what is printed.
#include "arguments.h"
#include "attachments.h"
#include "chapters.h"
#include "faults.h"
#include "help.h"
#include "json.h"
#include "parts.h"
#include "remarks.h"
#include "show.h"
#include "tags.h"
#include "tell.h"
#include "tracks.h"
#include "unproved.h"
#include "whose.h"

#include <inttypes.h>
#include <string.h>

// The parts that are not there, in one line on standard error, and what is worth a note. That is no
// fault.
static void tell_absent(const part all[PARTS], const remarks *odd) {
    char words[80] = "not in the recording:";
    size_t length = strlen(words);
    size_t before = length;
    for (unsigned i = 0; i < PARTS; i++)
        if (all[i].reply.refused == UZ_ACCEPTED && all[i].reply.found == 0 && odd->stands[i] == 0)
            length += (size_t)snprintf(words + length, sizeof words - length, "%s %s",
                                       length > before ? "," : "", all[i].name);
    if (length > before && !odd->unfinished)
        fault(all->from->name, words);
    if (odd->note[0] != '\0')
        fault(all->from->name, odd->note);
}

static int list(const recording *from) {
    part all[PARTS];
    remarks odd;
    find_parts(from, all);
    find_remarks(from, all, &odd);
    tell_chapters(&all[CHAPTERS_PART]);
    tell_tags(all);
    tell_tracks(&all[TRACKS_PART]);
    tell_attachments(&all[ATTACHMENTS_PART]);
    fflush(stdout);
    tell_absent(all, &odd);
    return tell_faults(all, PARTS, &odd);
}

// An id as it is written everywhere else, in hexadecimal digits.
static void json_id(const char *key, uint64_t id) {
    char digits[17];
    snprintf(digits, sizeof digits, "%" PRIX64, id);
    json_word(key, digits);
}

// The number, where it broke, the id of the element that stands there, and the words.
static void json_refusal(const part *of) {
    uint64_t number = of->reply.refused;
    uz_words words = uz_refusal_words(number);
    header there;
    json_number("refused", number);
    if (number == UZ_INVALID_SEEK_HEAD)
        json_id("entry", of->reply.id);
    if (has_address(number))
        json_number("refused_at", of->reply.refused_at);
    else
        json_null("refused_at");
    if (has_address(number) && read_header(of->from, of->reply.refused_at, &there) == UZ_ACCEPTED)
        json_id("there", there.id);
    else
        json_null("there");
    json_word("meaning", words.meaning);
    json_word("where", words.where);
    json_word("next", words.next);
}

static void json_part(const part *of, uint64_t stands) {
    json_open(NULL, '{', true);
    json_word("name", of->name);
    json_id("id", of->id);
    if (of->reply.refused != UZ_ACCEPTED) {
        json_word("state", "refused");
        json_refusal(of);
    } else {
        json_word("state", of->reply.found ? "found" : "absent");
        json_number("heads", of->reply.heads);
    }
    if (of->reply.found) {
        json_number("at", of->reply.at);
        json_number("size", of->reply.size);
        json_number("rows", of->reply.rows);
    } else if (stands != 0) {
        json_number("stands", stands);
    } else {
        json_null("stands");
    }
    json_close('}');
}

static int list_json(const recording *from) {
    part all[PARTS];
    remarks odd;
    find_parts(from, all);
    find_remarks(from, all, &odd);
    json_open(NULL, '{', false);
    json_number("length", from->length);
    json_word("mode", from->mode == UZ_LIVE ? "live" : "plain");
    json_open("parts", '[', true);
    for (unsigned i = 0; i < PARTS; i++)
        json_part(&all[i], odd.stands[i]);
    json_close(']');
    json_open("remarks", '[', true);
    for (unsigned i = 0; i < odd.count; i++) {
        json_open(NULL, '{', true);
        json_word("remark", odd.all[i].words);
        json_word("next", odd.all[i].next);
        json_close('}');
    }
    json_close(']');
    if (odd.note[0] != '\0')
        json_word("note", odd.note);
    else
        json_null("note");
    json_chapters(&all[CHAPTERS_PART]);
    json_tags(&all[TAGS_PART]);
    json_tracks(&all[TRACKS_PART]);
    json_attachments(&all[ATTACHMENTS_PART]);
    json_end();
    fflush(stdout);
    return tell_faults(all, PARTS, &odd);
}

static int answer(const arguments *asked) {
    recording from;
    int status = recording_open(asked->words[0], &from);
    if (status != 0)
        return status;
    from.mode = asked->live ? UZ_LIVE : UZ_PLAIN;
    if (asked->json)
        status = list_json(&from);
    else if (asked->count == 1)
        status = list(&from);
    else if (asked->address >= from.length)
        status = fault(from.name, "the address is past the last byte");
    else
        status = tell_whose(&from, asked->address);
    recording_close(&from);
    return status;
}

int main(int count, char **words) {
    arguments asked = {{NULL, NULL}, 0, false, false, false, 0};
    int status = count > 0 ? read_arguments(words, &asked) : 2;
    if (status != 0)
        return status;
    if (asked.help)
        fputs(help_text, stdout);
    else
        status = answer(&asked);
    // A full disk shows at the latest when the last bytes are written.
    if (fflush(stdout) != 0 || ferror(stdout) != 0)
        return fault("standard output", "the answer can't be written");
    return status;
}

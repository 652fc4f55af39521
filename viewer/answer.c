// Answers questions of docs/ASK.md through the C face: the lines `part`, `open`, `whose`, `range`, `shown` and `owner`,
// which are put to the calls of include/uzrafmed.h, all but `range` in live mode where the word `live` stands in front.
// So the replies of the C face can be compared with the crate's, as those of `ask` are:
//
//   UZ_ASK=target/viewer/answer oracle/compare 1 20000 part open whose range shown owner
//
// One line of standard input, one line of standard output. A line that is none of these questions, or breaks the rules
// of docs/ASK.md, is answered `bad question`.
//
// Status 0: the input is used up. Status 1: the input can't be held or read, or the answers can't be written.
#include "uzrafmed.h"

#include <inttypes.h>
#include <stdbool.h>
#include <stdio.h>
#include <stdlib.h>
#include <string.h>

// The limits of docs/ASK.md: bytes of a line, bytes of a recording, numbers of a table.
#define MOST_LINE 1048576
#define MOST_RECORDING 65536
#define MOST_TABLE 36000

// The most words that a question has, behind `live`.
#define MOST_WORDS 7

// A word of a line. Nothing ends it but its length.
typedef struct {
    const char *at;
    size_t length;
} word;

// A line taken apart; a count of 0 says that it is no question.
typedef struct {
    word words[MOST_WORDS];
    size_t count;
} question;

// What a question lends to a call.
static uint8_t recording[MOST_RECORDING];
static size_t length;
static uint64_t table[MOST_TABLE];
static size_t numbers;
static uint32_t mode;

// ---- Words ----

// Takes a line apart at single spaces.
static question taken_apart(const char *line, size_t size)
{
    question q = {.count = 0};
    const char *end = line + size;
    for (const char *at = line;;) {
        const char *space = memchr(at, ' ', (size_t)(end - at));
        const char *past = space != NULL ? space : end;
        if (past == at || q.count == MOST_WORDS) return (question){.count = 0};
        q.words[q.count++] = (word){at, (size_t)(past - at)};
        if (space == NULL) return q;
        at = space + 1;
    }
}

static bool is(word w, const char *text) { return w.length == strlen(text) && memcmp(w.at, text, w.length) == 0; }

// The value of a digit, or 16.
static unsigned digit_of(char c)
{
    if (c >= '0' && c <= '9') return (unsigned)(c - '0');
    if (c >= 'A' && c <= 'F') return (unsigned)(c - 'A') + 10;
    if (c >= 'a' && c <= 'f') return (unsigned)(c - 'a') + 10;
    return 16;
}

// A number in a base, of at most `most`.
static bool number_in(word w, unsigned base, uint64_t most, uint64_t *value)
{
    *value = 0;
    for (size_t i = 0; i < w.length; i++) {
        unsigned digit = digit_of(w.at[i]);
        if (digit >= base || *value > (most - digit) / base) return false;
        *value = *value * base + digit;
    }
    return w.length > 0;
}

static bool decimal(word w, uint64_t *value) { return number_in(w, 10, UINT64_MAX, value); }

static bool id_of(word w, uint32_t *id)
{
    uint64_t value;
    bool good = number_in(w, 16, UINT32_MAX, &value);
    *id = good ? (uint32_t)value : 0;
    return good;
}

static bool take_recording(word w)
{
    length = 0;
    if (is(w, "-")) return true;
    if (w.length % 2 != 0 || w.length / 2 > MOST_RECORDING) return false;
    for (size_t i = 0; i < w.length; i += 2) {
        unsigned high = digit_of(w.at[i]), low = digit_of(w.at[i + 1]);
        if (high == 16 || low == 16) return false;
        recording[length++] = (uint8_t)(high * 16 + low);
    }
    return true;
}

// Numbers that are lent to be written, as many as a word says: each is 2^64-1 before the call.
static bool lend_to(word w, uint64_t *to, size_t *lent)
{
    uint64_t count;
    if (!decimal(w, &count) || count > MOST_TABLE) return false;
    *lent = (size_t)count;
    memset(to, 0xFF, *lent * sizeof *to);
    return true;
}

static bool lend_table(word w) { return lend_to(w, table, &numbers); }

// A table that the question gives, its numbers parted by commas.
static bool take_table(word w)
{
    numbers = 0;
    if (is(w, "-")) return true;
    const char *end = w.at + w.length;
    for (const char *at = w.at;;) {
        const char *comma = memchr(at, ',', (size_t)(end - at));
        const char *past = comma != NULL ? comma : end;
        if (numbers == MOST_TABLE || !decimal((word){at, (size_t)(past - at)}, &table[numbers])) return false;
        numbers++;
        if (comma == NULL) return true;
        at = comma + 1;
    }
}

// ---- Answers ----

static bool are_zeros(const uint64_t *from, size_t first, size_t count)
{
    for (size_t i = first; i < count; i++) {
        if (from[i] != 0) return false;
    }
    return true;
}

// A refusal, with the id for 8, and the address where it broke. The table of a call that was to write one is told too.
static void tell_refusal(uint64_t refused, uint64_t id, uint64_t at, bool writes)
{
    printf("refused %" PRIu64, refused);
    if (refused == UZ_INVALID_SEEK_HEAD) printf(" %" PRIX64, id);
    printf(" at %" PRIu64, at);
    if (writes) fputs(are_zeros(table, 0, numbers) ? " table 0" : " table dirty", stdout);
}

// The count of rows as it was replied, the rows that lie in a table of so many numbers, and what is beyond them.
static void tell_rows(uint64_t rows, const uint64_t *from, size_t count)
{
    printf(" rows %" PRIu64, rows);
    size_t told = rows < count / UZ_WIDTH ? (size_t)rows : count / UZ_WIDTH;
    for (size_t row = 0; row < told; row++) {
        const uint64_t *r = from + row * UZ_WIDTH;
        printf(" / %" PRIX64, r[UZ_ID]);
        for (size_t column = UZ_PARENT; column < UZ_WIDTH; column++) printf(" %" PRIu64, r[column]);
    }
    fputs(are_zeros(from, told * UZ_WIDTH, count) ? " rest 0" : " rest dirty", stdout);
}

static void tell_table(uint64_t rows) { tell_rows(rows, table, numbers); }

// part ID NUMBERS BYTES
static bool answer_part(const question *q)
{
    uint32_t id;
    if (q->count != 4 || !id_of(q->words[1], &id) || !lend_table(q->words[2]) || !take_recording(q->words[3]))
        return false;
    uz_part part = uz_find_part(recording, length, id, table, numbers, mode);
    if (part.refused != 0) {
        tell_refusal(part.refused, part.id, part.refused_at, true);
        return true;
    }
    if (part.found != 0)
        printf("at %" PRIu64 " size %" PRIu64 " heads %" PRIu64, part.at, part.size, part.heads);
    else
        printf("absent heads %" PRIu64, part.heads);
    tell_table(part.rows);
    return true;
}

// open NUMBERS NUMBERS NUMBERS NUMBERS NUMBERS BYTES, for Info, Tracks, Attachments, Chapters and Tags
#define FIVE 5
static bool answer_open(const question *q)
{
    static uint64_t of[FIVE][MOST_TABLE];
    static const char *const names[FIVE] = {"info", "tracks", "attachments", "chapters", "tags"};
    size_t n[FIVE];
    if (q->count != 7 || !take_recording(q->words[6])) return false;
    for (size_t i = 0; i < FIVE; i++) {
        if (!lend_to(q->words[1 + i], of[i], &n[i])) return false;
    }
    uz_opened said = uz_open(recording, length, of[0], n[0], of[1], n[1], of[2], n[2], of[3], n[3], of[4], n[4], mode);
    if (said.refused != 0) {
        bool zeros = true;
        for (size_t i = 0; i < FIVE; i++) zeros = zeros && are_zeros(of[i], 0, n[i]);
        tell_refusal(said.refused, said.id, said.refused_at, false);
        fputs(zeros ? " tables 0" : " tables dirty", stdout);
        return true;
    }
    const uz_found found[FIVE] = {said.info, said.tracks, said.attachments, said.chapters, said.tags};
    printf("heads %" PRIu64, said.heads);
    for (size_t i = 0; i < FIVE; i++) {
        printf(" %s ", names[i]);
        if (found[i].found != 0)
            printf("at %" PRIu64 " size %" PRIu64, found[i].at, found[i].size);
        else
            fputs("absent", stdout);
        tell_rows(found[i].rows, of[i], n[i]);
    }
    return true;
}

// whose START SIZE PARENT ADDRESS NUMBERS BYTES
static bool answer_whose(const question *q)
{
    uint64_t start, size, address;
    uint32_t parent;
    if (q->count != 7 || !decimal(q->words[1], &start) || !decimal(q->words[2], &size) ||
        !id_of(q->words[3], &parent) || !decimal(q->words[4], &address) || !lend_table(q->words[5]) ||
        !take_recording(q->words[6]))
        return false;
    uz_place place = uz_whose_byte(recording, length, start, size, parent, address, table, numbers, mode);
    if (place.refused != 0) {
        tell_refusal(place.refused, 0, place.refused_at, true);
        return true;
    }
    printf("row %" PRIu64 " %s", place.row, place.in_payload != 0 ? "payload" : "header");
    tell_table(place.rows);
    return true;
}

// range N,N,.. ROW BYTES
static bool answer_range(const question *q)
{
    uint64_t row;
    if (q->count != 4 || !take_table(q->words[1]) || !decimal(q->words[2], &row) || !take_recording(q->words[3]))
        return false;
    uz_range range = uz_row_payload(recording, length, table, numbers, row);
    if (range.refused != 0)
        tell_refusal(range.refused, 0, 0, false); // 14 alone, which has the address 0
    else
        printf("at %" PRIu64 "+%" PRIu64, range.at, range.length);
    return true;
}

// shown START SIZE PARENT NUMBERS ROW BYTES
//
// The payload is read by the address question, for its first byte. A payload of no bytes has none: that is 15 then, with
// the table of zeros that a read of it leaves.
static bool answer_shown(const question *q)
{
    uint64_t start, size, row;
    uint32_t parent;
    if (q->count != 7 || !decimal(q->words[1], &start) || !decimal(q->words[2], &size) ||
        !id_of(q->words[3], &parent) || !lend_table(q->words[4]) || !decimal(q->words[5], &row) ||
        !take_recording(q->words[6]))
        return false;
    uz_place place = uz_whose_byte(recording, length, start, size, parent, start, table, numbers, mode);
    if (place.refused != 0 && !(size == 0 && place.refused == UZ_OUTSIDE)) {
        tell_refusal(place.refused, 0, place.refused_at, true);
        return true;
    }
    uz_range text = uz_shown_text(recording, length, table, numbers, row);
    if (text.refused != 0) {
        tell_refusal(text.refused, 0, 0, false);
        return true;
    }
    printf("text %" PRIu64 "+%" PRIu64 " ", text.at, text.length);
    for (uint64_t i = 0; i < text.length; i++) printf("%02X", recording[text.at + i]);
    if (text.length == 0) putchar('-');
    return true;
}

// owner START SIZE PARENT ADDRESS BYTES
//
// By both calls. The chain ends with the element, and what it has besides the reply is not asked for: an answer that
// the two do not share is told as `unlike`, which is no answer of docs/ASK.md.
static bool answer_owner(const question *q)
{
    uint64_t start, size, address, chain[UZ_MOST_LINKS];
    uint32_t parent;
    if (q->count != 6 || !decimal(q->words[1], &start) || !decimal(q->words[2], &size) ||
        !id_of(q->words[3], &parent) || !decimal(q->words[4], &address) || !take_recording(q->words[5]))
        return false;
    uz_owned owned = uz_owner(recording, length, start, size, parent, address, mode);
    uz_owned again = uz_owner_chain(recording, length, start, size, parent, address, chain, UZ_MOST_LINKS, mode);
    bool alike = owned.refused == again.refused && owned.refused_at == again.refused_at && owned.at == again.at &&
                 owned.in_payload == again.in_payload && owned.depth == again.depth && owned.depth < UZ_MOST_LINKS;
    if (!alike || chain[owned.depth] != owned.at)
        fputs("unlike", stdout);
    else if (owned.refused != 0)
        tell_refusal(owned.refused, 0, owned.refused_at, false);
    else
        printf("%s %" PRIu64, owned.in_payload != 0 ? "payload" : "header", owned.at);
    return true;
}

// A range has no mode: the table that it is asked of is given.
static bool answered(const question *q)
{
    if (q->count == 0) return false;
    if (is(q->words[0], "part")) return answer_part(q);
    if (is(q->words[0], "open")) return answer_open(q);
    if (is(q->words[0], "whose")) return answer_whose(q);
    if (is(q->words[0], "range") && mode == UZ_PLAIN) return answer_range(q);
    if (is(q->words[0], "shown")) return answer_shown(q);
    if (is(q->words[0], "owner")) return answer_owner(q);
    return false;
}

// ---- Lines ----

static char line[MOST_LINE];

// A line without the word `live` and the space behind it, if they stand in front. That sets the mode.
static question put(const char *from, size_t size)
{
    static const char live[] = "live ";
    size_t past = sizeof live - 1;
    mode = size > past && memcmp(from, live, past) == 0 ? UZ_LIVE : UZ_PLAIN;
    return mode == UZ_LIVE ? taken_apart(from + past, size - past) : taken_apart(from, size);
}

int main(void)
{
    int c = getchar();
    while (c != EOF) {
        size_t size = 0;
        while (c != EOF && c != '\n') {
            if (size < MOST_LINE) line[size++] = (char)c;
            c = getchar();
        }
        if (c == '\n') c = getchar();
        question q = size < MOST_LINE ? put(line, size) : (question){.count = 0};
        if (!answered(&q)) fputs("bad question", stdout);
        putchar('\n');
    }
    if (ferror(stdin) || fflush(stdout) != 0 || ferror(stdout)) {
        fputs("answer: standard input can't be read, or standard output not written\n", stderr);
        return EXIT_FAILURE;
    }
    return EXIT_SUCCESS;
}

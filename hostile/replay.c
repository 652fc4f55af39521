// Asks kept questions again, of the archive as it is shipped or of one that counts its steps.
//
//   replay FILE..          prints what each question gives, in both modes where they differ; FILE
//   is
//                          laid out as question.h says
//   replay --cost FILE..   prints the dearest call of each: nanoseconds and steps, in all and a
//   byte replay --sizes FILE..  prints how the time grows with the size, for shapes made here and
//   for each
//                          file, whose widest master then holds its elements over and over
//
// Everything that question.h checks is checked. Status 1, and a line, at the first thing wrong.
#define _GNU_SOURCE
#include "question.h"
#include "trees.h"

#include <inttypes.h>
#include <stdlib.h>

void hostile_step(void);

// An archive that counts calls this at each block of instructions.
void hostile_step(void) {
    steps++;
}

static const char *about = "";
static uint64_t checks;
static bool telling;

static void check(bool good, const char *what) {
    checks++;
    if (good)
        return;
    fflush(stdout);
    fprintf(stderr, "replay: wrong: %s: %s\n", about, what);
    exit(1);
}

static void give_up(const char *what) {
    fprintf(stderr, "replay: %s: %s\n", about, what);
    exit(1);
}

// ---- What is told ----

static cost dearest;
static uint64_t calls;

// What is told of the mode that is asked now, plain or live, is gathered: what live mode says is
// printed where it is something else.
static char *said_in[2];
static size_t said_length[2];
static FILE *sayings;

static void end_saying(void) {
    if (sayings != NULL && fclose(sayings) != 0)
        give_up("there is no memory for an answer");
    sayings = NULL;
}

static void told_mode(void) {
    end_saying();
    free(said_in[mode]);
    said_in[mode] = NULL;
    sayings = open_memstream(&said_in[mode], &said_length[mode]);
    if (sayings == NULL)
        give_up("there is no memory for an answer");
}

static void print_said(void) {
    end_saying();
    printf("%s", said_in[UZ_PLAIN]);
    if (said_in[UZ_LIVE] != NULL && strcmp(said_in[UZ_PLAIN], said_in[UZ_LIVE]) == 0)
        printf("live: the same\n");
    else if (said_in[UZ_LIVE] != NULL)
        printf("live:\n%s", said_in[UZ_LIVE]);
    free(said_in[UZ_LIVE]);
    said_in[UZ_LIVE] = NULL;
}

static bool is_telling(void) {
    return telling && mode <= UZ_LIVE;
}

static double each(uint64_t all, uint64_t bytes) {
    return (double)all / (double)(bytes + 1);
}

static void told(cost of) {
    calls++;
    bool more = dearest.steps != of.steps ? of.steps > dearest.steps : of.time > dearest.time;
    if (dearest.call == NULL || more)
        dearest = of;
}

// FNV-1a over the numbers of the table.
static uint64_t digest(lent in) {
    uint64_t sum = UINT64_C(0xCBF29CE484222325);
    const uint8_t *bytes = (const uint8_t *)(const void *)in.table;
    for (size_t i = 0; i < in.numbers * sizeof(uint64_t); i++)
        sum = (sum ^ bytes[i]) * UINT64_C(0x100000001B3);
    return sum;
}

// Some rows by their numbers, all by the digest.
static void tell_rows(uint64_t rows, lent in) {
    fprintf(sayings, " rows %" PRIu64 " table %016" PRIX64 "\n", rows, digest(in));
    for (uint64_t row = 0; row < rows && row < 6; row++)
        fprintf(sayings,
                "  %" PRIX64 " %" PRIu64 " %" PRIu64 " %" PRIu64 " %" PRIu64 " %" PRIu64 " %" PRIu64
                " %" PRIu64 "\n",
                cell(in, row, UZ_ID), cell(in, row, UZ_PARENT), cell(in, row, UZ_ADDRESS),
                cell(in, row, UZ_HEADER), cell(in, row, UZ_PAYLOAD), cell(in, row, UZ_KIND),
                cell(in, row, UZ_DEPTH), cell(in, row, UZ_AFTER));
    if (rows > 6)
        fprintf(sayings, "  ...\n");
}

static void told_part(uint32_t part, uz_part said, lent in) {
    if (!is_telling())
        return;
    fprintf(sayings, "find %" PRIX32 ":", part);
    if (said.refused == UZ_INVALID_SEEK_HEAD)
        fprintf(sayings, " refused 8 id %" PRIX64 " at %" PRIu64 "\n", said.id, said.refused_at);
    else if (said.refused != UZ_ACCEPTED)
        fprintf(sayings, " refused %" PRIu64 " at %" PRIu64 "\n", said.refused, said.refused_at);
    else if (said.found == 0)
        fprintf(sayings, " absent heads %" PRIu64 "\n", said.heads);
    else {
        fprintf(sayings, " at %" PRIu64 " size %" PRIu64 " heads %" PRIu64, said.at, said.size,
                said.heads);
        tell_rows(said.rows, in);
    }
}

static void told_open(uz_opened said, const lent in[FIVE]) {
    static const char *const parts_of[FIVE] = {"Info", "Tracks", "Attachments", "Chapters", "Tags"};
    if (!is_telling())
        return;
    fprintf(sayings, "open:");
    if (said.refused == UZ_INVALID_SEEK_HEAD)
        fprintf(sayings, " refused 8 id %" PRIX64 " at %" PRIu64 "\n", said.id, said.refused_at);
    else if (said.refused != UZ_ACCEPTED)
        fprintf(sayings, " refused %" PRIu64 " at %" PRIu64 "\n", said.refused, said.refused_at);
    else
        fprintf(sayings, " heads %" PRIu64 "\n", said.heads);
    for (size_t i = 0; said.refused == UZ_ACCEPTED && i < FIVE; i++) {
        uz_found of = *found_in(&said, i);
        fprintf(sayings, " %s", parts_of[i]);
        if (of.found == 0) {
            fprintf(sayings, " absent\n");
            continue;
        }
        fprintf(sayings, " at %" PRIu64 " size %" PRIu64, of.at, of.size);
        tell_rows(of.rows, in[i]);
    }
}

static void told_place(uz_place said, lent in) {
    if (!is_telling())
        return;
    if (said.refused != UZ_ACCEPTED) {
        fprintf(sayings, "whose: refused %" PRIu64 " at %" PRIu64 "\n", said.refused,
                said.refused_at);
        return;
    }
    fprintf(sayings, "whose: row %" PRIu64 " %s", said.row,
            said.in_payload != 0 ? "payload" : "header");
    tell_rows(said.rows, in);
}

static void tell_range(const char *call, uint64_t row, uz_range said) {
    if (!is_telling())
        return;
    if (said.refused != UZ_ACCEPTED)
        fprintf(sayings, "%s %" PRIu64 ": refused %" PRIu64 "\n", call, row, said.refused);
    else
        fprintf(sayings, "%s %" PRIu64 ": at %" PRIu64 " length %" PRIu64 "\n", call, row, said.at,
                said.length);
}

static void told_range(uint64_t row, uz_range said) {
    tell_range("payload", row, said);
}

static void told_text(uint64_t row, uz_range said) {
    tell_range("text", row, said);
}

static void tell_broken(uz_owned said) {
    fprintf(sayings, " refused %" PRIu64 " at %" PRIu64 "\n", said.refused, said.refused_at);
}

static void told_owner(uz_owned said, uz_owned chained, lent chain) {
    if (!is_telling())
        return;
    fprintf(sayings, "owner:");
    if (said.refused != UZ_ACCEPTED)
        tell_broken(said);
    else
        fprintf(sayings, " %s %" PRIu64 " depth %" PRIu64 "\n",
                said.in_payload != 0 ? "payload" : "header", said.at, said.depth);
    fprintf(sayings, "chain of %zu:", chain.numbers);
    if (chained.refused != UZ_ACCEPTED) {
        tell_broken(chained);
        return;
    }
    for (size_t i = 0; i < chain.numbers; i++)
        fprintf(sayings, " %" PRIu64, chain.table[i]);
    fprintf(sayings, "\n");
}

// ---- Files ----

static uint8_t data[HEAD + MOST_RECORDING];

static bool read_question(const char *name, question *to) {
    about = name;
    FILE *file = fopen(name, "rb");
    if (file == NULL)
        give_up("can't be read");
    size_t length = fread(data, 1, sizeof data, file);
    if (ferror(file) || fgetc(file) != EOF)
        give_up("can't be read, or is too long");
    fclose(file);
    return as_question(data, length, to);
}

static void tell_question(const question *put_) {
    static const char *const names[] = {"find",     "whose", "payload", "all",
                                        "too long", "text",  "owner",   "open"};
    printf("%s id %" PRIX32 " numbers %zu start %" PRIu64 " size %" PRIu64 " address %" PRIu64
           " bytes %zu\n",
           names[put_->call], put_->id, put_->numbers, put_->start, put_->size, put_->address,
           put_->length);
}

// ---- Sizes ----

static uint8_t written[MOST_RECORDING];

#define GROWN (8 << 20)

static int leaf_of(uint32_t id, const char *bytes, size_t length, size_t times) {
    int made = new_node(id);
    nodes[made].bytes = (const uint8_t *)bytes;
    nodes[made].length = length;
    nodes[made].times = times;
    return made;
}

static int master_of(uint32_t id, int first) {
    int made = new_node(id);
    nodes[made].holds = true;
    nodes[made].first = first;
    return made;
}

// The least of some times of one question, and its steps.
static cost measured(question asked) {
    cost least = {NULL, 0, 0, 0, 0};
    // Short ones more often, since other programs disturb them more.
    for (unsigned n = 0; n < 3 || (n < 40 && least.time < 5000000); n++) {
        dearest.call = NULL;
        ask(&asked);
        if (n == 0 || dearest.time < least.time)
            least = dearest;
    }
    return least;
}

static cost before;

static void tell_growth(const char *name, size_t size, question asked) {
    about = name;
    cost now_ = measured(asked);
    printf("| %s | %zu | %" PRIu64 " | %.2f | %" PRIu64 " | %.2f |", name, size, now_.time,
           each(now_.time, now_.bytes), now_.steps, each(now_.steps, now_.bytes));
    if (before.call != NULL)
        printf(" %.2f |\n", (double)now_.time / (double)(before.time + 1));
    else
        printf(" |\n");
    fflush(stdout);
    before = now_;
}

// 64 seek heads over one another. The headers stand first, all but one in a Void; then the fill,
// which every head holds; then the entries. A head ends behind the entry that leads to the next, so
// that this is its last, and wins.
static void heads_over_one_another(output *to, size_t fill) {
    static const uint8_t tiny[] = {0xEC, 0x80};
    const size_t links = UZ_MOST_HEADS - 1, entry = 3 + 7 + 11;
    const size_t entries = 12 + 12 + links * 14 + fill / 2 * 2;
    put_big(to, SEGMENT, 4);
    put_size(to, entries + links * entry - 12, 8);
    for (size_t i = 0; i <= links; i++) {
        if (i > 0) {
            put_big(to, VOID, 1);
            put_size(to, 12, 1);
        }
        put_big(to, SEEK_HEAD, 4);
        put_size(to, entries + (links - i) * entry - to->length - 8, 8);
    }
    while (to->length < entries)
        put(to, tiny, 2);
    for (size_t i = links; i > 0; i--) {
        put_big(to, SEEK, 2);
        put_size(to, 7 + 11, 1);
        put_big(to, SEEK_ID, 2);
        put_size(to, 4, 1);
        put_big(to, SEEK_HEAD, 4);
        put_big(to, SEEK_POSITION, 2);
        put_size(to, 8, 1);
        // The header of head i, counted from the segment's start.
        put_big(to, 12 + 14 * (i - 1) + 2, 8);
    }
}

// The header of an element of unknown size.
static void put_open(output *to, uint32_t id) {
    put_big(to, id, 4);
    put_big(to, 0xFF, 1);
}

// So many tiny elements, and behind them a master with as many, down to the deepest.
static void tiny_in_masters(output *to, size_t tiny) {
    static const uint8_t element[] = {0xEC, 0x80};
    for (size_t left = UZ_MOST_DEPTH;; left--) {
        for (size_t n = 0; n < tiny; n++)
            put(to, element, sizeof element);
        if (left == 0)
            return;
        // What each master below has, and the header of all but the first.
        put_big(to, 0xAE, 1);
        put_size(to, left * tiny * sizeof element + (left - 1) * 9, 8);
    }
}

typedef enum {
    TINY_IN_HEAD,
    TINY_IN_SEGMENT,
    TINY_BEFORE_SEGMENT,
    OVER_ONE_ANOTHER,
    ASCII,
    FOUR_BYTES,
    ZEROS,
    TINY_IN_PART,
    TINY_WHOSE,
    ASCII_WHOSE,
    LIVE_BLOCKS,
    LIVE_CLUSTERS,
    LIVE_BEFORE_SEGMENT,
    SHOWN,
    TINY_OWNER,
    DEEP_OWNER,
    LONG_OWNER,
    TINY_OPEN,
    PARTS_OPEN,
    HEADS_OPEN,
    SHAPES
} shape;

static const char *const shapes[] = {
    "tiny elements in a seek head",
    "tiny elements in the segment",
    "tiny elements before the segment",
    "64 seek heads over one another, tiny elements in all",
    "a text in ASCII",
    "a text in characters of four bytes",
    "zeros",
    "tiny elements in the part (13 from 4,097 on)",
    "tiny elements, address question",
    "a text in ASCII, address question",
    "tiny blocks in a live Cluster",
    "live Clusters of no bytes",
    "tiny blocks in a live Cluster before the segment",
    "a text in ASCII, shown",
    "tiny elements, owner",
    "tiny elements in each of 15 masters, owner",
    "a body of that size, owner",
    "tiny elements in the segment, all parts at once",
    "Tags of no bytes, all parts at once, a table of 1 row",
    "64 seek heads over one another, all parts at once",
};

static void write_shape(shape of, size_t size, output *to) {
    used = 0;
    size_t tiny = size / 2;
    int inner = leaf_of(VOID, "", 0, 1), outer;
    switch (of) {
    case TINY_IN_HEAD:
        outer = master_of(SEEK_HEAD, inner);
        nodes[outer].times = tiny;
        write_tree(to, master_of(SEGMENT, outer));
        break;
    case PARTS_OPEN:
        inner = master_of(UZ_TAGS, -1);
        outer = master_of(SEGMENT, inner);
        nodes[outer].times = size / 5;
        write_tree(to, outer);
        break;
    case TINY_OPEN:
    case TINY_IN_SEGMENT:
        outer = master_of(SEGMENT, inner);
        nodes[outer].times = tiny;
        write_tree(to, outer);
        break;
    case TINY_BEFORE_SEGMENT:
    case TINY_WHOSE:
    case TINY_OWNER:
        for (size_t i = 0; i < tiny; i++)
            write_tree(to, inner);
        if (of == TINY_BEFORE_SEGMENT)
            write_tree(to, master_of(SEGMENT, -1));
        break;
    case LIVE_BLOCKS:
    case LIVE_CLUSTERS:
    case LIVE_BEFORE_SEGMENT:
        if (of != LIVE_BEFORE_SEGMENT)
            put_open(to, SEGMENT);
        do {
            put_open(to, CLUSTER);
            for (size_t n = 0; of != LIVE_CLUSTERS && n < tiny; n++)
                put(to, (const uint8_t *)"\xA3\x80", 2);
        } while (to->length < size);
        write_tree(to, master_of(of == LIVE_BEFORE_SEGMENT ? SEGMENT : UZ_TAGS, -1));
        break;
    case DEEP_OWNER:
        tiny_in_masters(to, tiny / (UZ_MOST_DEPTH + 1));
        break;
    case HEADS_OPEN:
    case OVER_ONE_ANOTHER:
        heads_over_one_another(to, size);
        break;
    case ASCII:
        inner = leaf_of(0x45A3, "a", 1, size);
        write_tree(to, master_of(SEGMENT, master_of(UZ_TAGS, inner)));
        break;
    case FOUR_BYTES:
        inner = leaf_of(0x45A3, "\xF0\x9F\x94\xA7", 4, size / 4);
        write_tree(to, master_of(SEGMENT, master_of(UZ_TAGS, inner)));
        break;
    case ZEROS:
        memset(written, 0, size);
        to->length = size;
        break;
    case TINY_IN_PART:
        outer = master_of(UZ_TAGS, inner);
        nodes[outer].times = tiny;
        write_tree(to, master_of(SEGMENT, outer));
        break;
    default:
        write_tree(to, leaf_of(0x45A3, "a", 1, size));
    }
}

static void grow_shape(shape of) {
    before.call = NULL;
    size_t least = 1 << 18, most = GROWN;
    if (of == TINY_WHOSE) {
        least = 1024;
        most = 8192;
    } else if (of == OVER_ONE_ANOTHER || of == HEADS_OPEN) {
        least = 1 << 14;
        most = 1 << 18;
    }
    for (size_t size = least; size <= most; size *= 2) {
        output to = {written, 0, sizeof written};
        write_shape(of, size, &to);
        question asked = {FIND,          0,       UZ_MOST_NUMBERS, UZ_TAGS, 0, to.length,
                          to.length - 1, written, to.length};
        if (of == TINY_WHOSE || of == ASCII_WHOSE)
            asked.call = WHOSE;
        if (of == SHOWN) {
            asked.call = TEXT;
            asked.id = UZ_UTF8;
            asked.header = (unsigned)(to.length - size);
            asked.size = size;
            asked.address = 0;
        }
        if (of >= TINY_OPEN) {
            asked.call = OPEN;
            asked.header = (1 << FIVE) - 1;
            asked.numbers = UZ_WIDTH;
        } else if (of >= TINY_OWNER) {
            asked.call = OWNER;
            asked.id = 0;
            asked.header = UZ_MOST_LINKS;
        }
        tell_growth(shapes[of], to.length, asked);
    }
}

// The question on the tree from `root` on, as it is written now.
static question written_again(question asked, int root) {
    output to = {written, 0, sizeof written};
    write_tree(&to, root);
    question again = asked;
    again.bytes = written;
    again.length = to.length;
    again.numbers = UZ_MOST_NUMBERS;
    if ((asked.call == WHOSE || asked.call == OWNER) && asked.start + asked.size >= asked.length)
        again.size = to.length - asked.start;
    return again;
}

// Doubles what one master holds, over and over: the one that makes the question dearest.
static void grow_file(const char *name, question asked) {
    static uint8_t original[1 << 20];
    before.call = NULL;
    used = 0;
    if (asked.call == PAYLOAD || asked.call == TOO_LONG || asked.call == TEXT ||
        asked.length > sizeof original)
        return;
    memcpy(original, asked.bytes, asked.length);
    recording from = {original, asked.length};
    int root = read_tree(from, 0), dear = -1;
    cost most = {NULL, 0, 0, 0, 0};
    for (int i = 0; i < used; i++) {
        if (!nodes[i].holds || nodes[i].first < 0)
            continue;
        nodes[i].times = 4;
        dearest.call = NULL;
        question again = written_again(asked, root);
        ask(&again);
        nodes[i].times = 1;
        bool more =
            dearest.steps != most.steps ? dearest.steps > most.steps : dearest.time > most.time;
        if (dear < 0 || more) {
            dear = i;
            most = dearest;
        }
    }
    if (dear < 0)
        return;
    const char *slash = strrchr(name, '/');
    for (size_t times = 1; times <= 1 << 16; times *= 2) {
        nodes[dear].times = times;
        question again = written_again(asked, root);
        if (again.length > GROWN / 8)
            break;
        tell_growth(slash != NULL ? slash + 1 : name, again.length, again);
    }
}

int main(int count, char **words) {
    make_memory();
    bool costs = count > 1 && strcmp(words[1], "--cost") == 0;
    bool sizes = count > 1 && strcmp(words[1], "--sizes") == 0;
    telling = !costs && !sizes;
    if (sizes) {
        printf("| Shape | Bytes | Nanoseconds | a byte | Steps | a byte | Time beside the one "
               "before |\n");
        printf("|---|---|---|---|---|---|---|\n");
        for (unsigned of = 0; of < SHAPES; of++)
            grow_shape((shape)of);
    }
    for (int i = telling ? 1 : 2; i < count; i++) {
        question asked;
        if (!read_question(words[i], &asked)) {
            if (telling)
                printf("no question\n");
            continue;
        }
        if (telling)
            tell_question(&asked);
        if (sizes) {
            grow_file(words[i], asked);
            continue;
        }
        dearest.call = NULL;
        ask(&asked);
        if (telling)
            print_said();
        if (costs && dearest.call != NULL)
            printf("%.2f %.2f %" PRIu64 " %" PRIu64 " %" PRIu64 " %" PRIu64 " %s %s\n",
                   each(dearest.steps, dearest.bytes), each(dearest.time, dearest.bytes),
                   dearest.steps, dearest.time, dearest.bytes, dearest.numbers, dearest.call,
                   words[i]);
    }
    fprintf(stderr, "replay: %" PRIu64 " calls, %" PRIu64 " checks, 0 wrong\n", calls, checks);
    return fflush(stdout) != 0;
}

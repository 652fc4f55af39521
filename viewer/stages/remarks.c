// Remarks on odd files. The walk over the segment's children is not proved (unproved.h); nothing
// that is shown of a part depends on it.
#include "remarks.h"

#include "ids.h"
#include "seekheads.h"
#include "unproved.h"

#include <inttypes.h>
#include <stdarg.h>
#include <stdio.h>
#include <string.h>

static const char remux[] = "write the recording anew: mkvmerge -o NEW.mkv FILE";
static const char read_live[] = "read it in live mode: stages --live FILE";
static const char remux_live[] =
    "mkvmerge -o NEW.mkv FILE writes it anew; tags behind the Clusters may be lost, and "
    "mkvinfo -a FILE shows them";

// Adds a remark, unless it was made already.
__attribute__((format(printf, 3, 4))) static void add(remarks *to, const char *next,
                                                      const char *format, ...) {
    if (to->count == MOST_REMARKS)
        return;
    remark *last = &to->all[to->count];
    va_list words;
    va_start(words, format);
    vsnprintf(last->words, sizeof last->words, format, words);
    va_end(words);
    last->next = next;
    for (unsigned i = 0; i < to->count; i++)
        if (strcmp(to->all[i].words, last->words) == 0)
            return;
    to->count++;
}

// Whether the reader came to bytes that it could not read: what sizes that are not known lead to.
static bool is_astray(const part *of) {
    return of->reply.refused >= UZ_PAST_END && of->reply.refused <= UZ_INVALID_SIZE;
}

// Whether a file begins with the bytes of an id of four bytes, or is cut off within them.
static bool begins(const recording *from, uint32_t id) {
    bool same = true;
    for (uint64_t i = 0; i < 4 && i < from->length; i++)
        same = same && from->bytes[i] == (uint8_t)(id >> (24 - 8 * i));
    return same;
}

// The search for each part ends in the same place, where a header was to be read.
static void on_no_segment(const recording *from, uint64_t end, remarks *to) {
    if (begins(from, EBML) || begins(from, SEGMENT))
        add(to, "copy the file again, or record again",
            "it begins as a Matroska file, but has no segment, and no header can be read at "
            "%" PRIu64 "/0x%" PRIX64 ": it was cut off, or never written",
            end, end);
    else
        add(to, "check that this is the right file",
            "this is no Matroska file: it begins neither with an EBML header nor with a segment");
}

// A segment of unknown size: plain mode goes astray there, and live mode comes to the end of the
// file.
static void on_endless(const recording *from, const part all[PARTS], bool astray, remarks *to) {
    bool cut = false;
    for (unsigned i = 0; i < PARTS; i++)
        cut = cut || all[i].reply.refused == UZ_PAST_END;
    if (!(from->mode == UZ_LIVE ? cut : astray))
        return;
    if (from->mode == UZ_LIVE)
        add(to, uz_refusal_words(UZ_PAST_END).next,
            "the size of the segment is not known, and the file ends at %" PRIu64
            ": the recorder was stopped there, or the file was cut off",
            from->length);
    else
        add(to, read_live,
            "the size of the segment is not known: a live recording, or its recorder was stopped");
    to->explained[UZ_PAST_END] = true;
}

static void on_segment(const recording *from, const header *segment, const part all[PARTS],
                       bool astray, remarks *to) {
    uint64_t end = segment->payload + segment->size;
    if (segment->unknown) {
        on_endless(from, all, astray, to);
    } else if (segment->size == 0 && segment->payload < from->length) {
        add(to,
            "ffmpeg -i FILE -map 0 -c copy NEW.mkv saves film and attached files; chapters and "
            "tags "
            "that the recorder writes at its end are lost",
            "the segment says that it has no bytes, though %" PRIu64
            " follow: the recorder was stopped before it wrote the size",
            from->length - segment->payload);
        to->unfinished = true;
    } else if (end > from->length) {
        add(to, uz_refusal_words(UZ_PAST_END).next,
            "the file was cut off: its segment would end at %" PRIu64
            ", and the file ends at %" PRIu64,
            end, from->length);
    }
}

// A child of the segment whose size is not known: the search takes that as a number, and either
// goes astray or comes out among the child's own bytes.
static void on_open_end(const part all[PARTS], const header *child, bool astray, remarks *to) {
    bool cluster = child->id == CLUSTER;
    const char *what = cluster ? "Cluster" : "element";
    const char *next = cluster ? read_live : remux_live;
    if (astray) {
        add(to, next,
            "the size of the %s at %" PRIu64
            " is not known: a live recording; what stands behind it %s",
            what, child->at, cluster ? "is told in live mode alone" : "can't be told");
        to->explained[UZ_PAST_END] = true;
        to->explained[UZ_INVALID_ID] = true;
        to->explained[UZ_INVALID_SIZE] = true;
    }
    for (unsigned i = 0; i < PARTS; i++)
        if (all[i].reply.found != 0 && all[i].reply.heads == 0 && all[i].reply.at > child->payload)
            add(to, next,
                "%s at %" PRIu64 " was found behind the start of the %s at %" PRIu64
                ", whose size is not known: it may be bytes of a frame",
                all[i].name, all[i].reply.at, what, child->at);
}

// Whether a child holds the same bytes as a part that is shown. Matroska lets a recorder write a
// copy, which tells nothing new.
static bool is_copy(const recording *from, const part *shown, const header *child) {
    return child->size == shown->reply.size && child->size <= from->length - child->payload &&
           memcmp(from->bytes + child->payload, from->bytes + shown->reply.at,
                  (size_t)child->size) == 0;
}

// Where parts stand in the segment: the first that is not shown, and the one that is; 0 for none.
typedef struct {
    uint64_t hidden;
    uint64_t shown;
} standing;

// Goes over the children of the segment, in plain mode up to one whose size is not known; `endless`
// is set if that is a Cluster.
static void walk(const recording *from, const header *segment, const part all[PARTS], bool astray,
                 standing stand[PARTS], bool *endless, remarks *to) {
    header child = {0, 0, 0, 0, false};
    while (next_in_segment(from, segment, &child)) {
        for (unsigned i = 0; i < PARTS; i++) {
            if (child.id != all[i].id)
                continue;
            bool found = all[i].reply.found != 0;
            if (found && child.payload == all[i].reply.at)
                stand[i].shown = child.at;
            else if (stand[i].hidden == 0 && !(found && is_copy(from, &all[i], &child)))
                stand[i].hidden = child.at;
        }
        if (child.unknown && from->mode == UZ_PLAIN) {
            on_open_end(all, &child, astray, to);
            if (child.id == CLUSTER)
                *endless = true;
        }
    }
}

// Whether the seek entry that a refusal is about, that of a part or of the next seek head, was
// reserved and never filled in.
static void on_unfilled(const recording *from, const header *segment, const part *of, remarks *to) {
    uint64_t number = of->reply.refused;
    const uint64_t ids[2] = {SEEK_HEAD, of->id};
    for (unsigned i = 0; i < 2; i++) {
        seek_entry entry;
        if ((number != UZ_INVALID_SEEK_HEAD || of->reply.id != ids[i]) && number != UZ_PAST_END)
            continue;
        if (!find_entry(from, segment, ids[i], &entry) || !is_unfilled(&entry))
            continue;
        add(to, remux,
            "the seek entry for %s was never filled in: the recorder was stopped before it could",
            ids[i] == of->id ? of->name : "the next seek head");
        to->explained[number] = true;
    }
}

// A seek entry that leads past the end of the file, in live mode: what it names was not written
// yet, or was cut off.
static void on_cut_entry(const recording *from, const header *segment, const part *of,
                         remarks *to) {
    seek_entry entry;
    if (from->mode != UZ_LIVE || !segment->unknown || of->reply.refused != UZ_PAST_END ||
        of->reply.refused_at < from->length || to->explained[UZ_INVALID_SEEK_HEAD])
        return;
    if (find_entry(from, segment, of->id, &entry) && !is_unfilled(&entry) &&
        entry.position == of->reply.refused_at - segment->payload)
        add(to, NULL,
            "the seek entry for %s leads to %" PRIu64
            ", past the end of the file: the recorder was stopped before it wrote the part, or the "
            "file was cut off",
            of->name, of->reply.refused_at);
}

// Parts that are absent, and nothing is wrong: that live mode may find them, or that it was a seek
// head that said so.
static void note_absent(const recording *from, const part all[PARTS], bool endless, remarks *to) {
    bool by_walk = false, by_head = false;
    for (unsigned i = 0; i < PARTS; i++) {
        bool absent = all[i].reply.refused == UZ_ACCEPTED && all[i].reply.found == 0;
        by_walk = by_walk || (absent && all[i].reply.heads == 0);
        by_head = by_head || (absent && all[i].reply.heads > 0 && to->stands[i] == 0);
    }
    if (!endless || to->unfinished)
        return;
    if (from->mode == UZ_PLAIN && by_walk)
        snprintf(to->note, sizeof to->note,
                 "sizes in it are not known: stages --live FILE may find more");
    if (from->mode == UZ_LIVE && by_head)
        snprintf(
            to->note, sizeof to->note,
            "the size of the segment is not known, and its seek head names no more: a recorder "
            "that was stopped may not have written the rest");
}

// A part that stands in the segment beside the one that is shown.
static void on_another(const part *of, const standing *stand, remarks *to) {
    static const char next[] =
        "mkvinfo -a FILE shows both; mkvmerge -o NEW.mkv FILE keeps the last";
    if (stand->shown != 0)
        add(to, next,
            "%s is there more than once: the one at %" PRIu64 " is shown, that at %" PRIu64
            " is not",
            of->name, stand->shown, stand->hidden);
    else
        add(to, next, "another %s stands at %" PRIu64 ", and is not shown", of->name,
            stand->hidden);
}

// A part that stands in the segment, and that the search did not come to.
static void on_elsewhere(const recording *from, const header *segment, const part *of,
                         uint64_t stands, remarks *to) {
    seek_entry entry;
    const char *stale = uz_refusal_words(UZ_STALE_ENTRY).next;
    uint64_t number = of->reply.refused;
    if (number == UZ_ACCEPTED && to->unfinished) {
        add(to, NULL, "%s stands at %" PRIu64 "; it is not shown, being outside the segment",
            of->name, stands);
    } else if (number == UZ_ACCEPTED) {
        add(to, stale,
            "%s stands at %" PRIu64
            "; it is not shown, since no seek head that is reached names it",
            of->name, stands);
    } else if (number >= UZ_INVALID_SEEK_HEAD && number <= UZ_TOO_MANY_HEADS) {
        add(to, NULL,
            "%s stands at %" PRIu64 "; it is not shown, since the seek heads can't be trusted",
            of->name, stands);
    } else if (is_astray(of) && find_entry(from, segment, of->id, &entry) &&
               entry.position != stands - segment->payload) {
        add(to, stale,
            "%s stands at %" PRIu64 "; it is not shown, since its seek entry leads elsewhere",
            of->name, stands);
        to->explained[number] = true;
    }
}

void find_remarks(const recording *from, const part all[PARTS], remarks *to) {
    header segment;
    standing stand[PARTS] = {{0, 0}, {0, 0}, {0, 0}, {0, 0}};
    memset(to, 0, sizeof *to);
    to->segment = find_segment(from, &segment);
    // On the way to a segment an unknown size says by itself what is wrong.
    if (!to->segment && all->reply.refused == UZ_UNKNOWN_SIZE) {
        to->segment = true;
        return;
    }
    if (!to->segment) {
        on_no_segment(from, all->reply.refused_at, to);
        return;
    }
    bool astray = false;
    bool endless = segment.unknown;
    for (unsigned i = 0; i < PARTS; i++)
        astray = astray || is_astray(&all[i]);
    on_segment(from, &segment, all, astray, to);
    // A segment that was never given its size is gone over up to the end of the file.
    if (to->unfinished)
        segment.size = from->length - segment.payload;
    walk(from, &segment, all, astray, stand, &endless, to);
    for (unsigned i = 0; i < PARTS; i++) {
        on_unfilled(from, &segment, &all[i], to);
        on_cut_entry(from, &segment, &all[i], to);
        if (stand[i].hidden != 0 && all[i].reply.found != 0)
            on_another(&all[i], &stand[i], to);
        else if (stand[i].hidden != 0)
            on_elsewhere(from, &segment, &all[i], stand[i].hidden, to);
        if (all[i].reply.found == 0)
            to->stands[i] = stand[i].hidden;
    }
    note_absent(from, all, endless, to);
}

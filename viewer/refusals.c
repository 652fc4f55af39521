// What each refusal means: the one table. It is part of libuzrafmed; uzrafmed.h documents it,
// docs/REFUSALS.md is made from it (viewer/page.c), and the viewer tells refusals by it. Plain C,
// not proved.
#include "uzrafmed.h"

#include <stdbool.h>

#define REMUX "write the recording anew: mkvmerge -o NEW.mkv FILE"
#define REWRITE                                                                                    \
    "the program that wrote this part is at fault: take the other parts over, and write this one " \
    "anew with mkvmerge or mkvpropedit"

static const uz_words table[] = {
    [UZ_ACCEPTED] = {"ACCEPTED", "no refusal", "no refusal", "nowhere: it is 0", "nothing"},
    [UZ_PAST_END] = {"PAST_END", "a byte needed lies beyond the recording",
                     "a byte needed lies beyond the end of the file",
                     "where the header begins that is not there whole, or the header of the "
                     "number, text or bytes that are cut off",
                     "copy the file again; of what is left, take the chapters out: mkvextract FILE "
                     "chapters C.xml; write the rest anew: mkvmerge -o NEW.mkv --no-chapters "
                     "--chapters C.xml FILE; where there is no C.xml, without --chapters"},
    [UZ_INVALID_ID] = {"INVALID_ID", "the id has more than four bytes",
                       "an id has more than four bytes", "where the header with that id begins",
                       "the bytes are damaged there: copy the file again, or " REMUX},
    [UZ_INVALID_SIZE] =
        {"INVALID_SIZE",
         "the size has more than eight bytes, an element is larger than what its master had left, "
         "or a child of the segment that is passed over is larger than what was left of it",
         "a size has more than eight bytes, or an element is larger than what holds it",
         "where the header with that size begins: of the element that is too large, not of what "
         "holds it",
         "the bytes are damaged there, or the recording is live: read it with --live, or " REMUX},
    [UZ_INVALID_INTEGER] = {"INVALID_INTEGER", "an integer body has more than eight bytes",
                            "an integer has more than eight bytes", "the header of that integer",
                            REWRITE},
    [UZ_INVALID_FLOAT] = {"INVALID_FLOAT", "a float body has other than 4 or 8 bytes",
                          "a float has other than 4 or 8 bytes", "the header of that float",
                          REWRITE},
    [UZ_INVALID_DATE] = {"INVALID_DATE", "a date body has other than 8 bytes",
                         "a date has other than 8 bytes", "the header of that date", REWRITE},
    [UZ_NOT_UTF8] =
        {"NOT_UTF8", "a text is not UTF-8", "a text is not UTF-8", "the header of that text",
         "the text was written in another encoding, or over a longer one of which half a character "
         "is left: write the chapter, tag or name anew in UTF-8"},
    [UZ_INVALID_SEEK_HEAD] =
        {"INVALID_SEEK_HEAD",
         "the segment's start plus the position of an entry exceeds 2^64-1; the reply has the id "
         "of "
         "the entry",
         "a seek entry has no usable position: it was never filled in, or is too large",
         "the header of the last seek head that was read, which need not hold the entry", REMUX},
    [UZ_STALE_ENTRY] =
        {"STALE_ENTRY", "a sought address holds a header with another id: the entry is stale",
         "a seek entry is stale: another element stands at its address",
         "the address that the entry leads to",
         "take chapters and tags out: mkvextract FILE --parse-fully chapters C.xml tags T.xml; "
         "write the recording anew: mkvmerge -o NEW.mkv --no-chapters --no-global-tags "
         "--no-track-tags --chapters C.xml --global-tags T.xml FILE; where there is no C.xml or no "
         "T.xml, without --chapters or --global-tags"},
    [UZ_HEAD_AGAIN] = {"HEAD_AGAIN", "a seek head is reached at an address already read as one",
                       "seek heads lead back to one that was read", "the header of that seek head",
                       REMUX},
    [UZ_TOO_MANY_HEADS] = {"TOO_MANY_HEADS", "a 65th seek head would be read",
                           "64 linked seek heads were read, and the last names one more",
                           "where the 65th would stand, which is not looked at", REMUX},
    [UZ_TOO_DEEP] =
        {"TOO_DEEP",
         "an element would lie at depth 16; the direct elements of a payload have depth "
         "0",
         "elements are nested more than 16 deep", "the header of the first element too deep",
         "no recorder nests so deep: the part is damaged, or made to do harm"},
    [UZ_NO_FREE_ROW] = {"NO_FREE_ROW", "the table has no free row",
                        "the part has more elements than the table has rows, 4096 at most",
                        "the header of the first element without a row",
                        "make the part smaller: fewer chapters or tags in one recording"},
    [UZ_BAD_ARGUMENT] =
        {"BAD_ARGUMENT",
         "the recording is longer than 4,294,967,295 bytes, a place is past its end, a table has "
         "no whole rows or more than 4,096, a chain has more than 16 addresses, the part is none "
         "of the four, the mode none of the two, or a row is not in the table or its range not in "
         "the recording; where a text is asked for, also if the row is no text row",
         "a length, part, mode, start or row given is out of bounds, or the row is no text",
         "nowhere: it is 0, since the fault is in what was asked",
         "the program that asked is at fault: hold its numbers to uzrafmed.h"},
    [UZ_OUTSIDE] = {"OUTSIDE",
                    "the address is outside the payload, or there is no k-th record or list member",
                    "the address is outside the payload",
                    "nowhere: it is 0, since the fault is in what was asked",
                    "ask for an address inside the payload"},
    [UZ_UNKNOWN_SIZE] =
        {"UNKNOWN_SIZE",
         "live mode: a size is unknown, that is all ones in its own width, on an element that the "
         "search meets and that is no Segment or Cluster, or on any element of a payload",
         "live mode: the size of an element other than a Segment or Cluster is not known",
         "the header with that size",
         "read the recording without --live, or write it anew: mkvmerge -o NEW.mkv FILE"},
};

// 16 is the number of no refusal, and has no name.
uz_words uz_refusal_words(uint64_t refused) {
    static const uz_words unknown = {"", "no rule: the number is none of 0 to 15 and 17",
                                     "an unknown number", "nowhere",
                                     "ask with a number of 0 to 15, or 17"};
    bool known = refused < sizeof table / sizeof *table && table[refused].name != NULL;
    return known ? table[refused] : unknown;
}

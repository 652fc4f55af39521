// A track is a TrackEntry directly in Tracks. Of each field its last child of that id and kind
// counts.
#include "tracks.h"

#include "field.h"
#include "ids.h"
#include "json.h"
#include "show.h"
#include "unproved.h"

#include <inttypes.h>

static uint64_t track_at(const part *in, uint64_t from) {
    return next_child(in, NO_ROW, from, TRACK_ENTRY, UZ_MASTER);
}

void tell_tracks(const part *in) {
    for (uint64_t row = track_at(in, 0); row != NO_ROW; row = track_at(in, row_after(in, row))) {
        uint64_t type = last_child(in, row, TRACK_TYPE, UZ_UNSIGNED);
        fputs("track ", stdout);
        show_address(header_of(in, row));
        fputs(" number ", stdout);
        show_field(in, last_child(in, row, TRACK_NUMBER, UZ_UNSIGNED));
        printf(" type %s name ", type != NO_ROW ? track_type(number_in(in, type)) : "-");
        show_field(in, last_child(in, row, TRACK_NAME, UZ_UTF8));
        putchar('\n');
    }
}

void json_tracks(const part *in) {
    json_open("tracks", '[', true);
    for (uint64_t row = track_at(in, 0); row != NO_ROW; row = track_at(in, row_after(in, row))) {
        uint64_t type = last_child(in, row, TRACK_TYPE, UZ_UNSIGNED);
        json_open(NULL, '{', true);
        json_number("at", header_of(in, row));
        json_field("number", in, last_child(in, row, TRACK_NUMBER, UZ_UNSIGNED));
        json_field("uid", in, last_child(in, row, TRACK_UID, UZ_UNSIGNED));
        json_field("type", in, type);
        if (type == NO_ROW)
            json_null("kind");
        else
            json_word("kind", track_type(number_in(in, type)));
        json_field("name", in, last_child(in, row, TRACK_NAME, UZ_UTF8));
        json_field("language", in, language_of(in, row, TRACK_LANGUAGE_IETF, TRACK_LANGUAGE));
        json_field("codec", in, last_child(in, row, CODEC_ID, UZ_STRING));
        json_close('}');
    }
    json_close(']');
}

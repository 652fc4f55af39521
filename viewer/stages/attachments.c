// An attached file is an AttachedFile directly in Attachments.
#include "attachments.h"

#include "field.h"
#include "ids.h"
#include "json.h"
#include "show.h"
#include "unproved.h"

static uint64_t file_at(const part *in, uint64_t from) {
    return next_child(in, NO_ROW, from, ATTACHED_FILE, UZ_MASTER);
}

void tell_attachments(const part *in) {
    for (uint64_t row = file_at(in, 0); row != NO_ROW; row = file_at(in, row_after(in, row))) {
        uint64_t data = last_child(in, row, FILE_DATA, UZ_BINARY);
        uint64_t description = last_child(in, row, FILE_DESCRIPTION, UZ_UTF8);
        fputs("attachment ", stdout);
        show_address(header_of(in, row));
        fputs(" name ", stdout);
        show_field(in, last_child(in, row, FILE_NAME, UZ_UTF8));
        fputs(" type ", stdout);
        show_field(in, last_child(in, row, FILE_MEDIA_TYPE, UZ_STRING));
        fputs(" data ", stdout);
        if (data != NO_ROW) {
            show_address(payload_of(in, data).at);
            putchar(' ');
        }
        show_field(in, data);
        if (description != NO_ROW) {
            fputs(" description ", stdout);
            show_field(in, description);
        }
        putchar('\n');
    }
}

void json_attachments(const part *in) {
    json_open("attachments", '[', true);
    for (uint64_t row = file_at(in, 0); row != NO_ROW; row = file_at(in, row_after(in, row))) {
        json_open(NULL, '{', true);
        json_number("at", header_of(in, row));
        json_field("uid", in, last_child(in, row, FILE_UID, UZ_UNSIGNED));
        json_field("name", in, last_child(in, row, FILE_NAME, UZ_UTF8));
        json_field("type", in, last_child(in, row, FILE_MEDIA_TYPE, UZ_STRING));
        json_field("description", in, last_child(in, row, FILE_DESCRIPTION, UZ_UTF8));
        json_field("data", in, last_child(in, row, FILE_DATA, UZ_BINARY));
        json_close('}');
    }
    json_close(']');
}

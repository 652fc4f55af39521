// Shows fields on standard output.
#include "field.h"

#include "show.h"
#include "unproved.h"

#include <ctype.h>
#include <inttypes.h>

void show_field(const part *in, uint64_t row) {
    if (row == NO_ROW) {
        putchar('-');
        return;
    }
    uz_range text = text_of(in, row);
    if (text.refused == UZ_ACCEPTED)
        show_quoted(stdout, in->from->bytes + text.at, text.length);
    else if (cell(in, row, UZ_KIND) == UZ_UNSIGNED)
        printf("%" PRIu64, number_in(in, row));
    else
        printf("bytes %" PRIu64, payload_of(in, row).length);
}

void show_code(const part *in, uint64_t row) {
    uz_range text = row == NO_ROW ? (uz_range){0, 0, 0} : text_of(in, row);
    const uint8_t *bytes = in->from->bytes + text.at;
    bool plain = text.length > 0 && isalpha(bytes[0]);
    for (uint64_t i = 0; i < text.length; i++)
        plain = plain && (isalnum(bytes[i]) || bytes[i] == '-');
    if (plain)
        show_text(stdout, bytes, text.length);
    else
        show_field(in, row);
}

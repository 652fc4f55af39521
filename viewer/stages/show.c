// Text, addresses and times, as a person sees them.
#include "show.h"

#include <inttypes.h>

bool addresses_in_hex = false;

// The control characters are 00 to 1F, 7F, and 80 to 9F, which UTF-8 writes as C2 80 to C2 9F. The
// backslash is shown so too, and an escape can't be mistaken for a text.
static void show_escaped(FILE *out, const uint8_t *bytes, uint64_t length, bool quoted) {
    for (uint64_t i = 0; i < length; i++) {
        uint8_t byte = bytes[i];
        bool pair = byte == 0xC2 && i + 1 < length && bytes[i + 1] >= 0x80 && bytes[i + 1] <= 0x9F;
        if (pair) {
            fprintf(out, "\\xC2\\x%02X", bytes[i + 1]);
            i++;
        } else if (byte < 0x20 || byte == 0x7F || byte == '\\' || (quoted && byte == '"')) {
            fprintf(out, "\\x%02X", byte);
        } else {
            putc(byte, out);
        }
    }
}

void show_text(FILE *out, const uint8_t *bytes, uint64_t length) {
    show_escaped(out, bytes, length, false);
}

void show_quoted(FILE *out, const uint8_t *bytes, uint64_t length) {
    putc('"', out);
    show_escaped(out, bytes, length, true);
    putc('"', out);
}

void show_word(FILE *out, const char *word) {
    for (; *word != '\0'; word++) {
        uint8_t byte = (uint8_t)*word;
        if (byte < 0x80)
            show_text(out, &byte, 1);
        else
            fprintf(out, "\\x%02X", byte);
    }
}

void show_address(uint64_t address) {
    if (addresses_in_hex)
        show_both(stdout, address);
    else
        printf("%" PRIu64, address);
}

void show_both(FILE *out, uint64_t address) {
    fprintf(out, "%" PRIu64 "/0x%" PRIX64, address, address);
}

void show_time(uint64_t nanoseconds) {
    uint64_t milliseconds = nanoseconds / 1000000;
    uint64_t seconds = milliseconds / 1000;
    uint64_t minutes = seconds / 60;
    printf("%" PRIu64 ":%02" PRIu64 ":%02" PRIu64 ".%03" PRIu64, minutes / 60, minutes % 60,
           seconds % 60, milliseconds % 1000);
}

void show_indent(unsigned levels) {
    for (; levels > 0; levels--)
        fputs("  ", stdout);
}

int fault(const char *name, const char *what) {
    fputs("stages: ", stderr);
    show_word(stderr, name);
    fprintf(stderr, ": %s\n", what);
    return 1;
}

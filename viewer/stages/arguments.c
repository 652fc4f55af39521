// Options, the recording's name and an address, out of the words of the command line.
#include "arguments.h"

#include "help.h"
#include "show.h"

#include <stdio.h>
#include <string.h>

// A number in decimal, or in hexadecimal after 0x. One that is too large becomes the largest, which
// is past the end of every recording.
static bool number_of(const char *word, uint64_t *number) {
    unsigned base = 10;
    if (word[0] == '0' && (word[1] == 'x' || word[1] == 'X')) {
        base = 16;
        word += 2;
    }
    if (*word == '\0')
        return false;
    *number = 0;
    for (; *word != '\0'; word++) {
        static const char digits[] = "0123456789abcdef0123456789ABCDEF";
        const char *place = strchr(digits, *word);
        unsigned digit = place != NULL ? (unsigned)(place - digits) % 16 : 16;
        if (digit >= base)
            return false;
        *number = *number > (UINT64_MAX - digit) / base ? UINT64_MAX : *number * base + digit;
    }
    return true;
}

int read_arguments(char **words, arguments *to) {
    bool options = true;
    for (words++; *words != NULL; words++) {
        bool option = options && (*words)[0] == '-' && (*words)[1] != '\0';
        if (option && strcmp(*words, "--") == 0)
            options = false;
        else if (option && strcmp(*words, "--json") == 0)
            to->json = true;
        else if (option && strcmp(*words, "--hex") == 0)
            addresses_in_hex = true;
        else if (option && strcmp(*words, "--live") == 0)
            to->live = true;
        else if (option && strcmp(*words, "--help") == 0)
            to->help = true;
        else if (option || to->count == 2) {
            fault(*words, option ? "is no option of stages" : "is one argument too many");
            return 2;
        } else
            to->words[to->count++] = *words;
    }
    if (to->help)
        return 0;
    if (to->count == 0) {
        fprintf(stderr, "%.*s", (int)strcspn(help_text, "\n") + 1, help_text);
        return 2;
    }
    if (to->json && (to->count == 2 || addresses_in_hex)) {
        fault("--json", "has decimal numbers alone, and takes no ADDRESS");
        return 2;
    }
    if (to->count == 2 && !number_of(to->words[1], &to->address)) {
        fault(to->words[1], "is no address: give a decimal number, or a hexadecimal one after 0x");
        return 2;
    }
    return 0;
}

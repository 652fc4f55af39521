// Prints docs/REFUSALS.md from the table in refusals.c.
#include "uzrafmed.h"

#include <inttypes.h>
#include <stdio.h>

int main(void) {
    // clang-format off
    puts("# Refusals\n\n"
         "Made from viewer/refusals.c by `viewer/check --store`; the gate holds the two together.\n\n"
         "A refusal is one number for each broken rule of document 01 (docs/01-scope.md), and the address where it\n"
         "broke. A call that refuses shows nothing else: the table that it was to write is all zeros. `rows`, `ask`,\n"
         "`stages` and the C face give the same numbers and addresses. In C a number is called `UZ_` and its name,\n"
         "and `uz_refusal_words` tells a row of this table.\n\n"
         "The address is that of the header of the element that was being read; where the header itself is at fault,\n"
         "the address where it begins; for 8 the last seek head that was read, for 10 and 11 the one that was not. It\n"
         "may lie past the end of the file, as where a seek entry leads there. 0 is the address of the first byte\n"
         "too. The line `refused 14` of `rows` has none. There is no 16.\n\n"
         "| Number | Name | Given when | In plain words | Where the address points | What to do |\n"
         "|---|---|---|---|---|---|");
    // clang-format on
    for (uint64_t number = UZ_PAST_END; number <= UZ_UNKNOWN_SIZE; number++) {
        uz_words words = uz_refusal_words(number);
        if (words.name[0] == '\0')
            continue;
        printf("| %" PRIu64 " | %s | %s | %s | %s | %s |\n", number, words.name, words.rule,
               words.meaning, words.where, words.next);
    }
    return ferror(stdout) || fflush(stdout) != 0;
}

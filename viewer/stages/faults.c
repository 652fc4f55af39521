// Faults and advice: those of the refused parts, and those of the remarks on the file.
#include "faults.h"

#include "show.h"
#include "tell.h"

#include <string.h>

// What to do next: each advice once, first those of the remarks.
static void tell_nexts(const part all[], unsigned count, const remarks *odd) {
    const char *told[MOST_REMARKS + PARTS + 1];
    unsigned past = 0;
    for (unsigned i = 0; i < odd->count + count; i++) {
        const char *next = NULL;
        uint64_t number = i < odd->count ? UZ_ACCEPTED : all[i - odd->count].reply.refused;
        if (i < odd->count)
            next = odd->all[i].next;
        else if (odd->segment && number != UZ_ACCEPTED && !odd->explained[number])
            next = uz_refusal_words(number).next;
        bool again = next == NULL;
        for (unsigned k = 0; !again && k < past; k++)
            again = strcmp(told[k], next) == 0;
        if (again)
            continue;
        told[past++] = next;
        tell_next(all->from, next);
    }
}

// That there is no segment says all of the four parts, but not of the file.
int tell_faults(const part all[], unsigned count, const remarks *odd) {
    int status = odd->count > 0;
    for (unsigned i = odd->segment ? 0 : PARTS; i < count; i++)
        if (all[i].reply.refused != UZ_ACCEPTED)
            status = tell_refused(&all[i], all[i].reply.refused, all[i].reply.id,
                                  all[i].reply.refused_at);
    for (unsigned i = 0; i < odd->count; i++)
        fault(all->from->name, odd->all[i].words);
    tell_nexts(all, count, odd);
    return status;
}

// The names of ids and kinds. The list of ids is viewer/names.def.
#include "names.h"

#include "uzrafmed.h"

#include <stddef.h>

typedef struct {
    uint32_t id;
    const char *name;
} named;

#define UZ_NAME(id, name) {id, #name},
static const named all[] = {
#include "names.def"
};

const char *element_name(uint64_t id) {
    size_t low = 0;
    size_t high = sizeof all / sizeof *all;
    while (low < high) {
        size_t middle = low + (high - low) / 2;
        if (all[middle].id == id)
            return all[middle].name;
        if (all[middle].id < id)
            low = middle + 1;
        else
            high = middle;
    }
    return "-";
}

const char *kind_name(uint64_t kind) {
    static const char *const names[] = {"none", "master", "int",   "uint", "string",
                                        "utf8", "binary", "float", "date"};
    return names[kind <= UZ_DATE ? kind : 0];
}

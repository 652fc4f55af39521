// The command line of stages.
#ifndef ARGUMENTS_H
#define ARGUMENTS_H

#include <stdbool.h>
#include <stdint.h>

// The command line: at most two words that are no options.
typedef struct {
    const char *words[2];
    int count;
    bool json;
    bool live;
    bool help;
    uint64_t address;
} arguments;

// Reads the words of the command line, the program's own name among them. Answers status 0, or 2
// after a line on standard error. --hex is set where addresses are shown (show.h).
int read_arguments(char **words, arguments *to);

#endif

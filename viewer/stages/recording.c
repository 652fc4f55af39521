// Maps a recording. The length is looked at first: a file that is too long is never mapped.
#define _POSIX_C_SOURCE 200809L
#define _FILE_OFFSET_BITS 64
#include "recording.h"

#include "show.h"
#include "uzrafmed.h"

#include <errno.h>
#include <fcntl.h>
#include <stddef.h>
#include <string.h>
#include <sys/mman.h>
#include <sys/stat.h>
#include <unistd.h>

int recording_open(const char *name, recording *to) {
    // A named pipe would keep a plain open waiting.
    int file = open(name, O_RDONLY | O_CLOEXEC | O_NONBLOCK);
    if (file < 0)
        return fault(name, strerror(errno));
    struct stat about;
    const char *wrong = NULL;
    void *bytes = MAP_FAILED;
    if (fstat(file, &about) != 0)
        wrong = strerror(errno);
    else if (S_ISDIR(about.st_mode))
        wrong = "is a folder";
    else if (!S_ISREG(about.st_mode))
        wrong = "is no regular file";
    else if (about.st_size <= 0)
        wrong = "is empty";
    else if ((uint64_t)about.st_size > UZ_MOST_BYTES)
        wrong = "has more than 4294967295 bytes";
    else if ((bytes = mmap(NULL, (size_t)about.st_size, PROT_READ, MAP_PRIVATE, file, 0)) ==
             MAP_FAILED)
        wrong = strerror(errno);
    close(file);
    if (wrong != NULL)
        return fault(name, wrong);
    to->name = name;
    to->bytes = bytes;
    to->length = (uint64_t)about.st_size;
    to->mode = UZ_PLAIN;
    return 0;
}

void recording_close(const recording *from) {
    munmap((void *)(uintptr_t)from->bytes, (size_t)from->length);
}

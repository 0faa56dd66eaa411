/* Reads a file so many times by the static library, and prints how many events it has, to be measured: a reading is opened, and closed.
 * usage: archive FILE TIMES [--machine NAME] [--deep] [--copy]   (of the options of mdevents; without them by the machine of lines; with
 * --copy all events are copied in between) */
#define _POSIX_C_SOURCE 200809L
#include "../bindings/limecove.h"
#include <fcntl.h>
#include <stdio.h>
#include <stdlib.h>
#include <string.h>
#include <sys/mman.h>
#include <sys/stat.h>
#include <unistd.h>

static const char *const machines[] = {"lines", "paragraphs", "peek", "deep", "back", "save", "text", "flow", "document"};

/* The bytes of a file, which take none of the heap. */
static const uint8_t *contents(const char *name, size_t *len) {
    struct stat about;
    int file = open(name, O_RDONLY);
    if (file < 0 || fstat(file, &about) != 0)
        return NULL;
    *len = (size_t)about.st_size;
    const void *bytes = mmap(NULL, *len, PROT_READ, MAP_PRIVATE, file, 0);
    close(file);
    return bytes == MAP_FAILED ? NULL : bytes;
}

int main(int argc, char **argv) {
    struct limecove_options options = limecove_default_options();
    size_t len = 0;
    int copies = 0;
    options.machine = LIMECOVE_LINES;
    options.deep = 0;
    const uint8_t *document = argc < 3 ? NULL : contents(argv[1], &len);
    for (int i = 3; i < argc; i++) {
        if (strcmp(argv[i], "--deep") == 0)
            options.deep = 1;
        if (strcmp(argv[i], "--copy") == 0)
            copies = 1;
        for (uint32_t machine = 0; machine < sizeof machines / sizeof *machines; machine++)
            if (strcmp(argv[i], machines[machine]) == 0)
                options.machine = machine;
    }
    if (document == NULL || limecove_version() != LIMECOVE_VERSION)
        return 1;
    struct limecove_answer answer = {LIMECOVE_READ, 0, 0};
    for (long times = atol(argv[2]); times > 0 && answer.code == LIMECOVE_READ; times--) {
        struct limecove_reading reading = LIMECOVE_NO_READING;
        answer = limecove_open(document, len, &options, &reading);
        struct limecove_record *records = copies ? malloc((answer.count + 1) * sizeof *records) : NULL;
        if (copies && (records == NULL || limecove_copy(&reading, 0, records, answer.count) != answer.count))
            return 1;
        free(records);
        limecove_close(&reading);
    }
    printf("%zu\n", answer.count);
    return answer.code != LIMECOVE_READ;
}

/* Edits a document of 2,500 paragraphs of 400 bytes by the static library, to be measured: prints the document's length, how many bytes the
 * sections have that were replaced, and how many sections beside them have other events.
 * usage: edits MODE TIMES [plain]   (MODE is print, which writes the document out; read, which reads it TIMES times and edits nothing; keep, which keeps
 * it for edits; or byte, line or paragraph, which keeps it, and TIMES times types a byte, types a line ending, or takes 400 bytes out and puts them back, each at
 * another place; with plain the paragraphs have no markup) */
#include "../bindings/limecove.h"
#include <stdio.h>
#include <stdlib.h>
#include <string.h>

#define PARAGRAPHS 2500
#define SIZE 400

static uint8_t bytes[PARAGRAPHS * SIZE];
static uint64_t seed = 4711;

/* The next number of a fixed row. */
static size_t number(void) {
    seed = seed * 6364136223846793005u + 1442695040888963407u;
    return (size_t)(seed >> 33);
}

/* Fills the document with words, in lines of some 76 bytes. */
static void fill(int plain) {
    static const char *const words[] = {"the", "quick", "brown", "fox", "jumps", "over", "a", "lazy", "dog", "and", "more",
                                        "`code`", "*emphasis*", "[link](http://x.y)", "\\*", "&amp;"};
    for (size_t paragraph = 0; paragraph < PARAGRAPHS; paragraph++) {
        uint8_t *at = bytes + paragraph * SIZE, *end = at + SIZE - 2, *line = at;
        while (at < end) {
            const char *word = words[number() % (plain ? 11 : 16)];
            size_t len = strlen(word);
            if ((size_t)(end - at) < len + 1) {
                memset(at, 'x', (size_t)(end - at));
                break;
            }
            memcpy(at, word, len);
            at += len;
            *at = at - line > 70 ? '\n' : ' ';
            if (*at++ == '\n')
                line = at;
        }
        if (end[-1] == '\n' || end[-1] == ' ')
            end[-1] = 'x';
        memcpy(end, "\n\n", 2);
    }
}

int main(int argc, char **argv) {
    if (argc < 3)
        return 2;
    const char *mode = argv[1];
    size_t times = strtoul(argv[2], NULL, 10), replaced = 0, others = 0;
    fill(argc > 3);
    if (strcmp(mode, "print") == 0)
        return fwrite(bytes, sizeof bytes, 1, stdout) != 1;
    if (strcmp(mode, "read") == 0) {
        struct limecove_options options = limecove_default_options();
        for (size_t i = 0; i < times; i++) {
            struct limecove_reading reading = LIMECOVE_NO_READING;
            if (limecove_open(bytes, sizeof bytes, &options, &reading).code != LIMECOVE_READ)
                return 1;
            limecove_close(&reading);
        }
        printf("%zu 0 0\n", sizeof bytes);
        return 0;
    }
    struct limecove_text_options options = limecove_default_text_options();
    struct limecove_document document = LIMECOVE_NO_DOCUMENT;
    if (limecove_document_new(bytes, sizeof bytes, &options, &document).code != LIMECOVE_READ)
        return 1;
    for (size_t i = 0; i < times && strcmp(mode, "keep") != 0; i++) {
        struct limecove_changed change;
        size_t from = number() % (sizeof bytes - SIZE), to = from;
        const uint8_t *with = (const uint8_t *)(mode[0] == 'l' ? "\n" : "x");
        if (mode[0] == 'p')
            to += SIZE;
        if (limecove_document_replace(&document, from, to, with, mode[0] == 'p' ? 0 : 1, &change).code != LIMECOVE_READ)
            return 1;
        replaced += change.end - change.start;
        others += change.others;
        if (mode[0] == 'p') {
            if (limecove_document_replace(&document, from, from, bytes + from, SIZE, &change).code != LIMECOVE_READ)
                return 1;
            replaced += change.end - change.start;
            others += change.others;
        }
    }
    printf("%zu %zu %zu\n", sizeof bytes, replaced, others);
    limecove_document_close(&document);
    return 0;
}

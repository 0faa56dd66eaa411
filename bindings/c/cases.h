/* Random documents and the ways to read them, for the programs that test the library. */
#ifndef CASES_H
#define CASES_H

#include "../limecove.h"
#include <stdio.h>
#include <stdlib.h>
#include <string.h>

#define CHECK(is)                                                                                                                          \
    do {                                                                                                                                   \
        if (!(is)) {                                                                                                                       \
            fprintf(stderr, "%s:%d: not so: %s\n", __FILE__, __LINE__, #is);                                                               \
            exit(1);                                                                                                                       \
        }                                                                                                                                  \
    } while (0)

/* Each program calls it first. */
static inline void ask_version(void) {
    CHECK(limecove_version() == LIMECOVE_VERSION);
}

/* Random numbers, the same at each run (SplitMix64). */
static uint64_t random_state = 1;

static inline size_t below(size_t n) {
    uint64_t z = random_state += 0x9e3779b97f4a7c15u;
    z = (z ^ (z >> 30)) * 0xbf58476d1ce4e5b9u;
    z = (z ^ (z >> 27)) * 0x94d049bb133111ebu;
    return (size_t)((z ^ (z >> 31)) % n);
}

/* A document of up to 30 pieces, in a block of its very length (of one byte if it is empty). */
static inline uint8_t *random_document(size_t *len) {
    static const char *const pieces[] = {"a", "bc", " ", "\t", "\n", "\n", "\r", "\r\n", "`", "``", "<", ">", "<ab:c>", "\\", "\\*", "> ", "\xff", "*",
                                          "- ", "1. ", "  ", "\n\n", "```", "[", "![", "]", "[a]", "](b)", "\n\n[a]: b"};
    char text[30 * 8];
    *len = 0;
    for (size_t n = below(30); n > 0; n--) {
        const char *piece = pieces[below(sizeof pieces / sizeof *pieces)];
        memcpy(text + *len, piece, strlen(piece));
        *len += strlen(piece);
    }
    uint8_t *document = (uint8_t *)malloc(*len + (*len == 0));
    CHECK(document != NULL);
    memcpy(document, text, *len);
    return document;
}

/* The ranges of a document's lines, each behind the quote mark that its line begins with, if it does, and with its line ending. Returns how
 * many: at most one more than bytes. */
static inline size_t ranges_of_lines(const uint8_t *document, size_t len, struct limecove_byte_range *ranges) {
    size_t count = 0, at = 0;
    while (at < len) {
        struct limecove_byte_range *range = &ranges[count++];
        range->from = at + (document[at] == '>');
        while (at < len && document[at] != '\n' && document[at] != '\r')
            at++;
        if (at < len)
            at += 1 + (document[at] == '\r' && at + 1 < len && document[at + 1] == '\n');
        range->to = at;
    }
    return count;
}

/* A way to read: one of the nine machines, paragraphs, text, flow or document with their texts, text by limecove_read_text and
 * limecove_open_text, or the lines without quote marks by limecove_read_text_in and limecove_open_text_in. */
#define WAYS 15
#define MOST_LINES 240

/* The options of each way but the last two. */
static inline struct limecove_options options_of(size_t way, struct limecove_text_options text, size_t cut) {
    struct limecove_options options = limecove_default_options();
    options.tab_size = text.tab_size;
    options.constructs = text.constructs;
    options.cut = cut;
    options.machine = (uint32_t)way;
    options.deep = way >= 9;
    if (way >= 9)
        options.machine = way == 9 ? LIMECOVE_PARAGRAPHS : way == 10 ? LIMECOVE_TEXT : way == 11 ? LIMECOVE_FLOW : LIMECOVE_DOCUMENT;
    if (options.machine == LIMECOVE_FLOW || options.machine == LIMECOVE_DOCUMENT)
        options.constructs = LIMECOVE_COMMONMARK;
    return options;
}

static inline struct limecove_answer read_so(size_t way, const uint8_t *document, size_t len, struct limecove_text_options text, size_t cut,
                                      struct limecove_record *records, size_t room) {
    struct limecove_options options = options_of(way, text, cut);
    struct limecove_byte_range ranges[MOST_LINES];
    if (way == 13)
        return limecove_read_text(document, len, &text, records, room);
    if (way == 14)
        return limecove_read_text_in(document, len, ranges, ranges_of_lines(document, len, ranges), &text, records, room);
    return limecove_read(document, len, &options, records, room);
}

static inline struct limecove_answer open_so(size_t way, const uint8_t *document, size_t len, struct limecove_text_options text, size_t cut,
                                      struct limecove_reading *reading) {
    struct limecove_options options = options_of(way, text, cut);
    struct limecove_byte_range ranges[MOST_LINES];
    if (way == 13)
        return limecove_open_text(document, len, &text, reading);
    if (way == 14)
        return limecove_open_text_in(document, len, ranges, ranges_of_lines(document, len, ranges), &text, reading);
    return limecove_open(document, len, &options, reading);
}

static inline struct limecove_text_options random_text_options(void) {
    struct limecove_text_options text = limecove_default_text_options();
    text.tab_size = below(17);
    text.constructs = LIMECOVE_COMMONMARK - below(8);
    return text;
}

/* Whether so many bytes are all 0xa5, as no call leaves them. */
static inline int untouched(const void *bytes, size_t len) {
    for (size_t i = 0; i < len; i++)
        if (((const uint8_t *)bytes)[i] != 0xa5)
            return 0;
    return 1;
}

static inline int same_record(const struct limecove_record *a, const struct limecove_record *b) {
    return a->kind == b->kind && a->content == b->content && a->name == b->name && a->line == b->line && a->column == b->column &&
           a->index == b->index && a->vs == b->vs && a->previous == b->previous && a->next == b->next;
}

#endif

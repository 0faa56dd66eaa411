/* A library of another version, whose records are longer by a field. test.sh sees that nobody calls more of it than its version: what
 * calls more is told that memory behind its records was written. */
#include <stddef.h>
#include <stdint.h>
#include <stdio.h>
#include <stdlib.h>
#include <string.h>

struct other_record {
    unsigned char bytes[64];
};

struct other_answer {
    uint32_t code, version;
    size_t count;
};

uint32_t limecove_version(void);
struct other_answer limecove_read(const uint8_t *document, size_t document_len, const void *options, struct other_record *records, size_t records_len);
struct other_answer limecove_read_text(const uint8_t *document, size_t document_len, const void *options, struct other_record *records, size_t records_len);

uint32_t limecove_version(void) {
    return 1;
}

struct other_answer limecove_read(const uint8_t *document, size_t document_len, const void *options, struct other_record *records, size_t records_len) {
    struct other_answer answer = {0, 1, records_len};
    (void)document, (void)document_len, (void)options;
    fprintf(stderr, "a library of another version has written\n");
    fflush(stderr);
    memset(records, 0, records_len * sizeof *records);
    return answer;
}

struct other_answer limecove_read_text(const uint8_t *document, size_t document_len, const void *options, struct other_record *records, size_t records_len) {
    return limecove_read(document, document_len, options, records, records_len);
}

struct other_answer limecove_open(const uint8_t *document, size_t document_len, const void *options, struct other_record *reading);
struct other_answer limecove_open_text(const uint8_t *document, size_t document_len, const void *options, struct other_record *reading);
size_t limecove_copy(struct other_record *reading, size_t from, struct other_record *records, size_t records_len);
void limecove_close(struct other_record *reading);

struct other_answer limecove_open(const uint8_t *document, size_t document_len, const void *options, struct other_record *reading) {
    return limecove_read(document, document_len, options, reading, 1);
}

struct other_answer limecove_open_text(const uint8_t *document, size_t document_len, const void *options, struct other_record *reading) {
    return limecove_read(document, document_len, options, reading, 1);
}

size_t limecove_copy(struct other_record *reading, size_t from, struct other_record *records, size_t records_len) {
    (void)reading, (void)from;
    return limecove_read(NULL, 0, NULL, records, records_len).count;
}

void limecove_close(struct other_record *reading) {
    limecove_read(NULL, 0, NULL, reading, 1);
}

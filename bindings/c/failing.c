/* Each allocation fails in turn. The call returns that it ran out of memory and writes no record, or it manages without and writes the
 * same records. In both cases it gives back what it took.
 * usage: failing COUNT   (so many random documents, each in every way). Link with -Wl,--wrap=malloc,--wrap=realloc,--wrap=free. */
#include "cases.h"

void *__real_malloc(size_t size);
void *__real_realloc(void *block, size_t size);
void __real_free(void *block);
void *__wrap_malloc(size_t size);
void *__wrap_realloc(void *block, size_t size);
void __wrap_free(void *block);

static long left = -1; /* how many allocations succeed before one fails; none fails below 0 */
static long blocks;    /* how many blocks there are */
static long failed;    /* how many allocations failed */

static int fails(void) {
    if (left < 0 || left-- > 0)
        return 0;
    failed++;
    return 1;
}

void *__wrap_malloc(size_t size) {
    if (fails())
        return NULL;
    blocks++;
    return __real_malloc(size);
}

void *__wrap_realloc(void *block, size_t size) {
    if (fails())
        return NULL;
    blocks += block == NULL;
    return __real_realloc(block, size);
}

void __wrap_free(void *block) {
    blocks -= block != NULL;
    __real_free(block);
}

/* How many calls ran out of memory. */
static long ended;

/* The same for a reading: it is open and has all events, or it is not open and has no memory. To copy and to close take none. */
static void readings_in_turn(size_t way, const uint8_t *document, size_t len, struct limecove_text_options text, size_t cut,
                             const struct limecove_record *all, size_t count) {
    static struct limecove_record records[4096];
    for (long n = 0;; n++) {
        struct limecove_reading reading = LIMECOVE_NO_READING;
        long before = blocks, refused;
        failed = 0;
        left = n;
        struct limecove_answer answer = open_so(way, document, len, text, cut, &reading);
        left = 0;
        refused = failed;
        size_t written = limecove_copy(&reading, 0, records, 4096);
        if (answer.code == LIMECOVE_READ) {
            CHECK(answer.count == count && written == count && reading.is_open == 1 && blocks > before);
            for (size_t i = 0; i < count; i++)
                CHECK(same_record(&records[i], &all[i]));
        } else {
            CHECK(refused > 0 && answer.code == LIMECOVE_OUT_OF_MEMORY && answer.count == 0);
            CHECK(written == 0 && reading.is_open == 0 && blocks == before);
            ended++;
        }
        limecove_close(&reading);
        left = -1;
        CHECK(reading.is_open == 0 && blocks == before && failed == refused);
        if (refused == 0)
            return;
    }
}

/* Whether the events of a document are these, where no allocation fails. */
static int has_events(struct limecove_document *document, size_t sections, const struct limecove_record *all, size_t count) {
    static struct limecove_record records[4096];
    struct limecove_answer answer = limecove_document_events(document, 0, sections, records, 4096);
    CHECK(answer.code == LIMECOVE_READ && answer.count <= 4096);
    if (answer.count != count)
        return 0;
    for (size_t i = 0; i < count; i++)
        if (!same_record(&records[i], &all[i]))
            return 0;
    return 1;
}

/* The same for a document that is kept: it is open, or it is not and has no memory. If an edit runs out of memory, the document is as it was,
 * and the edit succeeds behind that. */
static void documents_in_turn(const uint8_t *document, size_t len, const uint8_t *with, size_t with_len) {
    static struct limecove_record all[4096], edited[4096], records[4096];
    struct limecove_text_options text = limecove_default_text_options();
    struct limecove_document kept = LIMECOVE_NO_DOCUMENT;
    struct limecove_changed change, untold;
    struct limecove_place place;
    size_t sections, count, from = below(len + 1), to = from + below(len - from + 1);
    long before = blocks;
    for (long n = 0;; n++) {
        failed = 0;
        left = n;
        struct limecove_answer answer = limecove_document_new(document, len, &text, &kept);
        left = -1;
        sections = answer.count;
        if (answer.code == LIMECOVE_READ)
            break;
        CHECK(failed > 0 && answer.code == LIMECOVE_OUT_OF_MEMORY && answer.count == 0 && kept.is_open == 0 && blocks == before);
        ended++;
    }
    for (long n = 0;; n++) {
        struct limecove_defined found;
        struct limecove_byte_range label;
        uint8_t form[64];
        memset(&found, 0xa5, sizeof found);
        memset(&label, 0xa5, sizeof label);
        memset(form, 0xa5, sizeof form);
        failed = 0;
        left = n;
        struct limecove_answer told = limecove_document_definition_of(&kept, (const uint8_t *)"A", 1, &found);
        struct limecove_answer undefined = limecove_document_undefined(&kept, 0, sections, &label, 1);
        struct limecove_answer made = limecove_normalized_label((const uint8_t *)" a  b", 5, form, sizeof form);
        struct limecove_answer copied = limecove_document_bytes(&kept, 0, 0, form, 0);
        left = -1;
        CHECK(copied.code == LIMECOVE_READ && copied.count == 0 && kept.is_open == 1);
        if (failed == 0) {
            CHECK(told.code == LIMECOVE_READ && undefined.code == LIMECOVE_READ && made.code == LIMECOVE_READ && made.count == 3 && memcmp(form, "A B", 3) == 0);
            break;
        }
        CHECK(told.code == LIMECOVE_READ || (told.code == LIMECOVE_OUT_OF_MEMORY && told.count == 0 && untouched(&found, sizeof found)));
        CHECK(made.code == LIMECOVE_READ || (made.code == LIMECOVE_OUT_OF_MEMORY && made.count == 0 && untouched(form, sizeof form)));
        CHECK(undefined.code == LIMECOVE_READ || (undefined.code == LIMECOVE_OUT_OF_MEMORY && undefined.count == 0 && untouched(&label, sizeof label)));
        ended += told.code == LIMECOVE_OUT_OF_MEMORY;
    }
    count = limecove_document_events(&kept, 0, sections, all, 4096).count;
    for (long n = 0;; n++) {
        memset(records, 0xa5, sizeof records);
        failed = 0;
        left = n;
        struct limecove_answer answer = limecove_document_events(&kept, 0, sections, records, 4096);
        left = -1;
        if (answer.code == LIMECOVE_READ) {
            CHECK(answer.count == count);
            if (failed == 0)
                break;
            continue;
        }
        CHECK(failed > 0 && answer.code == LIMECOVE_OUT_OF_MEMORY && answer.count == 0 && untouched(records, sizeof records));
        ended++;
    }
    memset(&change, 0xa5, sizeof change);
    untold = change;
    for (long n = 0;; n++) {
        failed = 0;
        left = n;
        struct limecove_answer answer = limecove_document_replace(&kept, from, to, with, with_len, &change);
        left = -1;
        if (answer.code == LIMECOVE_READ) {
            sections = answer.count;
            break;
        }
        CHECK(failed > 0 && answer.code == LIMECOVE_OUT_OF_MEMORY && answer.count == 0 && memcmp(&change, &untold, sizeof change) == 0);
        CHECK(kept.is_open == 1 && has_events(&kept, sections, all, count));
        ended++;
    }
    uint8_t *bytes = malloc(len - (to - from) + with_len + 1);
    CHECK(bytes != NULL);
    memcpy(bytes, document, from);
    memcpy(bytes + from, with, with_len);
    memcpy(bytes + from + with_len, document + to, len - to);
    struct limecove_options options = limecove_default_options();
    count = limecove_read(bytes, len - (to - from) + with_len, &options, edited, 4096).count;
    CHECK(count <= 4096 && has_events(&kept, sections, edited, count));
    free(bytes);
    left = 0;
    failed = 0;
    CHECK(limecove_document_place(&kept, 0, 1, &place) == LIMECOVE_READ && place.line == 0 && place.character == 0);
    CHECK(limecove_document_others(&kept, 0, NULL, 0) == 0 && limecove_document_start_of(&kept, 0) == 0);
    limecove_document_close(&kept);
    left = -1;
    CHECK(kept.is_open == 0 && blocks == before && failed == 0);
}

/* The same for HTML: it is the same, or nothing is written. */
static void html_in_turn(const uint8_t *document, size_t len) {
    static uint8_t all[65536], out[65536];
    struct limecove_html_options options = limecove_default_html_options();
    size_t count = limecove_html(document, len, &options, all, sizeof all).count;
    CHECK(count <= sizeof all);
    for (long n = 0;; n++) {
        long before = blocks;
        memset(out, 0xa5, sizeof out);
        failed = 0;
        left = n;
        struct limecove_answer answer = limecove_html(document, len, &options, out, sizeof out);
        left = -1;
        CHECK(blocks == before && answer.version == LIMECOVE_VERSION);
        if (answer.code == LIMECOVE_READ) {
            CHECK(answer.count == count && memcmp(out, all, count) == 0 && untouched(out + count, sizeof out - count));
            if (failed == 0)
                return;
            continue;
        }
        CHECK(failed > 0 && answer.code == LIMECOVE_OUT_OF_MEMORY && answer.count == 0 && untouched(out, sizeof out));
        ended++;
    }
}

static void each_in_turn(size_t way, const uint8_t *document, size_t len, struct limecove_text_options text, size_t cut) {
    static struct limecove_record all[4096], records[4096];
    size_t count = read_so(way, document, len, text, cut, all, 4096).count;
    CHECK(count <= 4096);
    for (long n = 0;; n++) {
        long before = blocks;
        memset(records, 0xa5, sizeof records);
        failed = 0;
        left = n;
        struct limecove_answer answer = read_so(way, document, len, text, cut, records, 4096);
        left = -1;
        CHECK(blocks == before);
        CHECK(answer.version == LIMECOVE_VERSION);
        if (answer.code == LIMECOVE_READ) {
            CHECK(answer.count == count);
            for (size_t i = 0; i < count; i++)
                CHECK(same_record(&records[i], &all[i]));
            if (failed == 0) {
                readings_in_turn(way, document, len, text, cut, all, count);
                return;
            }
            continue;
        }
        CHECK(failed > 0 && answer.code == LIMECOVE_OUT_OF_MEMORY && answer.count == 0);
        CHECK(untouched(records, sizeof records));
        ended++;
    }
}

int main(int argc, char **argv) {
    ask_version();
    for (long n = argc > 1 ? atol(argv[1]) : 100; n > 0; n--) {
        size_t len;
        uint8_t *document = random_document(&len);
        for (size_t way = 0; way < WAYS; way++)
            each_in_turn(way, document, len, random_text_options(), below(5));
        size_t with_len;
        uint8_t *with = random_document(&with_len);
        documents_in_turn(document, len, with, with_len);
        html_in_turn(document, len);
        free(with);
        free(document);
    }
    printf("%ld calls ran out of memory\n", ended);
    return ended == 0;
}

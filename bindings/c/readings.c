/* Readings: a document is read once, and its events are copied in rooms of 1, of 7 and of all, and from any place.
 * usage: readings COUNT   (so many random documents, each in every way) */
#include "cases.h"

#define MOST 4096
static struct limecove_record all[MOST];

/* Copies all events into rooms of this size, with a guard behind each, and compares. */
static void in_rooms(struct limecove_reading *reading, size_t count, size_t room) {
    struct limecove_record *records = malloc((room + 1) * sizeof *records);
    size_t from = 0;
    CHECK(records != NULL);
    for (;;) {
        memset(records, 0xa5, (room + 1) * sizeof *records);
        size_t written = limecove_copy(reading, from, records, room);
        CHECK(written == (count - from < room ? count - from : room));
        CHECK(untouched(records + written, (room + 1 - written) * sizeof *records));
        for (size_t i = 0; i < written; i++)
            CHECK(same_record(&records[i], &all[from + i]));
        if (written == 0)
            break;
        from += written;
    }
    CHECK(from == count);
    free(records);
}

/* A reading that is not open has no events, and can be closed. */
static void not_open(struct limecove_reading *reading) {
    struct limecove_record record;
    memset(&record, 0xa5, sizeof record);
    CHECK(reading->is_open == 0);
    CHECK(limecove_copy(reading, 0, &record, 1) == 0 && limecove_copy(reading, 0, NULL, 0) == 0);
    CHECK(untouched(&record, sizeof record));
    limecove_close(reading);
    CHECK(reading->is_open == 0);
}

static void each_way(size_t way, const uint8_t *document, size_t len, struct limecove_text_options text, size_t cut) {
    struct limecove_reading readings[3] = {LIMECOVE_NO_READING, LIMECOVE_NO_READING, LIMECOVE_NO_READING};
    struct limecove_reading *reading = &readings[1];
    struct limecove_record record;
    size_t count = read_so(way, document, len, text, cut, all, MOST).count;
    CHECK(count <= MOST);
    not_open(reading);
    struct limecove_answer answer = open_so(way, document, len, text, below(5), reading);
    CHECK(answer.code == LIMECOVE_READ && answer.version == LIMECOVE_VERSION && answer.count == count);
    CHECK(reading->is_open == 1 && reading->list != NULL);
    in_rooms(reading, count, 1);
    in_rooms(reading, count, 7);
    in_rooms(reading, count, count + 2);
    CHECK(limecove_copy(reading, count, &record, 1) == 0 && limecove_copy(reading, (size_t)-1, &record, 1) == 0);
    CHECK(limecove_copy(reading, 0, NULL, 0) == 0);
    if (count > 0) {
        size_t from = below(count);
        CHECK(limecove_copy(reading, from, &record, 1) == 1 && same_record(&record, &all[from]));
    }
    limecove_close(reading);
    not_open(reading);
    for (size_t i = 0; i < 3; i++)
        CHECK(readings[i].is_open == 0);
    CHECK(readings[0].list == NULL && readings[2].list == NULL);
}

/* Options that choose nothing leave the reading closed. */
static void refused(void) {
    struct limecove_reading reading = LIMECOVE_NO_READING;
    struct limecove_options options = limecove_default_options();
    struct limecove_text_options text = limecove_default_text_options();
    options.machine = UINT32_MAX;
    text.constructs = LIMECOVE_ALL_CONSTRUCTS + 1;
    struct limecove_answer answer = limecove_open((const uint8_t *)"a", 1, &options, &reading);
    CHECK(answer.code == LIMECOVE_NO_SUCH_MACHINE && answer.count == 0);
    not_open(&reading);
    answer = limecove_open_text((const uint8_t *)"a", 1, &text, &reading);
    CHECK(answer.code == LIMECOVE_NO_SUCH_CONSTRUCT && answer.count == 0);
    not_open(&reading);
    answer = limecove_open_text(NULL, 0, &text, &reading);
    CHECK(answer.code == LIMECOVE_NO_SUCH_CONSTRUCT);
    text.constructs = 0;
    answer = limecove_open_text(NULL, 0, &text, &reading);
    CHECK(answer.code == LIMECOVE_READ && answer.count == 0 && reading.is_open == 1);
    limecove_close(&reading);
    not_open(&reading);
}

int main(int argc, char **argv) {
    ask_version();
    refused();
    for (long n = argc > 1 ? atol(argv[1]) : 200; n > 0; n--) {
        size_t len;
        uint8_t *document = random_document(&len);
        for (size_t way = 0; way < WAYS; way++)
            each_way(way, document, len, random_text_options(), below(5));
        free(document);
    }
    return 0;
}

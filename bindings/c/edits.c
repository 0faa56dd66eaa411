/* Random edits of documents that are kept. After each edit the events are those of the edited bytes, read anew; the events of each section
 * that the change does not name are what they were; and places and byte indices lead to each other.
 * usage: edits COUNT EDITS SEED [FILE..]   (so many random documents, and each file, with so many edits each) */
#include "cases.h"

static uint8_t *bytes, *expected; /* the document as it is to be, and as it is to be behind an edit */
static size_t len, room;

static struct limecove_text_options text;

static struct limecove_record *records_of(struct limecove_document *document, size_t from, size_t to, size_t *count) {
    struct limecove_answer answer = limecove_document_events(document, from, to, NULL, 0);
    CHECK(answer.code == LIMECOVE_READ);
    *count = answer.count;
    struct limecove_record *records = malloc((answer.count + 1) * sizeof *records);
    CHECK(records != NULL);
    memset(&records[answer.count], 0xa5, sizeof *records);
    answer = limecove_document_events(document, from, to, records, answer.count + 1);
    CHECK(answer.code == LIMECOVE_READ && answer.count == *count && untouched(&records[*count], sizeof *records));
    return records;
}

/* The events are those of the bytes, read anew. Those of the sections are the same, one behind the other. */
static void is_read_anew(struct limecove_document *document, size_t sections) {
    struct limecove_options options = limecove_default_options();
    struct limecove_reading reading = LIMECOVE_NO_READING;
    size_t count, passed = 0;
    options.tab_size = text.tab_size;
    options.constructs = text.constructs;
    struct limecove_answer answer = limecove_open(bytes, len, &options, &reading);
    CHECK(answer.code == LIMECOVE_READ);
    struct limecove_record *wanted = malloc((answer.count + 1) * sizeof *wanted), *all = records_of(document, 0, sections, &count);
    CHECK(wanted != NULL && limecove_copy(&reading, 0, wanted, answer.count) == answer.count);
    limecove_close(&reading);
    CHECK(count == answer.count);
    for (size_t i = 0; i < count; i++)
        CHECK(same_record(&all[i], &wanted[i]));
    for (size_t section = 0; section < sections; section++) {
        size_t some, start = limecove_document_start_of(document, section), end = limecove_document_start_of(document, section + 1);
        struct limecove_record *records = records_of(document, section, section + 1, &some);
        CHECK(start < end && end <= len && passed + some <= count);
        CHECK(limecove_document_section_at(document, start) == section && limecove_document_section_at(document, end - 1) == section);
        for (size_t i = 0; i < some; i++)
            CHECK(same_record(&records[i], &all[passed + i]));
        passed += some;
        free(records);
    }
    CHECK(passed == count && limecove_document_start_of(document, 0) == 0);
    CHECK(limecove_document_start_of(document, sections) == len && limecove_document_start_of(document, (size_t)-1) == len);
    CHECK(limecove_document_section_at(document, len) == sections && limecove_document_section_at(document, (size_t)-1) == sections);
    free(wanted);
    free(all);
}

/* The byte index of the place of a byte index is the byte index, but for that between CR and LF. */
static void has_places(struct limecove_document *document) {
    for (int n = 0; n < 8; n++) {
        size_t byte = below(len + 3), back = 7;
        uint32_t utf16 = (uint32_t)below(2);
        struct limecove_place place = {7, 7};
        uint32_t code = limecove_document_place(document, byte, utf16, &place);
        CHECK(code == LIMECOVE_READ || code == LIMECOVE_NO_SUCH_BYTES);
        if (code != LIMECOVE_READ) {
            CHECK(place.line == 7 && place.character == 7 && (byte > len || (byte < len && (bytes[byte] & 0xc0) == 0x80)));
            continue;
        }
        size_t line = 0;
        for (size_t i = 0; i < byte; i++)
            line += bytes[i] == '\n' || (bytes[i] == '\r' && (i + 1 == len || bytes[i + 1] != '\n'));
        CHECK(byte <= len && place.line == line);
        CHECK(limecove_document_index(document, place.line, place.character, utf16, &back) == LIMECOVE_READ);
        int is_between = byte > 0 && byte < len && bytes[byte - 1] == '\r' && bytes[byte] == '\n';
        CHECK(back == byte - (size_t)is_between);
    }
    size_t index = 7;
    CHECK(limecove_document_index(document, len + 1, 0, 0, &index) == LIMECOVE_NO_SUCH_BYTES && index == 7);
}

/* The bytes of a range are those of the document, as many as fit, and nothing else is written. */
static void has_bytes(struct limecove_document *document) {
    size_t from = below(len + 1), to = from + below(len - from + 1), fits = below(2) ? to - from + 1 : below(to - from + 1);
    uint8_t *out = malloc(to - from + 2);
    CHECK(out != NULL);
    memset(out, 0xa5, to - from + 2);
    struct limecove_answer answer = limecove_document_bytes(document, from, to, out, fits);
    size_t some = fits < to - from ? fits : to - from;
    CHECK(answer.code == LIMECOVE_READ && answer.version == LIMECOVE_VERSION && answer.count == to - from);
    CHECK(memcmp(out, bytes + from, some) == 0 && untouched(out + some, to - from + 2 - some));
    memset(out, 0xa5, to - from + 2);
    answer = limecove_document_bytes(document, from, len + 1, out, fits);
    CHECK(answer.code == LIMECOVE_NO_SUCH_BYTES && answer.count == 0 && untouched(out, to - from + 2));
    answer = limecove_document_bytes(document, to + 1, to, out, fits);
    CHECK(answer.code == LIMECOVE_NO_SUCH_BYTES && untouched(out, to - from + 2));
    CHECK(limecove_document_bytes(document, from, to, NULL, 0).count == to - from);
    free(out);
}

/* Two labels are the same. */
static int same_label(const uint8_t *a, size_t a_len, const uint8_t *b, size_t b_len) {
    static uint8_t forms[2][4096];
    struct limecove_answer first = limecove_normalized_label(a, a_len, forms[0], 4096), second = limecove_normalized_label(b, b_len, forms[1], 4096);
    CHECK(first.code == LIMECOVE_READ && second.code == LIMECOVE_READ && first.count <= 4096 && second.count <= 4096);
    return first.count == second.count && memcmp(forms[0], forms[1], first.count) == 0;
}

static size_t defined; /* how many definitions were looked up */

/* Each label of a definition that is in one line leads to the first definition with this label, which may have more lines. */
static void has_definitions(struct limecove_document *document, size_t sections) {
    size_t count;
    struct limecove_record *all = records_of(document, 0, sections, &count);
    for (size_t at = 0, begun = 0; at < count; at++) {
        struct limecove_defined found;
        memset(&found, 0xa5, sizeof found);
        begun = all[at].kind == LIMECOVE_ENTER && all[at].name == LIMECOVE_NAME_DEFINITION ? at : begun;
        if (all[at].kind != LIMECOVE_ENTER || all[at].name != LIMECOVE_NAME_DEFINITION_LABEL_STRING)
            continue;
        size_t end = at, first = begun;
        while (all[end].kind != LIMECOVE_EXIT || all[end].name != LIMECOVE_NAME_DEFINITION_LABEL_STRING)
            end++;
        if (all[end].line != all[at].line)
            continue;
        const uint8_t *label = bytes + all[at].index;
        size_t label_len = all[end].index - all[at].index;
        CHECK(limecove_is_label(label, label_len) == 1);
        struct limecove_answer answer = limecove_document_definition_of(document, label, label_len, &found);
        CHECK(answer.code == LIMECOVE_READ && answer.count == 1 && found.from <= all[begun].index && found.from < found.to);
        CHECK(found.section == limecove_document_section_at(document, found.from));
        while (first > 0 && all[first].index >= found.from)
            first--;
        while (first < count && (all[first].index != found.from || all[first].kind != LIMECOVE_ENTER || all[first].name != LIMECOVE_NAME_DEFINITION))
            first++;
        CHECK(first <= begun);
        /* none in front of it has this label */
        for (size_t i = 0, start = 0; i < at; i++) {
            start = all[i].name == LIMECOVE_NAME_DEFINITION_LABEL_STRING && all[i].kind == LIMECOVE_ENTER ? i : start;
            if (all[i].name != LIMECOVE_NAME_DEFINITION_LABEL_STRING || all[i].kind != LIMECOVE_EXIT || all[i].line != all[start].line)
                continue;
            if (same_label(label, label_len, bytes + all[start].index, all[i].index - all[start].index))
                CHECK(all[start].index > found.from);
        }
        defined++;
    }
    struct limecove_defined found;
    memset(&found, 0xa5, sizeof found);
    struct limecove_answer answer = limecove_document_definition_of(document, (const uint8_t *)"no such label", 13, &found);
    CHECK(answer.code == LIMECOVE_READ && answer.count == 0 && untouched(&found, sizeof found));
    free(all);
}

static size_t undefined; /* how many references that nothing defines were told */

/* Each label that nothing defines stands between brackets, in order, and no definition is found of one in one line. Sections have theirs. */
static void has_undefined(struct limecove_document *document, size_t sections) {
    static struct limecove_byte_range labels[4096];
    struct limecove_answer answer = limecove_document_undefined(document, 0, sections, labels, 4096);
    CHECK(answer.code == LIMECOVE_READ);
    size_t count = answer.count < 4096 ? answer.count : 4096, all = 0;
    for (size_t i = 0; i < count; i++) {
        size_t from = labels[i].from, to = labels[i].to;
        struct limecove_defined found;
        CHECK(0 < from && from < to && to < len && bytes[from - 1] == '[' && bytes[to] == ']');
        CHECK(i == 0 || labels[i - 1].to < from);
        if (memchr(bytes + from, '\n', to - from) != NULL || memchr(bytes + from, '\r', to - from) != NULL)
            continue;
        CHECK(limecove_is_label(bytes + from, to - from) == 1);
        CHECK(limecove_document_definition_of(document, bytes + from, to - from, &found).count == 0);
        undefined++;
    }
    for (size_t i = 0; i < sections; i++) {
        struct limecove_byte_range one;
        answer = limecove_document_undefined(document, i, i + 1, &one, 1);
        CHECK(answer.code == LIMECOVE_READ);
        CHECK(answer.count == 0 || all >= count || (one.from == labels[all].from && one.to == labels[all].to));
        all += answer.count;
    }
    CHECK(all == limecove_document_undefined(document, 0, sections, NULL, 0).count);
}

/* The same event, where the section starts is left aside: lines, indices in the document and links are not compared. */
static int same_in_section(const struct limecove_record *a, size_t a_start, const struct limecove_record *b, size_t b_start) {
    return a->kind == b->kind && a->content == b->content && a->name == b->name && a->column == b->column && a->vs == b->vs &&
           a->index - a_start == b->index - b_start;
}

struct section {
    size_t start, count;
    struct limecove_record *records;
};

static struct section *sections_of(struct limecove_document *document, size_t count) {
    struct section *sections = malloc((count + 1) * sizeof *sections);
    CHECK(sections != NULL);
    for (size_t i = 0; i < count; i++) {
        sections[i].start = limecove_document_start_of(document, i);
        sections[i].records = records_of(document, i, i + 1, &sections[i].count);
    }
    return sections;
}

static void free_sections(struct section *sections, size_t count) {
    for (size_t i = 0; i < count; i++)
        free(sections[i].records);
    free(sections);
}

/* Sections that are not named have the events that they had, and so have those that are named for their targets; those that are named for their
 * events have not. Returns how many others were named. */
static size_t is_change(struct limecove_document *document, const struct limecove_changed *change, const struct section *old, size_t old_count,
                        size_t count) {
    struct limecove_named *others = malloc((change->others + 1) * sizeof *others);
    CHECK(others != NULL);
    memset(others, 0xa5, (change->others + 1) * sizeof *others);
    CHECK(limecove_document_others(document, 0, others, change->others + 1) == change->others);
    CHECK(untouched(&others[change->others], sizeof *others));
    CHECK(limecove_document_others(document, change->others, others, 0) == 0 && limecove_document_others(document, (size_t)-1, NULL, 0) == 0);
    CHECK(change->from <= change->old_to && change->old_to <= old_count && change->from <= change->new_to && change->new_to <= count);
    CHECK(old_count - change->old_to == count - change->new_to);
    CHECK(change->start == limecove_document_start_of(document, change->from) && change->end == limecove_document_start_of(document, change->new_to));
    struct section *now = sections_of(document, count);
    for (size_t i = 0; i < count; i++) {
        int has_others = 0;
        if (change->from <= i && i < change->new_to)
            continue;
        for (size_t n = 0; n < change->others; n++)
            has_others |= others[n].section == i && others[n].why == LIMECOVE_WHY_EVENTS;
        const struct section *was = &old[i < change->from ? i : i - change->new_to + change->old_to];
        int is_same = now[i].count == was->count;
        for (size_t n = 0; is_same && n < was->count; n++)
            is_same = same_in_section(&now[i].records[n], now[i].start, &was->records[n], was->start);
        CHECK(is_same == !has_others);
    }
    free_sections(now, count);
    free(others);
    return change->others;
}

static size_t others, kept; /* how many others have other events than before, and how many sections stayed */

/* Puts random bytes in the place of others, in the library and here. Returns how many sections there are. */
static size_t edit(struct limecove_document *document, size_t sections) {
    static const char *const more[] = {"# a\n\n", "[a]: b\n", "[a]", "\n\n", "\xc3\xa9", "\xf0\x9f\x8c\xb3", "```\n", "    c\n", "- d\n\n", "***\n", "<!--", "-->\n\n"};
    size_t from = below(len + 1), to = from + below(below(3) ? 4 : 40), with_len;
    uint8_t *with = random_document(&with_len);
    const char *piece = more[below(sizeof more / sizeof *more)];
    struct limecove_changed change, before;
    if (to > len)
        to = len;
    if (below(3)) {
        free(with);
        with = malloc(strlen(piece) + 1);
        CHECK(with != NULL);
        with_len = below(4) ? strlen(piece) : 0;
        memcpy(with, piece, with_len);
    }
    memset(&change, 0xa5, sizeof change);
    before = change;
    struct limecove_answer answer = limecove_document_replace(document, len + 1, len + 1, with, with_len, &change);
    CHECK(answer.code == LIMECOVE_NO_SUCH_BYTES && answer.count == 0 && memcmp(&change, &before, sizeof change) == 0);
    if (from > 0) {
        answer = limecove_document_replace(document, from, from - 1, with, with_len, &change);
        CHECK(answer.code == LIMECOVE_NO_SUCH_BYTES && memcmp(&change, &before, sizeof change) == 0);
    }
    answer = limecove_document_replace(document, from, len + 1, with, with_len, &change);
    CHECK(answer.code == LIMECOVE_NO_SUCH_BYTES && memcmp(&change, &before, sizeof change) == 0);
    struct section *old = sections_of(document, sections);
    CHECK(len - (to - from) + with_len <= room);
    memcpy(expected, bytes, from);
    memcpy(expected + from, with, with_len);
    memcpy(expected + from + with_len, bytes + to, len - to);
    answer = limecove_document_replace(document, from, to, with, with_len, &change);
    CHECK(answer.code == LIMECOVE_READ && answer.version == LIMECOVE_VERSION);
    len = len - (to - from) + with_len;
    uint8_t *last = bytes;
    bytes = expected;
    expected = last;
    others += is_change(document, &change, old, sections, answer.count);
    kept += answer.count - (change.new_to - change.from);
    free_sections(old, sections);
    free(with);
    return answer.count;
}

/* A document that is not open has nothing, and can be closed. */
static void not_open(struct limecove_document *document) {
    struct limecove_record record;
    struct limecove_changed change;
    struct limecove_place place;
    struct limecove_defined found;
    struct limecove_byte_range label;
    uint8_t byte = 0xa5;
    size_t number = 7;
    struct limecove_named named;
    memset(&named, 0xa5, sizeof named);
    memset(&label, 0xa5, sizeof label);
    memset(&found, 0xa5, sizeof found);
    memset(&record, 0xa5, sizeof record);
    memset(&change, 0xa5, sizeof change);
    memset(&place, 0xa5, sizeof place);
    CHECK(document->is_open == 0);
    CHECK(limecove_document_replace(document, 0, 0, NULL, 0, &change).code == LIMECOVE_NOT_OPEN && untouched(&change, sizeof change));
    CHECK(limecove_document_events(document, 0, 0, &record, 1).code == LIMECOVE_NOT_OPEN && untouched(&record, sizeof record));
    CHECK(limecove_document_place(document, 0, 0, &place) == LIMECOVE_NOT_OPEN && untouched(&place, sizeof place));
    CHECK(limecove_document_index(document, 0, 0, 0, &number) == LIMECOVE_NOT_OPEN && number == 7);
    CHECK(limecove_document_others(document, 0, &named, 1) == 0 && untouched(&named, sizeof named));
    CHECK(limecove_document_bytes(document, 0, 0, &byte, 1).code == LIMECOVE_NOT_OPEN && byte == 0xa5);
    CHECK(limecove_document_definition_of(document, &byte, 1, &found).code == LIMECOVE_NOT_OPEN && untouched(&found, sizeof found));
    CHECK(limecove_document_undefined(document, 0, 0, &label, 1).code == LIMECOVE_NOT_OPEN && untouched(&label, sizeof label));
    CHECK(limecove_document_section_at(document, 0) == 0 && limecove_document_start_of(document, 0) == 0);
    limecove_document_close(document);
    CHECK(document->is_open == 0);
}

static void edit_all(size_t edits) {
    struct limecove_document document = LIMECOVE_NO_DOCUMENT;
    struct limecove_record record;
    not_open(&document);
    struct limecove_answer answer = limecove_document_new(bytes, len, &text, &document);
    CHECK(answer.code == LIMECOVE_READ && answer.version == LIMECOVE_VERSION && document.is_open == 1);
    size_t sections = answer.count;
    is_read_anew(&document, sections);
    while (edits-- > 0) {
        sections = edit(&document, sections);
        is_read_anew(&document, sections);
        has_places(&document);
        has_bytes(&document);
        has_definitions(&document, sections);
        has_undefined(&document, sections);
    }
    CHECK(limecove_document_events(&document, 0, sections + 1, &record, 1).code == LIMECOVE_NO_SUCH_RANGES);
    CHECK(limecove_document_undefined(&document, 0, sections + 1, NULL, 0).code == LIMECOVE_NO_SUCH_RANGES);
    CHECK(sections == 0 || limecove_document_events(&document, 1, 0, &record, 1).code == LIMECOVE_NO_SUCH_RANGES);
    limecove_document_close(&document);
    not_open(&document);
}

/* Room for a document of this length, and for edits. */
static void make_room(size_t most) {
    room = most;
    bytes = malloc(room + 1);
    expected = malloc(room + 1);
    CHECK(bytes != NULL && expected != NULL);
}

static void edit_file(const char *path, size_t edits) {
    FILE *file = fopen(path, "rb");
    CHECK(file != NULL && fseek(file, 0, SEEK_END) == 0);
    long size = ftell(file);
    CHECK(size >= 0 && fseek(file, 0, SEEK_SET) == 0);
    make_room((size_t)size + edits * 240);
    len = (size_t)size;
    CHECK(fread(bytes, 1, len, file) == len);
    fclose(file);
    text = limecove_default_text_options();
    edit_all(edits);
    free(bytes);
    free(expected);
}

int main(int argc, char **argv) {
    long count = argc > 1 ? atol(argv[1]) : 200;
    size_t edits = argc > 2 ? (size_t)atol(argv[2]) : 20;
    random_state = argc > 3 ? (uint64_t)atol(argv[3]) : 1;
    ask_version();
    text = limecove_default_text_options();
    text.size = 0;
    struct limecove_document document = LIMECOVE_NO_DOCUMENT;
    CHECK(limecove_document_new((const uint8_t *)"a", 1, &text, &document).code == LIMECOVE_OTHER_SIZE);
    not_open(&document);
    for (long n = 0; n < count; n++) {
        make_room(8 * 242 + edits * 240);
        len = 0;
        for (size_t parts = 1 + below(8); parts > 0; parts--) {
            size_t more;
            uint8_t *part = random_document(&more);
            memcpy(bytes + len, part, more);
            len += more;
            memcpy(bytes + len, "\n\n", 2);
            len += 2;
            free(part);
        }
        text = random_text_options();
        if (below(4))
            text.constructs = LIMECOVE_HTML_CONSTRUCTS + below(2) * LIMECOVE_GFM_STRIKETHROUGH_DOUBLE_TILDE;
        edit_all(edits);
        free(bytes);
        free(expected);
    }
    for (int i = 4; i < argc; i++)
        edit_file(argv[i], edits);
    printf("%zu sections stayed, %zu others have other events than before\n", kept, others);
    printf("%zu definitions were looked up, and %zu labels of none\n", defined, undefined);
    return 0;
}

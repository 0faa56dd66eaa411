/* Where each field lies, as the header and the library have it. The header's side is stated when this is compiled, as C and as C++. When
 * it is run, the library writes back each field. */
#include "cases.h"

#ifdef __cplusplus
#define IS(what) static_assert(what, #what)
#else
#define IS(what) _Static_assert(what, #what)
#endif
#define LIES(type, field, place, size) IS(offsetof(struct type, field) == (place) && sizeof(((struct type *)0)->field) == (size))

LIES(limecove_text_options, size, 0, 8);
LIES(limecove_text_options, tab_size, 8, 8);
LIES(limecove_text_options, constructs, 16, 8);
IS(sizeof(struct limecove_text_options) == 24);

LIES(limecove_options, size, 0, 8);
LIES(limecove_options, tab_size, 8, 8);
LIES(limecove_options, constructs, 16, 8);
LIES(limecove_options, cut, 24, 8);
LIES(limecove_options, machine, 32, 4);
LIES(limecove_options, deep, 36, 4);
IS(sizeof(struct limecove_options) == 40);

LIES(limecove_html_options, size, 0, 8);
LIES(limecove_html_options, tab_size, 8, 8);
LIES(limecove_html_options, constructs, 16, 8);
LIES(limecove_html_options, allow, 24, 8);
IS(sizeof(struct limecove_html_options) == 32);

LIES(limecove_byte_range, from, 0, 8);
LIES(limecove_byte_range, to, 8, 8);
IS(sizeof(struct limecove_byte_range) == 16);

LIES(limecove_record, kind, 0, 2);
LIES(limecove_record, content, 2, 2);
LIES(limecove_record, name, 4, 4);
LIES(limecove_record, line, 8, 8);
LIES(limecove_record, column, 16, 8);
LIES(limecove_record, index, 24, 8);
LIES(limecove_record, vs, 32, 8);
LIES(limecove_record, previous, 40, 8);
LIES(limecove_record, next, 48, 8);
IS(sizeof(struct limecove_record) == 56);

LIES(limecove_answer, code, 0, 4);
LIES(limecove_answer, version, 4, 4);
LIES(limecove_answer, count, 8, 8);
IS(sizeof(struct limecove_answer) == 16);

LIES(limecove_reading, is_open, 0, 8);
LIES(limecove_reading, list, 8, 8);
IS(sizeof(struct limecove_reading) == 16);

LIES(limecove_document, is_open, 0, 8);
LIES(limecove_document, held, 8, 8);
IS(sizeof(struct limecove_document) == 16);

LIES(limecove_changed, from, 0, 8);
LIES(limecove_changed, old_to, 8, 8);
LIES(limecove_changed, new_to, 16, 8);
LIES(limecove_changed, start, 24, 8);
LIES(limecove_changed, end, 32, 8);
LIES(limecove_changed, others, 40, 8);
IS(sizeof(struct limecove_changed) == 48);

LIES(limecove_named, section, 0, 8);
LIES(limecove_named, why, 8, 4);
IS(sizeof(struct limecove_named) == 16);

LIES(limecove_place, line, 0, 8);
LIES(limecove_place, character, 8, 8);
IS(sizeof(struct limecove_place) == 16);

LIES(limecove_defined, section, 0, 8);
LIES(limecove_defined, from, 8, 8);
LIES(limecove_defined, to, 16, 8);
IS(sizeof(struct limecove_defined) == 24);

/* A number with bits in each byte of a field, so that a field that is cut or moved shows. */
#define LONG(n) ((size_t)0x0101010101010101u * (n))

/* Whether a record has these numbers, and 0 in its other fields. */
static int is(const struct limecove_record *record, uint32_t name, size_t line, size_t column, size_t index, size_t vs, size_t previous) {
    return record->kind == 0 && record->content == 0 && record->name == name && record->line == line && record->column == column &&
           record->index == index && record->vs == vs && record->previous == previous && record->next == 0;
}

int main(void) {
    struct limecove_options options;
    struct limecove_text_options text;
    struct limecove_html_options html;
    struct limecove_byte_range range;
    struct limecove_record records[5]; /* the first and the last are guards */
    struct limecove_answer answer;
    ask_version();
    options.size = LONG(1);
    options.tab_size = LONG(2);
    options.constructs = LONG(3);
    options.cut = LONG(4);
    options.machine = 0x05050505;
    options.deep = 0x06060606;
    text.size = LONG(7);
    text.tab_size = LONG(8);
    text.constructs = LONG(9);
    memset(records, 0xa5, sizeof records);
    answer = limecove_echo(&options, &text, &records[1], &records[2], &records[3]);
    CHECK(answer.code == 1 && answer.version == LIMECOVE_VERSION && answer.count == 3);
    CHECK(untouched(&records[0], sizeof *records) && untouched(&records[4], sizeof *records));
    CHECK(records[1].kind == 1 && records[1].content == 2 && records[1].name == 3 && records[1].line == 4 && records[1].column == 5);
    CHECK(records[1].index == 6 && records[1].vs == 7 && records[1].previous == 8 && records[1].next == 9);
    CHECK(is(&records[2], 0x05050505, LONG(1), LONG(2), LONG(4), 0x06060606, LONG(3)));
    CHECK(is(&records[3], 0, LONG(7), LONG(8), 0, 0, LONG(9)));
    range.from = LONG(10);
    range.to = LONG(11);
    memset(records, 0xa5, sizeof records);
    limecove_echo_range(&range, &records[1]);
    CHECK(untouched(&records[0], sizeof *records) && untouched(&records[2], 3 * sizeof *records));
    CHECK(is(&records[1], 0, LONG(10), LONG(11), 0, 0, 0));
    html.size = LONG(12);
    html.tab_size = LONG(13);
    html.constructs = LONG(14);
    html.allow = LONG(15);
    memset(records, 0xa5, sizeof records);
    limecove_echo_html(&html, &records[1]);
    CHECK(untouched(&records[0], sizeof *records) && untouched(&records[2], 3 * sizeof *records));
    CHECK(records[1].next == LONG(15));
    records[1].next = 0;
    CHECK(is(&records[1], 0, LONG(12), LONG(13), 0, 0, LONG(14)));
    return 0;
}

/* Every room from none to more than enough: the first events are written, as many as fit, and no byte behind them. And each construct on and
 * off.
 * usage: rooms COUNT   (so many random documents, each in every way) */
#include "cases.h"

#define GUARD 4

/* Reads into a block of `room` records with guards behind them, and compares with the records of all events. */
static void with_room(size_t way, const uint8_t *document, size_t len, struct limecove_text_options text, size_t cut,
                      const struct limecove_record *all, size_t count, size_t room) {
    size_t size = (room + GUARD) * sizeof(struct limecove_record);
    struct limecove_record *records = malloc(size);
    CHECK(records != NULL);
    memset(records, 0xa5, size);
    struct limecove_answer answer = read_so(way, document, len, text, cut, records, room);
    CHECK(answer.code == LIMECOVE_READ && answer.version == LIMECOVE_VERSION && answer.count == count);
    size_t written = room < count ? room : count;
    for (size_t i = 0; i < written; i++)
        CHECK(same_record(&records[i], &all[i]));
    CHECK(untouched(records + written, (room + GUARD - written) * sizeof *records));
    free(records);
}

/* NULL is a document of no bytes, and records of no room, in every way. */
static void null_is_none(void) {
    struct limecove_text_options text = limecove_default_text_options();
    struct limecove_record all[64], record;
    const uint8_t *document = (const uint8_t *)"a `b`\n";
    memset(&record, 0xa5, sizeof record);
    for (size_t way = 0; way < WAYS; way++) {
        struct limecove_answer answer = read_so(way, NULL, 0, text, 0, NULL, 0);
        CHECK(answer.code == LIMECOVE_READ && answer.count == 0);
        answer = read_so(way, NULL, 0, text, 1, &record, 1);
        CHECK(answer.code == LIMECOVE_READ && answer.count == 0 && untouched(&record, sizeof record));
        size_t count = read_so(way, document, 6, text, 0, all, 64).count;
        answer = read_so(way, document, 6, text, 0, NULL, 0);
        CHECK(answer.code == LIMECOVE_READ && answer.count == count);
    }
}

/* Options that choose nothing: the code says why, and nothing is written. */
static void refused(void) {
    struct limecove_record record;
    struct limecove_options options[6];
    struct limecove_text_options texts[3];
    const uint32_t codes[] = {LIMECOVE_OTHER_SIZE, LIMECOVE_NO_SUCH_TAB_SIZE, LIMECOVE_NO_SUCH_CONSTRUCT, LIMECOVE_NO_SUCH_MACHINE, LIMECOVE_NO_SUCH_MACHINE, LIMECOVE_LINKS_NO_TEXT};
    for (size_t i = 0; i < 6; i++)
        options[i] = limecove_default_options();
    for (size_t i = 0; i < 3; i++)
        texts[i] = limecove_default_text_options();
    options[0].size = texts[0].size = 32;
    options[1].tab_size = texts[1].tab_size = 17;
    options[2].constructs = 2 * LIMECOVE_GFM_STRIKETHROUGH_DOUBLE_TILDE;
    texts[2].constructs = LIMECOVE_ALL_CONSTRUCTS + 1;
    options[3].machine = 9;
    options[4].machine = UINT32_MAX;
    options[5].machine = LIMECOVE_LINES;
    memset(&record, 0xa5, sizeof record);
    for (size_t i = 0; i < 6; i++) {
        struct limecove_answer answer = limecove_read((const uint8_t *)"a", 1, &options[i], &record, 1);
        CHECK(answer.code == codes[i] && answer.count == 0 && untouched(&record, sizeof record));
        CHECK(limecove_code_text(answer.code) != NULL);
    }
    for (size_t i = 0; i < 3; i++) {
        struct limecove_answer answer = limecove_read_text((const uint8_t *)"a", 1, &texts[i], &record, 1);
        CHECK(answer.code == codes[i] && answer.count == 0 && untouched(&record, sizeof record));
    }
}

/* Literals, checks and tables are only in whole documents with their texts, and in edited ones: elsewhere there is no such construct, and nothing is written. */
static void literals_need_documents(void) {
    static const uint64_t bits[] = {LIMECOVE_GFM_AUTOLINK_LITERAL, LIMECOVE_GFM_TASK_LIST_ITEM, LIMECOVE_GFM_TABLE};
    struct limecove_record record;
    memset(&record, 0xa5, sizeof record);
    for (size_t i = 0; i < sizeof bits / sizeof *bits; i++) {
        struct limecove_document document = LIMECOVE_NO_DOCUMENT;
        struct limecove_options options = limecove_default_options();
        struct limecove_text_options text = limecove_default_text_options();
        struct limecove_answer answer;
        options.constructs = text.constructs = LIMECOVE_COMMONMARK + bits[i];
        answer = limecove_read((const uint8_t *)"a", 1, &options, NULL, 0);
        CHECK(answer.code == LIMECOVE_READ && answer.count == 4);
        for (uint32_t machine = 0; machine < LIMECOVE_DOCUMENT; machine++) {
            options.machine = machine;
            answer = limecove_read((const uint8_t *)"a", 1, &options, &record, 1);
            CHECK(answer.code == LIMECOVE_NO_SUCH_CONSTRUCT && answer.count == 0);
        }
        options.machine = LIMECOVE_DOCUMENT;
        options.deep = 0;
        answer = limecove_read((const uint8_t *)"a", 1, &options, &record, 1);
        CHECK(answer.code == LIMECOVE_NO_SUCH_CONSTRUCT && answer.count == 0);
        answer = limecove_read_text((const uint8_t *)"a", 1, &text, &record, 1);
        CHECK(answer.code == LIMECOVE_NO_SUCH_CONSTRUCT && answer.count == 0 && untouched(&record, sizeof record));
        answer = limecove_document_new((const uint8_t *)"a", 1, &text, &document);
        CHECK(answer.code == LIMECOVE_READ && document.is_open == 1);
        limecove_document_close(&document);
    }
}

/* Ranges that are no text: they run backwards or past the end, overlap, or leave out what does not begin a line. */
static void no_ranges(void) {
    static const struct limecove_byte_range ranges[][2] = {{{0, 1}, {1, 9}}, {{0, 1}, {1, 0}}, {{0, 2}, {1, 2}}, {{0, 1}, {2, 3}}, {{0, 2}, {4, 5}}, {{5, 5}, {6, 7}}, {{0, 1}, {1, (size_t)-1}}, {{(size_t)-1, (size_t)-1}, {0, 0}}};
    struct limecove_text_options text = limecove_default_text_options();
    struct limecove_record record;
    struct limecove_answer answer;
    memset(&record, 0xa5, sizeof record);
    for (size_t i = 0; i < sizeof ranges / sizeof *ranges; i++) {
        struct limecove_reading reading = LIMECOVE_NO_READING;
        answer = limecove_read_text_in((const uint8_t *)"a\nb\nc\r\n", 7, ranges[i], 2, &text, &record, 1);
        CHECK(answer.code == LIMECOVE_NO_SUCH_RANGES && answer.count == 0 && untouched(&record, sizeof record));
        answer = limecove_open_text_in((const uint8_t *)"a\nb\nc\r\n", 7, ranges[i], 2, &text, &reading);
        CHECK(answer.code == LIMECOVE_NO_SUCH_RANGES && answer.count == 0 && reading.is_open == 0);
    }
    answer = limecove_read_text_in((const uint8_t *)"a", 1, NULL, 0, &text, &record, 1);
    CHECK(answer.code == LIMECOVE_READ && answer.count == 0 && untouched(&record, sizeof record));
    text.size = 40;
    answer = limecove_read_text_in((const uint8_t *)"a", 1, ranges[1], 2, &text, &record, 1);
    CHECK(answer.code == LIMECOVE_OTHER_SIZE);
}

/* Names and codes as text, at both ends of their numbers. */
static void texts_of_numbers(void) {
    CHECK(strcmp(limecove_name_text(LIMECOVE_NAME_ATTENTION_SEQUENCE), "AttentionSequence") == 0);
    CHECK(strcmp(limecove_name_text(LIMECOVE_NAME_CODE_TEXT), "CodeText") == 0);
    CHECK(strcmp(limecove_name_text(LIMECOVE_NAME_LINE_PREFIX), "LinePrefix") == 0);
    CHECK(limecove_name_text(LIMECOVE_NAME_LINE_PREFIX + 1) == NULL && limecove_name_text(UINT32_MAX) == NULL);
    CHECK(limecove_name_is_void(LIMECOVE_NAME_DATA) && !limecove_name_is_void(LIMECOVE_NAME_PARAGRAPH));
    CHECK(limecove_name_is_void(LIMECOVE_NAME_THEMATIC_BREAK_SEQUENCE) && !limecove_name_is_void(UINT32_MAX));
    CHECK(strcmp(limecove_code_text(LIMECOVE_OUT_OF_MEMORY), "out of memory") == 0);
    CHECK(strcmp(limecove_code_text(LIMECOVE_LINKS_NO_TEXT), "the machine links no text") == 0);
    CHECK(strcmp(limecove_code_text(LIMECOVE_NO_SUCH_RANGES), "the ranges are no text") == 0);
    CHECK(strcmp(limecove_code_text(LIMECOVE_NO_SUCH_PERMISSION), "no such permission") == 0);
    CHECK(limecove_code_text(LIMECOVE_NO_SUCH_PERMISSION + 1) == NULL);
}

/* HTML of a document, as the options say, in every room: the first bytes are written, as many as fit, and no byte behind them. */
static void is_html(const char *document, const struct limecove_html_options *options, const char *html) {
    size_t len = strlen(document), count = strlen(html);
    uint8_t out[256];
    CHECK(count + GUARD <= sizeof out);
    for (size_t room = 0; room <= count + GUARD; room++) {
        memset(out, 0xa5, sizeof out);
        struct limecove_answer answer = limecove_html((const uint8_t *)document, len, options, room == 0 ? NULL : out, room);
        size_t written = room < count ? room : count;
        CHECK(answer.code == LIMECOVE_READ && answer.version == LIMECOVE_VERSION && answer.count == count);
        CHECK(memcmp(out, html, written) == 0 && untouched(out + written, sizeof out - written));
    }
}

/* HTML is safe, but for what the options let through. */
static void documents_are_html(void) {
    const char *document = "<b> [c](d:e) ![f](d:g)";
    struct limecove_html_options options = limecove_default_html_options();
    is_html("", &options, "");
    is_html("# a *b*\n\n- c\n", &options, "<h1>a <em>b</em></h1>\n<ul>\n<li>c</li>\n</ul>\n");
    is_html("\ta", &options, "<pre><code>a\n</code></pre>\n");
    is_html(document, &options, "<p>&lt;b&gt; <a href=\"\">c</a> <img src=\"\" alt=\"f\" /></p>\n");
    options.allow = LIMECOVE_ALLOW_DANGEROUS_HTML;
    is_html(document, &options, "<p><b> <a href=\"\">c</a> <img src=\"\" alt=\"f\" /></p>\n");
    options.allow = LIMECOVE_ALLOW_DANGEROUS_PROTOCOL;
    is_html(document, &options, "<p>&lt;b&gt; <a href=\"d:e\">c</a> <img src=\"d:g\" alt=\"f\" /></p>\n");
    options.allow = LIMECOVE_ALLOW_ANY_IMG_SRC;
    is_html(document, &options, "<p>&lt;b&gt; <a href=\"\">c</a> <img src=\"d:g\" alt=\"f\" /></p>\n");
    options.allow = LIMECOVE_ALLOW_ALL;
    is_html(document, &options, "<p><b> <a href=\"d:e\">c</a> <img src=\"d:g\" alt=\"f\" /></p>\n");
    options.allow = LIMECOVE_ALLOW_DANGEROUS_HTML + LIMECOVE_GFM_TAGFILTER;
    is_html("<b></STYLE ><scripty>", &options, "<p><b>&lt;/STYLE ><scripty></p>\n");
    options.allow = LIMECOVE_GFM_TAGFILTER;
    is_html("<b></STYLE >", &options, "<p>&lt;b&gt;&lt;/STYLE &gt;</p>\n");
    options = limecove_default_html_options();
    options.constructs -= LIMECOVE_ATTENTION;
    is_html("*a*", &options, "<p>*a*</p>\n");
    options.tab_size = 2;
    is_html("\ta", &options, "<p>a</p>\n");
    options = limecove_default_html_options();
    document = "- [x] a@b.c";
    is_html(document, &options, "<ul>\n<li>[x] a@b.c</li>\n</ul>\n");
    options.constructs = LIMECOVE_COMMONMARK + LIMECOVE_GFM_AUTOLINK_LITERAL;
    is_html(document, &options, "<ul>\n<li>[x] <a href=\"mailto:a@b.c\">a@b.c</a></li>\n</ul>\n");
    options.constructs = LIMECOVE_COMMONMARK + LIMECOVE_GFM_TASK_LIST_ITEM;
    is_html(document, &options, "<ul>\n<li><input type=\"checkbox\" checked=\"\" disabled=\"\" /> a@b.c</li>\n</ul>\n");
}

/* Options of HTML that choose nothing: the code says why, and nothing is written. */
static void html_is_refused(void) {
    struct limecove_html_options options[4];
    const uint32_t codes[] = {LIMECOVE_OTHER_SIZE, LIMECOVE_NO_SUCH_TAB_SIZE, LIMECOVE_NO_SUCH_CONSTRUCT, LIMECOVE_NO_SUCH_PERMISSION};
    uint8_t out[16];
    memset(out, 0xa5, sizeof out);
    for (size_t i = 0; i < 4; i++)
        options[i] = limecove_default_html_options();
    options[0].size = 24;
    options[1].tab_size = 17;
    options[2].constructs = 2 * LIMECOVE_GFM_STRIKETHROUGH_DOUBLE_TILDE;
    options[2].allow = options[3].allow = 2 * LIMECOVE_GFM_TAGFILTER;
    for (size_t i = 0; i < 4; i++) {
        struct limecove_answer answer = limecove_html((const uint8_t *)"a", 1, &options[i], out, sizeof out);
        CHECK(answer.code == codes[i] && answer.count == 0 && untouched(out, sizeof out));
    }
}

/* Whether a document has a span of this name, with these constructs. */
static int has(const char *document, uint64_t constructs, uint32_t name) {
    struct limecove_options options = limecove_default_options();
    struct limecove_record records[64];
    options.constructs = constructs;
    struct limecove_answer answer = limecove_read((const uint8_t *)document, strlen(document), &options, records, 64);
    CHECK(answer.code == LIMECOVE_READ && answer.count <= 64);
    for (size_t i = 0; i < answer.count; i++)
        if (records[i].name == name)
            return 1;
    return 0;
}

/* Each construct has its bit: without it there is none, and with all there is one. So there is with that of a quote, a list, a definition,
 * strikethrough or a literal alone, for a label with those of its start and its end, for a check with that of a list, and for a call
 * of a footnote with that of its definition. */
static void constructs_have_bits(void) {
    static const struct {
        const char *document;
        uint64_t bit;
        uint32_t name;
    } each[] = {
        {"`a`", LIMECOVE_CODE_TEXT, LIMECOVE_NAME_CODE_TEXT},
        {"<ab:c>", LIMECOVE_AUTOLINK, LIMECOVE_NAME_AUTOLINK},
        {"\\*", LIMECOVE_CHARACTER_ESCAPE, LIMECOVE_NAME_CHARACTER_ESCAPE},
        {"*a*", LIMECOVE_ATTENTION, LIMECOVE_NAME_EMPHASIS},
        {"&lt;", LIMECOVE_CHARACTER_REFERENCE, LIMECOVE_NAME_CHARACTER_REFERENCE},
        {"a\\\nb", LIMECOVE_HARD_BREAK_ESCAPE, LIMECOVE_NAME_HARD_BREAK_ESCAPE},
        {"a  \nb", LIMECOVE_HARD_BREAK_TRAILING, LIMECOVE_NAME_HARD_BREAK_TRAILING},
        {"a <b>", LIMECOVE_HTML_TEXT, LIMECOVE_NAME_HTML_TEXT},
        {"~~~", LIMECOVE_CODE_FENCED, LIMECOVE_NAME_CODE_FENCED},
        {"    a", LIMECOVE_CODE_INDENTED, LIMECOVE_NAME_CODE_INDENTED},
        {"# a", LIMECOVE_HEADING_ATX, LIMECOVE_NAME_HEADING_ATX},
        {"a\n=", LIMECOVE_HEADING_SETEXT, LIMECOVE_NAME_HEADING_SETEXT},
        {"<b>", LIMECOVE_HTML_FLOW, LIMECOVE_NAME_HTML_FLOW},
        {"***", LIMECOVE_THEMATIC_BREAK, LIMECOVE_NAME_THEMATIC_BREAK},
        {"> a", LIMECOVE_BLOCK_QUOTE, LIMECOVE_NAME_BLOCK_QUOTE},
        {"- a", LIMECOVE_LIST_ITEM, LIMECOVE_NAME_LIST_ITEM},
        {"[a](b)", LIMECOVE_LABEL_START_LINK, LIMECOVE_NAME_LINK},
        {"![a](b)", LIMECOVE_LABEL_START_IMAGE, LIMECOVE_NAME_IMAGE},
        {"[a](b)", LIMECOVE_LABEL_END, LIMECOVE_NAME_LINK},
        {"[a]: b", LIMECOVE_DEFINITION, LIMECOVE_NAME_DEFINITION},
        {"~a~", LIMECOVE_GFM_STRIKETHROUGH, LIMECOVE_NAME_GFM_STRIKETHROUGH},
        {"www.a.b", LIMECOVE_GFM_AUTOLINK_LITERAL, LIMECOVE_NAME_GFM_AUTOLINK_LITERAL_WWW},
        {"- [x] a", LIMECOVE_GFM_TASK_LIST_ITEM, LIMECOVE_NAME_GFM_TASK_LIST_ITEM_CHECK},
        {"a\n:-", LIMECOVE_GFM_TABLE, LIMECOVE_NAME_GFM_TABLE},
        {"[^a]: b", LIMECOVE_GFM_FOOTNOTE_DEFINITION, LIMECOVE_NAME_GFM_FOOTNOTE_DEFINITION},
        {"[^a]\n\n[^a]: b", LIMECOVE_GFM_LABEL_START_FOOTNOTE, LIMECOVE_NAME_GFM_FOOTNOTE_CALL},
    };
    uint64_t bits = 0;
    for (size_t i = 0; i < sizeof each / sizeof *each; i++) {
        CHECK(has(each[i].document, LIMECOVE_HTML_CONSTRUCTS, each[i].name));
        CHECK(!has(each[i].document, LIMECOVE_HTML_CONSTRUCTS - each[i].bit, each[i].name));
        uint64_t alone = each[i].bit;
        if (alone == LIMECOVE_LABEL_START_LINK || alone == LIMECOVE_LABEL_START_IMAGE)
            alone += LIMECOVE_LABEL_END;
        else if (alone == LIMECOVE_LABEL_END)
            alone += LIMECOVE_LABEL_START_LINK;
        else if (alone == LIMECOVE_GFM_TASK_LIST_ITEM)
            alone += LIMECOVE_LIST_ITEM;
        else if (alone == LIMECOVE_GFM_LABEL_START_FOOTNOTE)
            alone += LIMECOVE_GFM_FOOTNOTE_DEFINITION;
        CHECK(each[i].bit < LIMECOVE_BLOCK_QUOTE || has(each[i].document, alone, each[i].name));
        bits += each[i].bit;
    }
    CHECK(bits == LIMECOVE_HTML_CONSTRUCTS);
    CHECK(!has("~a~", LIMECOVE_COMMONMARK, LIMECOVE_NAME_GFM_STRIKETHROUGH));
    CHECK(!has("www.a.b", LIMECOVE_ALL_CONSTRUCTS, LIMECOVE_NAME_GFM_AUTOLINK_LITERAL_WWW));
    CHECK(!has("- [x] a", LIMECOVE_ALL_CONSTRUCTS, LIMECOVE_NAME_GFM_TASK_LIST_ITEM_CHECK));
    CHECK(!has("a\n:-", LIMECOVE_ALL_CONSTRUCTS, LIMECOVE_NAME_GFM_TABLE));
    CHECK(!has("[^a]: b", LIMECOVE_ALL_CONSTRUCTS, LIMECOVE_NAME_GFM_FOOTNOTE_DEFINITION));
    bits = LIMECOVE_HTML_CONSTRUCTS + LIMECOVE_GFM_STRIKETHROUGH_DOUBLE_TILDE;
    CHECK(!has("~a~", bits, LIMECOVE_NAME_GFM_STRIKETHROUGH));
    CHECK(has("~~a~~", bits, LIMECOVE_NAME_GFM_STRIKETHROUGH));
}

/* Without quotes, lists and definitions, a document without links is read as its leaf blocks are. */
static void without_containers(const uint8_t *document, size_t len) {
    static struct limecove_record whole[4096], blocks[4096];
    struct limecove_options options = limecove_default_options();
    struct limecove_answer answer;
    size_t count;
    options.constructs -= LIMECOVE_BLOCK_QUOTE + LIMECOVE_LIST_ITEM + LIMECOVE_DEFINITION;
    answer = limecove_read(document, len, &options, whole, 4096);
    CHECK(answer.code == LIMECOVE_READ && answer.count <= 4096);
    count = answer.count;
    options.machine = LIMECOVE_FLOW;
    answer = limecove_read(document, len, &options, blocks, 4096);
    CHECK(answer.code == LIMECOVE_READ && answer.count == count);
    for (size_t i = 0; i < count; i++)
        CHECK(same_record(&whole[i], &blocks[i]));
}

int main(int argc, char **argv) {
    ask_version();
    constructs_have_bits();
    null_is_none();
    refused();
    literals_need_documents();
    no_ranges();
    texts_of_numbers();
    documents_are_html();
    html_is_refused();
    for (long n = argc > 1 ? atol(argv[1]) : 200; n > 0; n--) {
        size_t len;
        uint8_t *document = random_document(&len);
        without_containers(document, len);
        for (size_t way = 0; way < WAYS; way++) {
            static struct limecove_record all[4096];
            struct limecove_text_options text = random_text_options();
            size_t cut = below(5);
            size_t count = read_so(way, document, len, text, cut, all, 4096).count;
            CHECK(count <= 4096);
            for (size_t room = 0; room <= count + 2; room++)
                with_room(way, document, len, text, below(5), all, count, room);
        }
        free(document);
    }
    return 0;
}

/* Random documents, read by the library and by the program mdevents: the events are compared one by one, and the links with what they must
 * be. Each document is read in one way: a machine, deep or not, a size of tabs, cuts, and constructs that are on.
 *
 * The program has no words for constructs: all are on. Where one is off, its first byte begins nothing, as `;` does. So the program reads
 * the document with `;` in place of that byte, and data that is cut there is joined before events are compared. Texts by ranges, too, must
 * be the texts of paragraphs.
 * usage: random MDEVENTS COUNT SEED */
#define _POSIX_C_SOURCE 200809L
#include "cases.h"
#include <spawn.h>
#include <sys/wait.h>
#include <unistd.h>

#define MOST 4096
static const char *const machines[] = {"lines", "paragraphs", "peek", "deep", "back", "save", "text", "flow", "document"};
static char printed[1 << 20];

/* What the program prints of a document. It is short, so it fits the pipe. */
static size_t print_by_program(const char *program, const uint8_t *document, size_t len, const struct limecove_options *options) {
    char tab[24], cut[24];
    const char *words[9] = {program, "--machine", machines[options->machine], "--tab", tab};
    int in[2], out[2], n = 5, status;
    pid_t pid;
    posix_spawn_file_actions_t actions;
    size_t filled = 0;
    snprintf(tab, sizeof tab, "%zu", options->tab_size);
    snprintf(cut, sizeof cut, "%zu", options->cut);
    if (options->cut > 0) {
        words[n++] = "--cut";
        words[n++] = cut;
    }
    if (options->deep)
        words[n++] = "--deep";
    words[n] = NULL;
    CHECK(pipe(in) == 0 && pipe(out) == 0);
    CHECK(write(in[1], document, len) == (ssize_t)len);
    close(in[1]);
    CHECK(posix_spawn_file_actions_init(&actions) == 0);
    CHECK(posix_spawn_file_actions_adddup2(&actions, in[0], 0) == 0 && posix_spawn_file_actions_adddup2(&actions, out[1], 1) == 0);
    CHECK(posix_spawn_file_actions_addclose(&actions, out[0]) == 0);
    CHECK(posix_spawn(&pid, program, &actions, NULL, (char *const *)(uintptr_t)words, NULL) == 0);
    posix_spawn_file_actions_destroy(&actions);
    close(in[0]);
    close(out[1]);
    for (;;) {
        ssize_t got = read(out[0], printed + filled, sizeof printed - filled);
        CHECK(got >= 0);
        if (got == 0)
            break;
        filled += (size_t)got;
    }
    close(out[0]);
    CHECK(waitpid(pid, &status, 0) == pid && WIFEXITED(status) && WEXITSTATUS(status) == 0);
    return filled;
}

/* Whether each link is to an enter of data that is linked back, with the same content. */
static int has_mutual_links(const struct limecove_record *records, size_t count) {
    for (size_t i = 0; i < count; i++) {
        const struct limecove_record *it = &records[i];
        int is_chunk = it->kind == LIMECOVE_ENTER && it->name == LIMECOVE_NAME_DATA;
        if (it->content == 0 ? it->previous != LIMECOVE_NO_INDEX || it->next != LIMECOVE_NO_INDEX : !is_chunk)
            return 0;
        if (it->next != LIMECOVE_NO_INDEX && (it->next >= count || records[it->next].previous != i || records[it->next].content != it->content))
            return 0;
        if (it->previous != LIMECOVE_NO_INDEX && (it->previous >= count || records[it->previous].next != i))
            return 0;
    }
    return 1;
}

/* Whether the links are these: without `deep`, the texts of a paragraph are one chain for the two machines that link text; else there is
 * none. Those of leaf blocks are mutual, in containers too. */
static int has_links(const struct limecove_record *records, size_t count, const struct limecove_options *options) {
    int links = !options->deep && (options->machine == LIMECOVE_PARAGRAPHS || options->machine == LIMECOVE_TEXT);
    size_t last = LIMECOVE_NO_INDEX;
    if ((options->machine == LIMECOVE_FLOW || options->machine == LIMECOVE_DOCUMENT) && !options->deep)
        return has_mutual_links(records, count);
    for (size_t i = 0; i < count; i++) {
        const struct limecove_record *it = &records[i];
        if (it->name == LIMECOVE_NAME_PARAGRAPH)
            last = LIMECOVE_NO_INDEX;
        if (!links || it->kind != LIMECOVE_ENTER || it->name != LIMECOVE_NAME_DATA) {
            if (it->content != 0 || it->previous != LIMECOVE_NO_INDEX || it->next != LIMECOVE_NO_INDEX)
                return 0;
            continue;
        }
        size_t next = i + 1;
        while (records[next].name != LIMECOVE_NAME_PARAGRAPH && (records[next].name != LIMECOVE_NAME_DATA || records[next].kind != LIMECOVE_ENTER))
            next++;
        if (records[next].name == LIMECOVE_NAME_PARAGRAPH)
            next = LIMECOVE_NO_INDEX;
        if (it->content != LIMECOVE_CONTENT_TEXT || it->previous != last || it->next != next)
            return 0;
        last = i;
    }
    return 1;
}

/* Puts `;` in place of the first bytes of the constructs that are off. Returns whether there is one. */
static int without(uint8_t *document, size_t len, uint64_t constructs) {
    int found = 0;
    for (size_t i = 0; i < len; i++)
        if ((document[i] == '`' && !(constructs & LIMECOVE_CODE_TEXT)) || (document[i] == '<' && !(constructs & LIMECOVE_AUTOLINK)) ||
            (document[i] == '\\' && !(constructs & LIMECOVE_CHARACTER_ESCAPE))) {
            document[i] = ';';
            found = 1;
        }
    return found;
}

/* The line that the program prints of an event. */
static size_t line_of(char *line, size_t room, const struct limecove_record *it) {
    int n = snprintf(line, room, "%s %s %zu:%zu (%zu+%zu)\n", it->kind == LIMECOVE_ENTER ? "enter" : "exit", limecove_name_text(it->name),
                     it->line, it->column, it->index, it->vs);
    CHECK(n > 0 && (size_t)n < room);
    return (size_t)n;
}

/* Takes out where data ends and data begins at once. Returns how many events are left. */
static size_t joined(struct limecove_record *records, size_t count) {
    size_t kept = 0;
    for (size_t i = 0; i < count; i++) {
        const struct limecove_record *it = &records[i];
        if (it->name == LIMECOVE_NAME_DATA && it->kind == LIMECOVE_ENTER && kept > 0 && records[kept - 1].name == LIMECOVE_NAME_DATA &&
            records[kept - 1].kind == LIMECOVE_EXIT && records[kept - 1].index == it->index && records[kept - 1].vs == it->vs)
            kept--;
        else
            records[kept++] = *it;
    }
    return kept;
}

/* The same of printed lines, of which there are `size` bytes. Returns how many are left. */
static size_t joined_lines(char *lines, size_t size) {
    static const char ends[] = "exit Data ", begins[] = "enter Data ";
    size_t kept = 0, before = 0;
    int is_end = 0;
    for (size_t at = 0, next; at < size; at = next) {
        next = (size_t)((char *)memchr(lines + at, '\n', size - at) - lines) + 1;
        size_t len = next - at, place = len - (sizeof begins - 1);
        if (is_end && len > sizeof begins - 1 && memcmp(lines + at, begins, sizeof begins - 1) == 0 && kept - before == place + sizeof ends - 1 &&
            memcmp(lines + at + sizeof begins - 1, lines + before + sizeof ends - 1, place) == 0) {
            kept = before;
            is_end = 0;
            continue;
        }
        is_end = len > sizeof ends - 1 && memcmp(lines + at, ends, sizeof ends - 1) == 0;
        before = kept;
        memmove(lines + kept, lines + at, len);
        kept += len;
    }
    return kept;
}

/* Whether `text --deep` has these events: those of the paragraphs, with the events of each text in place of its chunks. A text is read by
 * the ranges of its chunks. Each chunk is replaced by the events up to its end, and the last one by all that are left. */
static int has_texts(const uint8_t *document, size_t len, const struct limecove_options *options, const struct limecove_record *deep, size_t count) {
    static struct limecove_record flat[MOST], texts[MOST];
    static struct limecove_byte_range ranges[MOST];
    struct limecove_text_options text = {sizeof text, options->tab_size, options->constructs};
    struct limecove_options chunks = *options;
    struct limecove_answer answer, here = {LIMECOVE_READ, LIMECOVE_VERSION, 0};
    size_t at = 0, next = 0;
    chunks.deep = 0;
    answer = limecove_read(document, len, &chunks, flat, MOST);
    CHECK(answer.code == LIMECOVE_READ && answer.count <= MOST);
    for (size_t i = 0; i < answer.count; i++) {
        const struct limecove_record *it = &flat[i], *end = &flat[i + 1];
        if (it->content != LIMECOVE_CONTENT_TEXT) {
            if (at == count || !same_record(&deep[at++], it))
                return 0;
            continue;
        }
        if (it->previous == LIMECOVE_NO_INDEX) {
            size_t lines = 0;
            for (size_t k = i; k != LIMECOVE_NO_INDEX; k = flat[k].next) {
                ranges[lines].from = flat[k].index;
                ranges[lines++].to = flat[k + 1].index;
            }
            here = limecove_read_text_in(document, len, ranges, lines, &text, texts, MOST);
            next = 0;
            if (here.code != LIMECOVE_READ || here.count > MOST)
                return 0;
        }
        for (; next < here.count; next++) {
            const struct limecove_record *one = &texts[next];
            if (it->next != LIMECOVE_NO_INDEX && (one->index > end->index || (one->index == end->index && one->vs > end->vs)))
                break;
            if (at == count || !same_record(&deep[at++], one))
                return 0;
        }
        i++;
    }
    return at == count;
}

/* How many documents were read where a construct is off that begins in them. */
static long turned_off;

/* Compares a document, and shows it if it differs. */
static void compare(const char *program, const uint8_t *document, size_t len, const struct limecove_options *options) {
    static struct limecove_record records[MOST];
    struct limecove_reading reading = LIMECOVE_NO_READING;
    struct limecove_answer answer = limecove_open(document, len, options, &reading);
    size_t at = 0, from = 0, room = 1 + below(MOST), count = answer.count;
    int same = answer.code == LIMECOVE_READ && count <= MOST, is_text = options->machine == LIMECOVE_TEXT && options->deep;
    while (same && from < count) {
        size_t written = limecove_copy(&reading, from, records + from, room < MOST - from ? room : MOST - from);
        same = written > 0;
        from += written;
    }
    limecove_close(&reading);
    same = same && has_links(records, count, options) && (!is_text || has_texts(document, len, options, records, count));
    uint8_t *others = malloc(len + 1);
    CHECK(others != NULL);
    memcpy(others, document, len);
    int is_off = is_text && without(others, len, options->constructs);
    size_t size = print_by_program(program, others, len, options);
    free(others);
    if (same && is_off) {
        turned_off++;
        count = joined(records, count);
        size = joined_lines(printed, size);
    }
    for (size_t i = 0; same && i < count; i++) {
        char line[200];
        size_t n = line_of(line, sizeof line, &records[i]);
        same = n <= size - at && memcmp(printed + at, line, n) == 0;
        at += n;
    }
    if (same && at == size)
        return;
    fprintf(stderr, "not the same: machine %s, deep %u, tab %zu, cut %zu, constructs %u, document", machines[options->machine], options->deep,
            options->tab_size, options->cut, (unsigned)options->constructs);
    for (size_t i = 0; i < len; i++)
        fprintf(stderr, " %02x", document[i]);
    fprintf(stderr, "\n");
    exit(1);
}

int main(int argc, char **argv) {
    CHECK(argc == 4);
    ask_version();
    random_state = strtoull(argv[3], NULL, 10);
    for (long n = atol(argv[2]); n > 0; n--) {
        size_t len;
        uint8_t *document = random_document(&len);
        struct limecove_options options = options_of(below(13), random_text_options(), below(5));
        options.tab_size = 1 + below(16);
        compare(argv[1], document, len, &options);
        free(document);
    }
    printf("bindings: a construct was off in %ld of them\n", turned_off);
    return 0;
}

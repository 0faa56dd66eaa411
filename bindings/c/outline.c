/* Prints the outline of a document: its headings, each indented by its level, and below them where links and definitions go, and which
 * lists there are. It reads the whole document, quotes and lists too, and copies its events some at a time.
 * usage: outline [FILE]   (without a file, of the document below) */
#include "../limecove.h"
#include <stdio.h>
#include <stdlib.h>

#define ROOM 64

static const char sample[] = "# Trees\n"
                             "\n"
                             "About [oaks](oak.html \"Oak\"), and\n"
                             "<https://example.com/elm>.\n"
                             "\n"
                             "> 1. Ash\n"
                             "> 2. Fir\n"
                             ">\n"
                             ">    ### In a `list`\n"
                             "\n"
                             "[ash]: <ash.html>\n"
                             "\n"
                             "How they\n"
                             "grow\n"
                             "----\n"
                             "\n"
                             "``` c\n"
                             "# [no](heading)\n"
                             "```\n";

/* The place of a heading that is read: its text, and its level once that is known. */
struct heading {
    size_t from, to, level;
};

/* The bytes of a file, or NULL. */
static uint8_t *contents(const char *name, size_t *len) {
    FILE *file = fopen(name, "rb");
    uint8_t *bytes = NULL;
    size_t room = 0;
    *len = 0;
    if (file == NULL)
        return NULL;
    for (;;) {
        if (*len == room) {
            uint8_t *more = realloc(bytes, room = 2 * room + 4096);
            if (more == NULL)
                break;
            bytes = more;
        }
        size_t got = fread(bytes + *len, 1, room - *len, file);
        *len += got;
        if (got == 0)
            break;
    }
    int failed = ferror(file) || *len == room;
    fclose(file);
    if (failed) {
        free(bytes);
        return NULL;
    }
    return bytes;
}

/* Prints bytes of the document behind so many spaces, on one line. What a further line of a heading begins with are marks of quotes and white
 * space, and no text. */
static void print(size_t indentation, const char *what, const uint8_t *document, size_t from, size_t to) {
    int begins = 0;
    printf("%*s%s", (int)indentation, "", what);
    for (; from < to; from++) {
        uint8_t byte = document[from];
        if (byte == '\n' || byte == '\r')
            begins = 1;
        else if (!begins || (byte != ' ' && byte != '\t' && byte != '>')) {
            if (begins)
                putchar(' ');
            begins = 0;
            putchar(byte < ' ' ? ' ' : byte);
        }
    }
    putchar('\n');
}

/* Prints what an event ends. Records hold where spans begin and end, so only two numbers are kept of what is open. */
static void on_event(const struct limecove_record *event, const uint8_t *document, struct heading *heading, size_t *from) {
    if (event->kind == LIMECOVE_ENTER) {
        switch (event->name) {
        case LIMECOVE_NAME_HEADING_ATX:
        case LIMECOVE_NAME_HEADING_SETEXT:
            heading->from = heading->to = heading->level = 0;
            break;
        case LIMECOVE_NAME_HEADING_ATX_TEXT:
        case LIMECOVE_NAME_HEADING_SETEXT_TEXT:
            heading->from = event->index;
            break;
        case LIMECOVE_NAME_HEADING_ATX_SEQUENCE:
        case LIMECOVE_NAME_RESOURCE_DESTINATION_STRING:
        case LIMECOVE_NAME_DEFINITION_DESTINATION_STRING:
        case LIMECOVE_NAME_AUTOLINK_PROTOCOL:
            *from = event->index;
            break;
        case LIMECOVE_NAME_HEADING_SETEXT_UNDERLINE_SEQUENCE:
            heading->level = document[event->index] == '=' ? 1 : 2;
            break;
        case LIMECOVE_NAME_LIST_ORDERED:
            print(8, "a list with numbers", document, 0, 0);
            break;
        case LIMECOVE_NAME_LIST_UNORDERED:
            print(8, "a list", document, 0, 0);
            break;
        }
        return;
    }
    switch (event->name) {
    case LIMECOVE_NAME_HEADING_ATX_SEQUENCE:
        /* the first run of marks, and not the one at the end */
        if (heading->level == 0)
            heading->level = event->index - *from;
        break;
    case LIMECOVE_NAME_HEADING_ATX_TEXT:
    case LIMECOVE_NAME_HEADING_SETEXT_TEXT:
        heading->to = event->index;
        break;
    case LIMECOVE_NAME_HEADING_ATX:
    case LIMECOVE_NAME_HEADING_SETEXT:
        print(heading->level - 1, "", document, heading->from, heading->to);
        break;
    case LIMECOVE_NAME_RESOURCE_DESTINATION_STRING:
    case LIMECOVE_NAME_DEFINITION_DESTINATION_STRING:
    case LIMECOVE_NAME_AUTOLINK_PROTOCOL:
        print(8, "to ", document, *from, event->index);
        break;
    }
}

int main(int argc, char **argv) {
    struct limecove_options options = limecove_default_options();
    struct limecove_reading reading = LIMECOVE_NO_READING;
    struct limecove_record records[ROOM];
    struct heading heading = {0, 0, 0};
    const uint8_t *document = (const uint8_t *)sample;
    uint8_t *read = NULL;
    size_t len = sizeof sample - 1, from = 0, next = 0, written;
    if (limecove_version() != LIMECOVE_VERSION) {
        fprintf(stderr, "liblimecove.a has another version\n");
        return 1;
    }
    if (argc > 1 && (document = read = contents(argv[1], &len)) == NULL) {
        fprintf(stderr, "%s cannot be read\n", argv[1]);
        return 1;
    }
    struct limecove_answer answer = limecove_open(document, len, &options, &reading);
    if (answer.code == LIMECOVE_READ)
        while ((written = limecove_copy(&reading, next, records, ROOM)) > 0) {
            for (size_t i = 0; i < written; i++)
                on_event(&records[i], document, &heading, &from);
            next += written;
        }
    else
        fprintf(stderr, "%s\n", limecove_code_text(answer.code));
    limecove_close(&reading);
    free(read);
    return answer.code == LIMECOVE_READ ? 0 : 1;
}

/* A document is kept, and a list item is put into it: only the sections that changed are looked at again. */
#include "../limecove.h"
#include <stdio.h>

/* Prints which names of spans begin in these sections, for up to 64 events. */
static void show(struct limecove_document *document, size_t from, size_t to) {
    struct limecove_record records[64];
    struct limecove_answer answer = limecove_document_events(document, from, to, records, 64);
    for (size_t i = 0; i < answer.count && i < 64; i++)
        if (records[i].kind == LIMECOVE_ENTER && !limecove_name_is_void(records[i].name))
            printf("line %zu: %s\n", records[i].line, limecove_name_text(records[i].name));
}

int main(void) {
    if (limecove_version() != LIMECOVE_VERSION) {
        fprintf(stderr, "liblimecove.a has another version\n");
        return 1;
    }
    static const uint8_t bytes[] = "# a\n\nb *c*\n\n# d\n", item[] = "- ";
    struct limecove_text_options options = limecove_default_text_options();
    struct limecove_document document = LIMECOVE_NO_DOCUMENT;
    struct limecove_answer answer = limecove_document_new(bytes, sizeof bytes - 1, &options, &document);
    struct limecove_changed change;
    size_t index = 0;
    if (answer.code == LIMECOVE_READ) {
        printf("%zu sections\n", answer.count);
        /* an editor says line 2, character 0, in units of UTF-16 */
        answer.code = limecove_document_index(&document, 2, 0, 1, &index);
    }
    if (answer.code == LIMECOVE_READ)
        answer = limecove_document_replace(&document, index, index, item, sizeof item - 1, &change);
    if (answer.code == LIMECOVE_READ) {
        printf("sections %zu to %zu are new, bytes %zu to %zu\n", change.from, change.new_to, change.start, change.end);
        show(&document, change.from, change.new_to);
    } else {
        fprintf(stderr, "%s\n", limecove_code_text(answer.code));
    }
    limecove_document_close(&document);
    return answer.code == LIMECOVE_READ ? 0 : 1;
}

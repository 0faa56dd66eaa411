#include "../limecove.h"
#include <stdio.h>

int main(void) {
    if (limecove_version() != LIMECOVE_VERSION) {
        fprintf(stderr, "liblimecove.a has another version\n");
        return 1;
    }
    static const uint8_t document[] = "a `code` <https://b.c> \\* d\n";
    struct limecove_text_options options = limecove_default_text_options();
    struct limecove_record records[64];
    struct limecove_answer answer = limecove_read_text(document, sizeof document - 1, &options, records, 64);
    for (size_t i = 0; i < answer.count && i < 64; i++)
        if (records[i].name == LIMECOVE_NAME_CODE_TEXT)
            printf("%s %s at line %zu, column %zu, byte %zu\n", records[i].kind == LIMECOVE_ENTER ? "enter" : "exit",
                   limecove_name_text(records[i].name), records[i].line, records[i].column, records[i].index);
    if (answer.code != LIMECOVE_READ)
        fprintf(stderr, "%s\n", limecove_code_text(answer.code));
    return answer.code == LIMECOVE_READ ? 0 : 1;
}

/* A reading that is opened in one thread is copied in a second one, and closed in a third, while other threads do the same with theirs. One
 * thread at a time uses it.
 * usage: threads COUNT   (so many random documents in each of four threads) */
#define _POSIX_C_SOURCE 200809L
#include "cases.h"
#include <pthread.h>

#define MOST 4096

/* A reading on its way, and what its events are. */
struct job {
    struct limecove_reading reading;
    struct limecove_record *want;
    size_t count;
};

static void *copies(void *given) {
    struct job *job = given;
    struct limecove_record record;
    for (size_t i = 0; i < job->count; i++)
        CHECK(limecove_copy(&job->reading, i, &record, 1) == 1 && same_record(&record, &job->want[i]));
    CHECK(limecove_copy(&job->reading, job->count, &record, 1) == 0);
    return NULL;
}

static void *closes(void *given) {
    struct job *job = given;
    limecove_close(&job->reading);
    CHECK(job->reading.is_open == 0);
    return NULL;
}

/* A document, and a way to read it. */
struct task {
    uint8_t *document;
    size_t len;
    size_t way;
};

static void *reads(void *given) {
    struct task *task = given;
    struct limecove_text_options text = limecove_default_text_options();
    struct job job = {LIMECOVE_NO_READING, malloc(MOST * sizeof(struct limecove_record)), 0};
    CHECK(job.want != NULL);
    job.count = read_so(task->way, task->document, task->len, text, 0, job.want, MOST).count;
    CHECK(job.count <= MOST);
    CHECK(open_so(task->way, task->document, task->len, text, 0, &job.reading).code == LIMECOVE_READ);
    pthread_t thread;
    CHECK(pthread_create(&thread, NULL, copies, &job) == 0 && pthread_join(thread, NULL) == 0);
    CHECK(pthread_create(&thread, NULL, closes, &job) == 0 && pthread_join(thread, NULL) == 0);
    free(job.want);
    return NULL;
}

int main(int argc, char **argv) {
    ask_version();
    for (long n = argc > 1 ? atol(argv[1]) : 50; n > 0; n--) {
        struct task tasks[4];
        pthread_t threads[4];
        for (size_t i = 0; i < 4; i++) {
            tasks[i].document = random_document(&tasks[i].len);
            tasks[i].way = below(WAYS);
            CHECK(pthread_create(&threads[i], NULL, reads, &tasks[i]) == 0);
        }
        for (size_t i = 0; i < 4; i++) {
            CHECK(pthread_join(threads[i], NULL) == 0);
            free(tasks[i].document);
        }
    }
    return 0;
}

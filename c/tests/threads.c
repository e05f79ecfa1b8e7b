/* threads.c: threads with a table each, at once; threads that share a table under a lock; and one table that goes from
 * thread to thread.
 *
 *   threads
 *
 * It prints how many turns each thread made. Status 0: as many as it was to make.
 */
#include <pthread.h>
#include <stdlib.h>

#include "plain.h"

enum { THREADS = 4, MACHINES = 8, CASTS = 4000, HANDS = 20 };

struct worker {
    zumelivon table;
    uint64_t ids[MACHINES];
    unsigned long turns;
    int failed;
};

static void start_machines(struct worker *it) {
    zumelivon_report report;
    it->failed |= zumelivon_open(&it->table, ZUMELIVON_VERSION) != ZUMELIVON_DONE;
    for (int i = 0; i < MACHINES; i++) {
        it->failed |= start_plain(&it->table, 1, 0, &it->ids[i], &report) != ZUMELIVON_DONE;
    }
}

/* Posts a text, and makes the machine's turns; each counts in its data. */
static void cast_and_serve(struct worker *it, uint64_t id) {
    zumelivon_event event;
    zumelivon_report report;
    uint8_t room[32];
    uint64_t number;
    it->failed |= post_text(&it->table, id, ZUMELIVON_CAST, 1, "bytes of a content", &number) != ZUMELIVON_DONE;
    while (zumelivon_next(&it->table, id, &event, room, sizeof room) == ZUMELIVON_DONE) {
        const zumelivon_answer counts = {.what = ZUMELIVON_KEEP_STATE, .data = event.data + 1};
        it->failed |= turn_with(&it->table, id, event.number, 1, counts, &no_action, 0, "", &report) != ZUMELIVON_DONE;
        it->turns++;
    }
}

static void *work(void *at) {
    struct worker *it = at;
    start_machines(it);
    for (int i = 0; i < CASTS; i++) {
        cast_and_serve(it, it->ids[i % MACHINES]);
    }
    it->failed |= zumelivon_close(&it->table) != ZUMELIVON_DONE;
    return NULL;
}

/* One thread's part of a table that goes on to the next thread. */
static void *take_part(void *at) {
    struct worker *it = at;
    for (int i = 0; i < MACHINES; i++) {
        cast_and_serve(it, it->ids[i]);
    }
    return NULL;
}

static int tables_at_once(void) {
    static struct worker workers[THREADS];
    pthread_t threads[THREADS];
    int failed = 0;
    for (int i = 0; i < THREADS; i++) {
        failed |= pthread_create(&threads[i], NULL, work, &workers[i]);
    }
    for (int i = 0; i < THREADS; i++) {
        failed |= pthread_join(threads[i], NULL);
        printf("threads: %lu turns\n", workers[i].turns);
        failed |= workers[i].failed || workers[i].turns != CASTS;
    }
    return failed;
}

/* A table that threads share. Each call is made under the lock. */
struct shared {
    struct worker worker;
    pthread_mutex_t lock;
};

static void *share(void *at) {
    struct shared *it = at;
    for (int i = 0; i < CASTS / THREADS; i++) {
        pthread_mutex_lock(&it->lock);
        cast_and_serve(&it->worker, it->worker.ids[i % MACHINES]);
        pthread_mutex_unlock(&it->lock);
    }
    return NULL;
}

static int a_table_under_a_lock(void) {
    static struct shared it = {.lock = PTHREAD_MUTEX_INITIALIZER};
    pthread_t threads[THREADS];
    int failed = 0;
    start_machines(&it.worker);
    for (int i = 0; i < THREADS; i++) {
        failed |= pthread_create(&threads[i], NULL, share, &it);
    }
    for (int i = 0; i < THREADS; i++) {
        failed |= pthread_join(threads[i], NULL);
    }
    failed |= zumelivon_close(&it.worker.table) != ZUMELIVON_DONE;
    printf("threads: %lu turns under a lock\n", it.worker.turns);
    return failed || it.worker.failed || it.worker.turns != CASTS;
}

static int a_table_from_hand_to_hand(void) {
    struct worker it = {0};
    pthread_t thread;
    zumelivon_machine machine;
    int failed = 0;
    start_machines(&it);
    for (int i = 0; i < HANDS; i++) {
        failed |= pthread_create(&thread, NULL, take_part, &it) || pthread_join(thread, NULL);
    }
    failed |= zumelivon_look(&it.table, it.ids[0], &machine) != ZUMELIVON_DONE || machine.data != HANDS;
    failed |= zumelivon_close(&it.table) != ZUMELIVON_DONE;
    printf("threads: %lu turns by %d threads, one after another\n", it.turns, HANDS);
    return failed || it.failed || it.turns != HANDS * MACHINES;
}

int main(void) {
    int failed = tables_at_once();
    failed |= a_table_under_a_lock();
    failed |= a_table_from_hand_to_hand();
    return failed;
}

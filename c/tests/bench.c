/* bench.c: what an event costs through C.
 *
 *   bench WHAT COUNT
 *
 * WHAT is casts (post, next, and a turn that keeps the state), calls (with a reply, and collect), bytes (casts of 16
 * bytes), timers (casts that set the event time-out anew), machines (casts to one of 1,000 machines), described (casts
 * to a described machine, and run). It prints nothing. The difference of two counts under
 * valgrind --tool=callgrind is the cost of as many events.
 */
#include <stdlib.h>

#include "plain.h"

enum { MACHINES = 1000 };

struct bench {
    zumelivon table;
    uint64_t ids[MACHINES];
    int machines, is_call, sets;
    size_t length;
};

static void expect(uint32_t answer, const char *call) {
    if (answer != ZUMELIVON_DONE) {
        fprintf(stderr, "bench: %s answered %u\n", call, answer);
        exit(1);
    }
}

static void one_event(struct bench *it, uint64_t id) {
    zumelivon_event event;
    zumelivon_report report;
    zumelivon_content content;
    uint64_t number;
    uint8_t room[16] = "0123456789abcde";
    expect(zumelivon_post(&it->table, id, it->is_call ? ZUMELIVON_CALL : ZUMELIVON_CAST, 1, room, it->length, &number),
           "post");
    expect(zumelivon_next(&it->table, id, &event, room, sizeof room), "next");
    const zumelivon_action action = {.what = it->sets ? ZUMELIVON_SET : ZUMELIVON_REPLY, .machine = event.machine,
                                     .request = event.request, .time = 1000};
    expect(zumelivon_turn(&it->table, id, event.number, 1, &keeps, &action, it->is_call || it->sets, &no_answer,
                          &no_action, 0, no_bytes, 0, 0, &report),
           "turn");
    if (it->is_call) {
        expect(zumelivon_collect(&it->table, id, number, &content, room, sizeof room), "collect");
    }
}

static void hosted(struct bench *it, const char *what, long count) {
    zumelivon_report report;
    it->is_call = strcmp(what, "calls") == 0;
    it->sets = strcmp(what, "timers") == 0;
    it->length = strcmp(what, "bytes") == 0 ? 16 : 0;
    it->machines = strcmp(what, "machines") == 0 ? MACHINES : 1;
    for (int i = 0; i < it->machines; i++) {
        expect(start_plain(&it->table, 1, 0, &it->ids[i], &report), "start");
    }
    for (long i = 0; i < count; i++) {
        one_event(it, it->ids[i % it->machines]);
    }
}

static void described(struct bench *it, long count) {
    static const char text[] = "{ \"context\": { \"n\": 0 }, \"initial\": \"s\","
                               "  \"states\": { \"s\": { \"on\": {"
                               "    \"cast go\": { \"assign\": { \"n\": \"n + 1\" } } } } } }";
    zumelivon_report report;
    zumelivon_signal signal = {0};
    uint64_t description, length, symbol, number, turns;
    uint32_t more;
    uint8_t room[8];
    expect(zumelivon_describe(&it->table, bytes_of(text), sizeof text - 1, &description, room, sizeof room, &length),
           "describe");
    expect(zumelivon_number_of(&it->table, description, ZUMELIVON_SYMBOL, bytes_of("go"), 2, &symbol), "number_of");
    expect(zumelivon_start_described(&it->table, description, 0, &signal, 0, no_bytes, 0, &it->ids[0], &report),
           "start_described");
    signal.symbol = (uint32_t)symbol;
    for (long i = 0; i < count; i++) {
        expect(zumelivon_post_signal(&it->table, it->ids[0], ZUMELIVON_CAST, &signal, no_bytes, 0, &number),
               "post_signal");
        expect(zumelivon_run(&it->table, it->ids[0], 1, 10, &turns, &more), "run");
    }
}

int main(int argc, char **argv) {
    static struct bench it;
    if (argc != 3) {
        fprintf(stderr, "usage: bench WHAT COUNT\n");
        return 2;
    }
    expect(zumelivon_open(&it.table, ZUMELIVON_VERSION), "open");
    if (strcmp(argv[1], "described") == 0) {
        described(&it, atol(argv[2]));
    } else {
        hosted(&it, argv[1], atol(argv[2]));
    }
    expect(zumelivon_close(&it.table), "close");
    return 0;
}

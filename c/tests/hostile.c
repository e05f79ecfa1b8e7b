/* hostile.c: makes calls at random, most of which mean nothing.
 *
 *   hostile COUNT [SEED]
 *
 * Ids, numbers, codes, lengths, moments and the order of the calls are drawn. Where a call does not answer DONE, no
 * machine has changed. It prints how many calls were done, and how many kinds of answers came. Status 0: so it was.
 */
#include <stdlib.h>

#include "plain.h"

enum { SEEN = 24, ACTIONS = 6, ROOM = 40, ANSWERS = 128, IDS = 24 };

struct hostile {
    zumelivon table;
    uint64_t random, now, latest_id, description;
    uint64_t ids[IDS]; /* some of those that were given */
    zumelivon_event event;
    zumelivon_action actions[ACTIONS], enter_actions[ACTIONS];
    zumelivon_signal signals[ACTIONS];
    uint8_t bytes[ROOM], room[ROOM];
    unsigned long answers[ANSWERS];
};

/* What is seen of the machines. */
struct seen {
    zumelivon_machine machines[SEEN];
    uint32_t answers[SEEN];
};

static uint64_t draw(struct hostile *it) {
    it->random ^= it->random << 13;
    it->random ^= it->random >> 7;
    it->random ^= it->random << 17;
    return it->random;
}

static uint64_t below(struct hostile *it, uint64_t limit) {
    return draw(it) % limit;
}

/* A number that may be any, and is often one that means something or is at an edge. */
static uint64_t odd(struct hostile *it) {
    static const uint64_t edges[] = {0, 1, UINT32_MAX, (uint64_t)UINT32_MAX + 1, (uint64_t)1 << 63, UINT64_MAX};
    switch (below(it, 16)) {
    case 0:
        return edges[below(it, sizeof edges / sizeof *edges)] - below(it, 2);
    case 1:
        return draw(it);
    default:
        return below(it, 9);
    }
}

/* A code below a limit, or, seldom, any. */
static uint32_t code(struct hostile *it, uint32_t limit) {
    return (uint32_t)(below(it, 60) == 0 ? odd(it) : below(it, limit));
}

static uint64_t id(struct hostile *it) {
    return below(it, 12) == 0 ? odd(it) : it->ids[below(it, IDS)];
}

static uint64_t moment(struct hostile *it) {
    it->now += below(it, 5);
    return below(it, 40) == 0 ? odd(it) : it->now;
}

static size_t length(struct hostile *it) {
    return below(it, ROOM + 1);
}

/* Actions whose contents are within so many bytes, mostly. An enter call has none that it may not have, mostly. */
static size_t fill(struct hostile *it, zumelivon_action *actions, size_t bytes, int enters) {
    static const uint32_t whats[] = {ZUMELIVON_REPLY, ZUMELIVON_SET, ZUMELIVON_CANCEL, ZUMELIVON_UPDATE};
    size_t count = below(it, ACTIONS);
    for (size_t i = 0; i < count; i++) {
        actions[i] = (zumelivon_action){
            .what = enters && below(it, 60) ? whats[below(it, 4)] : 1 + code(it, 8), .kind = code(it, 5),
            .postpone = (uint32_t)odd(it), .timer = code(it, 3), .name = (uint32_t)below(it, 3),
            .time = (uint32_t)odd(it), .infinite = below(it, 8) == 0, .machine = it->event.machine,
            .request = it->event.request, .code = draw(it), .from = below(it, 60) == 0 ? odd(it) : 0,
            .length = below(it, 60) == 0 ? odd(it) : below(it, bytes + 1)};
    }
    return count;
}

static size_t fill_signals(struct hostile *it) {
    for (size_t i = 0; i < ACTIONS; i++) {
        it->signals[i] = (zumelivon_signal){.symbol = code(it, 5), .what = code(it, 4), .number = odd(it),
                                            .request = odd(it), .length = below(it, 60) == 0 ? odd(it) : 0};
    }
    return below(it, ACTIONS);
}

/* An answer: to an event, or to an enter call. Seldom one that stops, or that is none. */
static zumelivon_answer answer(struct hostile *it, int enters) {
    uint32_t what = below(it, 100) == 0 ? ZUMELIVON_STOP : enters ? 2 + code(it, 2) : 1 + code(it, 5);
    return (zumelivon_answer){.what = what, .reason = 1, .has_data = (uint32_t)below(it, 2), .state = below(it, 4),
                              .data = draw(it)};
}

static void keep(struct hostile *it, uint32_t done, uint64_t given) {
    if (done == ZUMELIVON_DONE) {
        it->ids[below(it, IDS)] = given;
    }
}

static uint32_t start(struct hostile *it) {
    const zumelivon_begin begin = {.state = below(it, 4), .enters = (uint32_t)below(it, 2)};
    const zumelivon_answer entered = answer(it, 1);
    zumelivon_report report;
    uint64_t given;
    size_t bytes = length(it), count = fill(it, it->actions, bytes, 0);
    size_t enter_count = fill(it, it->enter_actions, bytes, 1);
    uint32_t done = zumelivon_start(&it->table, moment(it), &begin, it->actions, count, &entered, it->enter_actions,
                                    enter_count, it->bytes, bytes, &given, &report);
    keep(it, done, given);
    return done;
}

static uint32_t turn(struct hostile *it) {
    uint64_t of = id(it);
    const zumelivon_answer handled = answer(it, 0), entered = answer(it, 1);
    zumelivon_report report;
    if (zumelivon_next(&it->table, of, &it->event, it->room, sizeof it->room) != ZUMELIVON_DONE) {
        it->event.number = odd(it);
    }
    size_t bytes = length(it), count = fill(it, it->actions, bytes, 0);
    size_t enter_count = fill(it, it->enter_actions, bytes, 1);
    return zumelivon_turn(&it->table, of, it->event.number, moment(it), &handled, it->actions, count, &entered,
                          it->enter_actions, enter_count, it->bytes, bytes, (uint32_t)odd(it), &report);
}

static uint32_t start_described(struct hostile *it) {
    zumelivon_report report;
    uint64_t given;
    size_t count = fill_signals(it);
    uint32_t done = zumelivon_start_described(&it->table, below(it, 9) ? it->description : odd(it), moment(it),
                                              it->signals, count, it->bytes, length(it), &given, &report);
    keep(it, done, given);
    return done;
}

/* A run that was refused may have made turns before. */
static uint32_t run(struct hostile *it) {
    uint64_t turns = 0;
    uint32_t more;
    uint32_t done = zumelivon_run(&it->table, id(it), moment(it), below(it, 5), &turns, &more);
    return turns > 0 ? ZUMELIVON_DONE : done;
}

static uint32_t one_call(struct hostile *it) {
    zumelivon_machine machine;
    zumelivon_content content;
    zumelivon_message message;
    zumelivon_listed listed;
    zumelivon_signal signal;
    uint64_t number, other;
    uint32_t reason;
    switch (below(it, 20)) {
    case 0:
        return start(it);
    case 1:
        return start_described(it);
    case 2:
        return zumelivon_look(&it->table, id(it), &machine);
    case 3:
        return below(it, 20) ? ZUMELIVON_DONE : zumelivon_stop(&it->table, id(it), (uint32_t)odd(it), 1);
    case 4:
        return below(it, 9) ? ZUMELIVON_DONE : zumelivon_remove(&it->table, id(it));
    case 5:
        return zumelivon_list(&it->table, code(it, 4), odd(it), &listed);
    case 6:
        return zumelivon_collect(&it->table, id(it), odd(it), &content, it->room, length(it));
    case 7:
        return zumelivon_reply(&it->table, id(it), odd(it), odd(it), it->bytes, length(it));
    case 8:
        return zumelivon_take_out(&it->table, id(it), &message, it->room, length(it));
    case 9:
        return zumelivon_tick(&it->table, id(it), moment(it), &number);
    case 10:
        return run(it);
    case 11:
        return zumelivon_collect_signal(&it->table, id(it), odd(it), &signal, &reason, it->room, length(it));
    case 12:
        return zumelivon_take_out_signal(&it->table, id(it), &signal, &other, &number, it->room, length(it));
    case 13:
        return zumelivon_name_of(&it->table, code(it, 1), code(it, 3), odd(it), it->room, length(it), &number);
    case 14:
        return zumelivon_number_of(&it->table, code(it, 1), code(it, 3), it->bytes, length(it), &number);
    case 15:
        fill_signals(it);
        return zumelivon_post_signal(&it->table, id(it), code(it, 3), it->signals, it->bytes, length(it), &number);
    case 16:
        return below(it, 9) ? ZUMELIVON_DONE
                            : zumelivon_describe(&it->table, it->bytes, length(it), &number, it->room, length(it),
                                                 &other);
    case 17:
        return zumelivon_post(&it->table, id(it), code(it, 3), odd(it), it->bytes, length(it), &number);
    default:
        return turn(it);
    }
}

static void see(struct hostile *it, struct seen *seen) {
    memset(seen, 0, sizeof *seen);
    for (size_t i = 0; i < SEEN; i++) {
        seen->answers[i] = zumelivon_look(&it->table, it->ids[i], &seen->machines[i]);
    }
}

static const char lamp[] =
    "{ \"args\": [\"left\"], \"context\": { \"left\": 0 }, \"initial\": \"off\","
    "  \"states\": { \"off\": { \"on\": { \"*\": { \"target\": \"on\", \"assign\": { \"left\": \"event\" } } } },"
    "              \"on\": { \"entry\": { \"assign\": { \"left\": \"left - 1\" } }, \"after\": { \"left\": \"off\" },"
    "                \"on\": { \"call *\": { \"actions\": { \"reply\": \"said\", \"with\": \"event\" } },"
    "                        \"cast press\": { \"target\": \"off\", \"actions\": { \"raise\": \"press\" } },"
    "                        \"info press\": { \"actions\": [ \"postpone\","
    "                                        { \"send\": \"told\", \"with\": \"left\", \"to\": \"event\" } ] } } } } }";

int main(int argc, char **argv) {
    static struct hostile it;
    static struct seen before, after;
    uint64_t length;
    long count = argc > 1 ? atol(argv[1]) : 100000;
    it.random = argc > 2 ? strtoull(argv[2], NULL, 10) * 2 + 1 : 88172645463325252u;
    if (zumelivon_open(&it.table, ZUMELIVON_VERSION) != ZUMELIVON_DONE ||
        zumelivon_describe(&it.table, bytes_of(lamp), sizeof lamp - 1, &it.description, it.room, sizeof it.room,
                           &length) != ZUMELIVON_DONE) {
        return 2;
    }
    for (long i = 0; i < count; i++) {
        for (size_t k = 0; k < ROOM; k++) {
            it.bytes[k] = (uint8_t)(below(&it, 8) ? 'a' + below(&it, 3) : draw(&it));
        }
        see(&it, &before);
        uint64_t ids[IDS];
        memcpy(ids, it.ids, sizeof ids);
        uint32_t done = one_call(&it);
        it.answers[done % ANSWERS]++;
        see(&it, &after);
        if (done != ZUMELIVON_DONE && memcmp(&before, &after, sizeof before) != 0) {
            printf("hostile: call %ld answered %u, and a machine has changed\n", i, done);
            return 1;
        }
    }
    unsigned kinds = 0;
    for (uint32_t i = 0; i < ANSWERS; i++) {
        kinds += it.answers[i] > 0;
    }
    printf("hostile: %ld calls, %lu done, %u kinds of answers\n", count, it.answers[ZUMELIVON_DONE], kinds);
    return zumelivon_close(&it.table) != ZUMELIVON_DONE;
}

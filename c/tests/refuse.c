/* refuse.c: refuses each allocation once.
 *
 *   refuse        linked with -Wl,--wrap=malloc,--wrap=realloc
 *
 * A scenario is played once for each allocation that it makes, and that one is refused. The call that wanted it has to
 * answer NO_MEMORY, to change nothing that zumelivon_look shows, and to write nothing but what zumelivon.h says; made
 * again, it has to lead to the same end. It prints how many allocations were refused. Status 0: all was so.
 */
#include <stdlib.h>

#include "plain.h"

void *__real_malloc(size_t size);
void *__real_realloc(void *block, size_t size);
void *__wrap_malloc(size_t size);
void *__wrap_realloc(void *block, size_t size);

/* The allocation that is refused is the one at which this comes to 0. Below 0 none is. */
static long left = -1;
static unsigned refused, wrong;

static int is_refused(void) {
    if (left > 0 && --left == 0) {
        left = -1;
        refused++;
        return 1;
    }
    return 0;
}

void *__wrap_malloc(size_t size) {
    return is_refused() ? NULL : __real_malloc(size);
}

void *__wrap_realloc(void *block, size_t size) {
    return is_refused() ? NULL : __real_realloc(block, size);
}

/* What calls write, but for what zumelivon_run and zumelivon_describe write where they are refused. */
struct written {
    zumelivon_report report;
    zumelivon_event event;
    zumelivon_content content;
    zumelivon_message message;
    zumelivon_listed listed;
    zumelivon_signal signal;
    uint64_t hosted, described, description, number, call, target, expired;
    uint32_t reason;
    uint8_t room[64];
};

struct world {
    zumelivon table;
    struct written written;
    uint64_t turns, made, length, sum;
    uint32_t more;
};

/* What can be seen of the machines. No allocation is refused here. */
struct seen {
    zumelivon_machine hosted, described;
    uint32_t is_hosted, is_described;
};

static void see(struct world *it, struct seen *seen) {
    long kept = left;
    left = -1;
    memset(seen, 0, sizeof *seen);
    seen->is_hosted = zumelivon_look(&it->table, it->written.hosted, &seen->hosted);
    seen->is_described = zumelivon_look(&it->table, it->written.described, &seen->described);
    left = kept;
}

static void complain(int line, const char *what, const char *call) {
    wrong++;
    printf("refuse.c:%d: %s: %s\n", line, what, call);
}

/* Makes a call, and once more where there was no memory. */
#define MAKE(it, call)                                                                                                 \
    do {                                                                                                               \
        struct seen before_, after_;                                                                                   \
        struct written kept_;                                                                                          \
        unsigned refused_ = refused;                                                                                   \
        memcpy(&kept_, &(it)->written, sizeof kept_);                                                                  \
        see(it, &before_);                                                                                             \
        uint32_t answer_ = (call);                                                                                     \
        if (answer_ == ZUMELIVON_NO_MEMORY) {                                                                          \
            see(it, &after_);                                                                                          \
            if (memcmp(&before_, &after_, sizeof before_) != 0) {                                                      \
                complain(__LINE__, "a machine has changed", #call);                                                    \
            }                                                                                                          \
            if (memcmp(&kept_, &(it)->written, sizeof kept_) != 0) {                                                   \
                complain(__LINE__, "something was written", #call);                                                    \
            }                                                                                                          \
            answer_ = (call);                                                                                          \
        } else if (refused_ != refused) {                                                                              \
            complain(__LINE__, "was refused memory, and did not say so", #call);                                       \
        }                                                                                                              \
        if (answer_ != ZUMELIVON_DONE) {                                                                               \
            complain(__LINE__, "was not done", #call);                                                                 \
        }                                                                                                              \
    } while (0)

static void add(struct world *it, uint64_t number) {
    it->sum = it->sum * 31 + number;
}

static const char text[] = "a text that is longer than most of those that are sent";

static void start_hosted(struct world *it) {
    const zumelivon_begin begin = {.state = 1, .enters = 1};
    const zumelivon_action actions[] = {
        {.what = ZUMELIVON_SET, .timer = ZUMELIVON_NAMED_TIMER, .name = 1000, .time = 90, .length = 5},
        {.what = ZUMELIVON_NEXT_EVENT, .kind = ZUMELIVON_INTERNAL, .length = 20},
        {.what = ZUMELIVON_SEND, .machine = 1, .length = 7}};
    const zumelivon_action timer = {.what = ZUMELIVON_SET, .timer = ZUMELIVON_STATE_TIMER, .time = 80, .length = 9};
    MAKE(it, zumelivon_start(&it->table, 0, &begin, actions, 3, &keeps, &timer, 1, bytes_of(text), sizeof text,
                             &it->written.hosted, &it->written.report));
    add(it, it->written.report.set);
}

/* What a turn asks for: seven actions, of which one is a reply where the event is a call. */
static void fill(struct world *it, uint32_t round, zumelivon_action actions[7]) {
    memset(actions, 0, 7 * sizeof *actions);
    for (uint32_t i = 0; i < 7; i++) {
        actions[i] = (zumelivon_action){.what = ZUMELIVON_SET, .timer = ZUMELIVON_NAMED_TIMER, .name = round * 7 + i,
                                        .time = 1000, .length = 9 + i};
    }
    actions[3] = (zumelivon_action){.what = ZUMELIVON_NEXT_EVENT, .kind = ZUMELIVON_CAST, .length = 30};
    actions[4] = (zumelivon_action){.what = ZUMELIVON_POSTPONE, .postpone = round % 3 == 2};
    actions[5] = (zumelivon_action){.what = ZUMELIVON_SEND, .machine = it->written.hosted, .length = 12};
    if (it->written.event.kind == ZUMELIVON_CALL) {
        actions[6] = (zumelivon_action){.what = ZUMELIVON_REPLY, .machine = it->written.event.machine,
                                        .request = it->written.event.request, .length = 40};
    }
}

static void turn_hosted(struct world *it, uint32_t round) {
    const zumelivon_answer on = {.what = ZUMELIVON_NEXT_STATE, .state = round + 2, .data = round};
    zumelivon_action actions[7];
    MAKE(it, zumelivon_next(&it->table, it->written.hosted, &it->written.event, it->written.room,
                            sizeof it->written.room));
    fill(it, round, actions);
    MAKE(it, zumelivon_turn(&it->table, it->written.hosted, it->written.event.number, round, &on, actions, 7, &keeps,
                            actions, 3, bytes_of(text), sizeof text, 0, &it->written.report));
    add(it, it->written.report.event * 5 + it->written.report.done);
    add(it, it->written.report.set * 7 + it->written.report.sent * 3 + it->written.report.inserted);
}

static void play_hosted(struct world *it) {
    start_hosted(it);
    for (uint32_t round = 0; round < 6; round++) {
        MAKE(it, zumelivon_post(&it->table, it->written.hosted, ZUMELIVON_CALL, round, bytes_of(text), sizeof text,
                                &it->written.call));
        MAKE(it, zumelivon_post(&it->table, it->written.hosted, ZUMELIVON_INFO, round, bytes_of(text), round * 4,
                                &it->written.number));
        turn_hosted(it, round);
        turn_hosted(it, round);
    }
    MAKE(it, zumelivon_post(&it->table, it->written.hosted, ZUMELIVON_CALL, 1, no_bytes, 0, &it->written.call));
    MAKE(it, zumelivon_reply(&it->table, it->written.hosted, it->written.call, 4, bytes_of(text), sizeof text));
    MAKE(it, zumelivon_collect(&it->table, it->written.hosted, it->written.call, &it->written.content,
                               it->written.room, sizeof it->written.room));
    add(it, it->written.content.length);
    MAKE(it, zumelivon_take_out(&it->table, it->written.hosted, &it->written.message, it->written.room,
                                sizeof it->written.room));
    add(it, it->written.message.number);
    MAKE(it, zumelivon_list(&it->table, ZUMELIVON_SET_TIMERS, 0, &it->written.listed));
    add(it, it->written.listed.name);
    MAKE(it, zumelivon_tick(&it->table, it->written.hosted, 5000, &it->written.expired));
    add(it, it->written.expired);
}

static const char description[] =
    "{ \"args\": [\"left\", \"peer\"], \"context\": { \"left\": 0, \"peer\": null, \"kept\": null },"
    "  \"initial\": \"off\","
    "  \"states\": {"
    "    \"off\": { \"on\": { \"cast press\":"
    "      { \"guard\": \"left > 0\", \"target\": \"on\", \"assign\": { \"kept\": \"event\" } } } },"
    "    \"on\": { \"entry\": { \"assign\": { \"left\": \"left - 1\" } }, \"after\": { \"100\": \"off\" },"
    "      \"on\": { \"cast press\": { \"target\": \"off\","
    "                  \"actions\": { \"send\": \"told\", \"with\": \"kept\", \"to\": \"peer\" } },"
    "                \"call ask\": { \"actions\": [ { \"reply\": \"said\", \"with\": \"kept\" },"
    "                                             { \"raise\": \"press\", \"as\": \"cast\" } ] } } } },"
    "  \"last\": \"left\" }";

/* Runs until there is no event. Turns that were made before one that was refused stay made. */
static void run_described(struct world *it, uint64_t now) {
    uint32_t answer;
    it->made = 0;
    do {
        answer = zumelivon_run(&it->table, it->written.described, now, 100, &it->turns, &it->more);
        it->made += it->turns;
    } while (answer == ZUMELIVON_NO_MEMORY);
    if (answer != ZUMELIVON_DONE || it->more != 0) {
        complain(__LINE__, "was not done", "run");
    }
    add(it, it->made);
}

static void post_described(struct world *it, uint32_t entry, const char *name) {
    zumelivon_signal signal = {.what = ZUMELIVON_TEXT, .from = 2, .length = 30};
    MAKE(it, zumelivon_number_of(&it->table, it->written.description, ZUMELIVON_SYMBOL, bytes_of(name), strlen(name),
                                 &it->written.number));
    signal.symbol = (uint32_t)it->written.number;
    MAKE(it, zumelivon_post_signal(&it->table, it->written.described, entry, &signal, bytes_of(text), sizeof text,
                                   &it->written.call));
}

static void play_described(struct world *it) {
    const zumelivon_signal values[] = {{.what = ZUMELIVON_NUMBER, .number = 9},
                                       {.what = ZUMELIVON_MACHINE, .number = 4}};
    MAKE(it, zumelivon_describe(&it->table, bytes_of(description), sizeof description - 1, &it->written.description,
                                it->written.room, sizeof it->written.room, &it->length));
    MAKE(it, zumelivon_start_described(&it->table, it->written.description, 0, values, 2, bytes_of(text), sizeof text,
                                       &it->written.described, &it->written.report));
    for (int round = 0; round < 3; round++) {
        post_described(it, ZUMELIVON_CAST, "press");
        post_described(it, ZUMELIVON_CALL, "ask");
        run_described(it, 50);
        MAKE(it, zumelivon_collect_signal(&it->table, it->written.described, it->written.call, &it->written.signal,
                                          &it->written.reason, it->written.room, sizeof it->written.room));
        add(it, it->written.signal.length);
        MAKE(it, zumelivon_take_out_signal(&it->table, it->written.described, &it->written.signal, &it->written.target,
                                           &it->written.number, it->written.room, sizeof it->written.room));
        add(it, it->written.target + it->written.number);
    }
    MAKE(it, zumelivon_name_of(&it->table, it->written.description, ZUMELIVON_STATE, 0, it->written.room,
                               sizeof it->written.room, &it->written.number));
}

/* Plays the scenario, and answers what it came to. */
static uint64_t play(void) {
    struct world it;
    struct seen end;
    memset(&it, 0, sizeof it);
    it.written.hosted = it.written.described = UINT64_MAX;
    uint32_t answer = zumelivon_open(&it.table, ZUMELIVON_VERSION);
    if (answer == ZUMELIVON_NO_MEMORY) {
        answer = zumelivon_open(&it.table, ZUMELIVON_VERSION);
    }
    if (answer != ZUMELIVON_DONE) {
        complain(__LINE__, "was not done", "open");
        return 0;
    }
    play_hosted(&it);
    play_described(&it);
    see(&it, &end);
    add(&it, end.hosted.state + end.hosted.data * 3 + end.hosted.waiting * 5 + end.hosted.latest);
    add(&it, end.described.state + end.described.waiting * 5 + end.described.latest);
    MAKE(&it, zumelivon_stop(&it.table, it.written.hosted, 1, 2));
    MAKE(&it, zumelivon_remove(&it.table, it.written.hosted));
    if (zumelivon_close(&it.table) != ZUMELIVON_DONE) {
        complain(__LINE__, "was not done", "close");
    }
    return it.sum;
}

int main(void) {
    const uint64_t wanted = play();
    unsigned before;
    long number = 0;
    setvbuf(stdout, NULL, _IOLBF, BUFSIZ);
    do {
        before = refused;
        left = ++number;
        if (play() != wanted) {
            printf("refuse.c: without allocation %ld it comes to another end\n", number);
            wrong++;
        }
        left = -1;
    } while (refused != before && wrong < 20);
    printf("refuse: %u allocations refused, %u faults\n", refused, wrong);
    return wrong != 0 || refused == 0;
}

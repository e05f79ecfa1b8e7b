/* answers.c: makes each call right and wrong, and compares what it answers with what zumelivon.h says.
 *
 *   answers
 *
 * It prints a line for each difference, and how many comparisons were made. Status 0: there was no difference.
 */
#include <stdlib.h>

#include "plain.h"

static unsigned made, wrong;

static void compare(int line, const char *what, uint64_t got, uint64_t wanted) {
    made++;
    if (got != wanted) {
        wrong++;
        printf("answers.c:%d: %s is %llu, wanted %llu\n", line, what, (unsigned long long)got,
               (unsigned long long)wanted);
    }
}

#define SAME(got, wanted) compare(__LINE__, #got, (uint64_t)(got), (uint64_t)(wanted))

/* What most tests need: an open table with a hosted machine, and what calls write. */
struct set {
    zumelivon table;
    uint64_t id, number;
    zumelivon_report report;
    zumelivon_event event;
    zumelivon_content content;
    zumelivon_machine machine;
    zumelivon_message message;
    zumelivon_listed listed;
    uint8_t room[64];
};

static void set_up(struct set *it) {
    memset(it, 0, sizeof *it);
    SAME(zumelivon_open(&it->table, ZUMELIVON_VERSION), ZUMELIVON_DONE);
    SAME(start_plain(&it->table, 1, 5, &it->id, &it->report), ZUMELIVON_DONE);
}

static void take_down(struct set *it) {
    SAME(zumelivon_close(&it->table), ZUMELIVON_DONE);
}

static uint32_t next(struct set *it) {
    return zumelivon_next(&it->table, it->id, &it->event, it->room, sizeof it->room);
}

static uint32_t turn(struct set *it, zumelivon_answer answer, const zumelivon_action *actions, size_t count,
                     const char *text) {
    return turn_with(&it->table, it->id, it->event.number, 0, answer, actions, count, text, &it->report);
}

static void cast(struct set *it, uint64_t code) {
    SAME(post_text(&it->table, it->id, ZUMELIVON_CAST, code, "", &it->number), ZUMELIVON_DONE);
}

/* An event is there, and is handled so that nothing changes. */
static void handle_one(struct set *it) {
    SAME(next(it), ZUMELIVON_DONE);
    SAME(turn(it, keeps, &no_action, 0, ""), ZUMELIVON_DONE);
}

static uint32_t look(struct set *it) {
    return zumelivon_look(&it->table, it->id, &it->machine);
}

/* ---- tables ---- */

/* Each call but version and open, on a table and with an id. Each answers what is wanted. */
static void each_hosted_call_answers(zumelivon *table, uint64_t id, uint32_t wanted) {
    struct set it;
    uint64_t expired;
    memset(&it, 0, sizeof it);
    SAME(zumelivon_tick(table, id, 1, &expired), wanted);
    SAME(zumelivon_look(table, id, &it.machine), wanted);
    SAME(zumelivon_stop(table, id, 1, 2), wanted);
    SAME(zumelivon_remove(table, id), wanted);
    SAME(post_text(table, id, ZUMELIVON_CAST, 1, "a", &it.number), wanted);
    SAME(zumelivon_next(table, id, &it.event, it.room, sizeof it.room), wanted);
    SAME(turn_with(table, id, 1, 1, keeps, &no_action, 0, "", &it.report), wanted);
    SAME(zumelivon_collect(table, id, 1, &it.content, it.room, sizeof it.room), wanted);
    SAME(zumelivon_reply(table, id, 1, 1, no_bytes, 0), wanted);
    SAME(zumelivon_take_out(table, id, &it.message, it.room, sizeof it.room), wanted);
}

static void each_described_call_answers(zumelivon *table, uint64_t id, uint32_t wanted) {
    const zumelivon_signal none = {0};
    zumelivon_signal signal;
    uint64_t target, number, turns;
    uint32_t more, reason;
    uint8_t room[8];
    SAME(zumelivon_post_signal(table, id, ZUMELIVON_CAST, &none, no_bytes, 0, &number), wanted);
    SAME(zumelivon_run(table, id, 1, 1, &turns, &more), wanted);
    SAME(zumelivon_collect_signal(table, id, 1, &signal, &reason, room, sizeof room), wanted);
    SAME(zumelivon_take_out_signal(table, id, &signal, &target, &number, room, sizeof room), wanted);
}

static void each_description_call_answers(zumelivon *table, uint64_t description, uint32_t wanted) {
    const zumelivon_signal none = {0};
    zumelivon_report report;
    uint64_t id, number, length;
    uint8_t room[8];
    SAME(zumelivon_number_of(table, description, ZUMELIVON_SYMBOL, bytes_of("a"), 1, &number), wanted);
    SAME(zumelivon_name_of(table, description, ZUMELIVON_SYMBOL, 0, room, sizeof room, &length), wanted);
    SAME(zumelivon_start_described(table, description, 0, &none, 0, no_bytes, 0, &id, &report), wanted);
}

static void a_closed_table(void) {
    zumelivon table = {0};
    zumelivon_report report;
    zumelivon_listed listed;
    uint64_t id, description, length;
    uint8_t room[8];
    each_hosted_call_answers(&table, 1, ZUMELIVON_CLOSED);
    each_described_call_answers(&table, 1, ZUMELIVON_CLOSED);
    each_description_call_answers(&table, 0, ZUMELIVON_CLOSED);
    SAME(start_plain(&table, 1, 1, &id, &report), ZUMELIVON_CLOSED);
    SAME(zumelivon_list(&table, ZUMELIVON_SENT, 0, &listed), ZUMELIVON_CLOSED);
    SAME(zumelivon_describe(&table, bytes_of("{}"), 2, &description, room, sizeof room, &length), ZUMELIVON_CLOSED);
    SAME(zumelivon_close(&table), ZUMELIVON_CLOSED);
    SAME(table.at == NULL, 1);
}

static void opening_and_closing(void) {
    zumelivon table = {0};
    SAME(zumelivon_version(), ZUMELIVON_VERSION);
    SAME(zumelivon_open(&table, ZUMELIVON_VERSION + 1), ZUMELIVON_WRONG_VERSION);
    SAME(zumelivon_open(&table, 0), ZUMELIVON_WRONG_VERSION);
    SAME(zumelivon_open(&table, UINT32_MAX), ZUMELIVON_WRONG_VERSION);
    SAME(zumelivon_close(&table), ZUMELIVON_CLOSED);
    for (int i = 0; i < 3; i++) {
        SAME(zumelivon_open(&table, ZUMELIVON_VERSION), ZUMELIVON_DONE);
        SAME(zumelivon_open(&table, ZUMELIVON_VERSION), ZUMELIVON_OPEN);
        SAME(zumelivon_close(&table), ZUMELIVON_DONE);
        SAME(zumelivon_close(&table), ZUMELIVON_CLOSED);
    }
}

/* ---- ids ---- */

static void ids_that_name_none(void) {
    static const uint64_t far[] = {UINT64_MAX, UINT64_MAX - 1, (uint64_t)1 << 63, (uint64_t)1 << 32, UINT32_MAX, 65536};
    struct set it, other;
    uint64_t old;
    set_up(&it);
    set_up(&other);
    for (size_t i = 0; i < sizeof far / sizeof *far; i++) {
        each_hosted_call_answers(&it.table, far[i], ZUMELIVON_NO_SUCH_MACHINE);
        each_described_call_answers(&it.table, far[i], ZUMELIVON_NO_SUCH_MACHINE);
    }
    each_hosted_call_answers(&it.table, it.id + 1, ZUMELIVON_NO_SUCH_MACHINE);
    each_hosted_call_answers(&it.table, it.id - 1, ZUMELIVON_NO_SUCH_MACHINE);
    each_described_call_answers(&it.table, it.id, ZUMELIVON_NO_SUCH_MACHINE); /* it is a hosted one */
    old = it.id;
    SAME(zumelivon_remove(&it.table, it.id), ZUMELIVON_DONE);
    each_hosted_call_answers(&it.table, old, ZUMELIVON_NO_SUCH_MACHINE);
    for (int i = 0; i < 100; i++) { /* its place is taken again, its id is not */
        SAME(start_plain(&it.table, 1, 1, &it.id, &it.report), ZUMELIVON_DONE);
        SAME(it.id != old, 1);
        SAME(zumelivon_remove(&it.table, it.id), ZUMELIVON_DONE);
        SAME(zumelivon_look(&it.table, old, &it.machine), ZUMELIVON_NO_SUCH_MACHINE);
    }
    take_down(&it);
    take_down(&other);
}

/* ---- hosted machines ---- */

static void a_start(void) {
    struct set it;
    set_up(&it);
    SAME(it.report.done, ZUMELIVON_STARTED);
    SAME(it.report.has_event, 0);
    SAME(it.report.before, 1);
    SAME(it.report.after, 1);
    SAME(look(&it), ZUMELIVON_DONE);
    SAME(it.machine.state, 1);
    SAME(it.machine.data, 5);
    SAME(it.machine.latest, 0);
    SAME(it.machine.waiting, 0);
    SAME(it.machine.has_due || it.machine.has_event || it.machine.has_message || it.machine.ended, 0);
    SAME(next(&it), ZUMELIVON_NOTHING);
    take_down(&it);
}

static void a_start_with_actions(void) {
    struct set it;
    set_up(&it);
    const zumelivon_begin begin = {.state = 2, .data = 3};
    const zumelivon_action actions[] = {
        {.what = ZUMELIVON_NEXT_EVENT, .kind = ZUMELIVON_INTERNAL, .code = 9, .from = 1, .length = 2},
        {.what = ZUMELIVON_SET, .timer = ZUMELIVON_STATE_TIMER, .time = 40, .code = 8},
        {.what = ZUMELIVON_SEND, .machine = it.id, .code = 7}};
    SAME(zumelivon_start(&it.table, 100, &begin, actions, 3, &no_answer, &no_action, 0, bytes_of("abc"), 3, &it.id,
                         &it.report),
         ZUMELIVON_DONE);
    SAME(it.report.inserted, 1);
    SAME(it.report.set, 1);
    SAME(it.report.sent, 1);
    SAME(look(&it), ZUMELIVON_DONE);
    SAME(it.machine.has_due && it.machine.due == 140, 1);
    SAME(it.machine.has_message, 1);
    SAME(it.machine.latest, 100);
    SAME(next(&it), ZUMELIVON_DONE);
    SAME(it.event.kind, ZUMELIVON_INTERNAL);
    SAME(it.event.code, 9);
    SAME(it.event.length, 2);
    SAME(memcmp(it.room, "bc", 2), 0);
    take_down(&it);
}

static uint32_t start_with(struct set *it, uint64_t now, uint32_t enters, zumelivon_action action,
                           zumelivon_answer entered, zumelivon_action enter_action) {
    const zumelivon_begin begin = {.enters = enters, .word = 44};
    uint64_t id;
    return zumelivon_start(&it->table, now, &begin, &action, action.unused == 0, &entered, &enter_action,
                           enter_action.unused == 0, bytes_of("abc"), 3, &id, &it->report);
}

static void starts_that_are_refused(void) {
    const zumelivon_action nothing = {.unused = 1}, unknown = {.what = 9}, none = {.what = 0}, far = {.what = 1000000},
                           kind = {.what = ZUMELIVON_NEXT_EVENT, .kind = 5},
                           timer = {.what = ZUMELIVON_SET, .timer = 3},
                           beyond = {.what = ZUMELIVON_NEXT_EVENT, .kind = 4, .from = 2, .length = 2},
                           postpone = {.what = ZUMELIVON_POSTPONE, .postpone = 1},
                           insert = {.what = ZUMELIVON_NEXT_EVENT, .kind = ZUMELIVON_INTERNAL},
                           send = {.what = ZUMELIVON_SEND};
    const zumelivon_answer leaves = {.what = ZUMELIVON_NEXT_STATE}, strange = {.what = 8};
    struct set it;
    set_up(&it);
    SAME(start_with(&it, (uint64_t)1 << 63, 0, nothing, no_answer, nothing), ZUMELIVON_BAD_MOMENT);
    SAME(start_with(&it, UINT64_MAX, 0, nothing, no_answer, nothing), ZUMELIVON_BAD_MOMENT);
    SAME(start_with(&it, 0, 0, unknown, no_answer, nothing), ZUMELIVON_INVALID);
    SAME(start_with(&it, 0, 0, none, no_answer, nothing), ZUMELIVON_INVALID);
    SAME(start_with(&it, 0, 0, far, no_answer, nothing), ZUMELIVON_INVALID);
    SAME(start_with(&it, 0, 0, kind, no_answer, nothing), ZUMELIVON_INVALID);
    SAME(start_with(&it, 0, 0, timer, no_answer, nothing), ZUMELIVON_INVALID);
    SAME(start_with(&it, 0, 0, beyond, no_answer, nothing), ZUMELIVON_INVALID);
    SAME(start_with(&it, 0, 1, nothing, leaves, nothing), ZUMELIVON_INVALID);
    SAME(start_with(&it, 0, 1, nothing, strange, nothing), ZUMELIVON_INVALID);
    SAME(start_with(&it, 0, 1, nothing, keeps, postpone), ZUMELIVON_INVALID);
    SAME(start_with(&it, 0, 1, nothing, keeps, insert), ZUMELIVON_INVALID);
    SAME(start_with(&it, 0, 1, nothing, keeps, send), ZUMELIVON_INVALID);
    SAME(start_with(&it, ((uint64_t)1 << 63) - 1, 1, nothing, no_answer, nothing), ZUMELIVON_DONE);
    take_down(&it);
}

/* A start whose first enter call stops is a machine that has ended. */
static void a_start_that_stops(void) {
    const zumelivon_begin begin = {.state = 1, .enters = 1, .word = 44};
    const zumelivon_answer stops = {.what = ZUMELIVON_STOP, .reason = 9, .has_data = 1, .data = 6};
    struct set it;
    set_up(&it);
    SAME(zumelivon_start(&it.table, 0, &begin, &no_action, 0, &stops, &no_action, 0, no_bytes, 0, &it.id, &it.report),
         ZUMELIVON_DONE);
    SAME(it.report.done, ZUMELIVON_HAS_ENDED);
    SAME(it.report.reason, 9);
    SAME(it.report.word, 44);
    SAME(look(&it), ZUMELIVON_DONE);
    SAME(it.machine.ended, 1);
    SAME(it.machine.reason, 9);
    SAME(it.machine.word, 44);
    SAME(it.machine.data, 6);
    SAME(post_text(&it.table, it.id, ZUMELIVON_CAST, 1, "", &it.number), ZUMELIVON_ENDED);
    take_down(&it);
}

static void a_call_and_its_reply(void) {
    struct set it;
    uint64_t call;
    set_up(&it);
    SAME(post_text(&it.table, it.id, ZUMELIVON_CALL, 9, "ask", &call), ZUMELIVON_DONE);
    SAME(zumelivon_collect(&it.table, it.id, call, &it.content, it.room, sizeof it.room), ZUMELIVON_NOTHING);
    SAME(next(&it), ZUMELIVON_DONE);
    SAME(it.event.kind, ZUMELIVON_CALL);
    SAME(it.event.number, call);
    SAME(it.event.code, 9);
    SAME(it.event.state, 1);
    SAME(it.event.data, 5);
    SAME(it.event.length, 3);
    SAME(memcmp(it.room, "ask", 3), 0);
    const zumelivon_action reply = {.what = ZUMELIVON_REPLY, .machine = it.event.machine,
                                    .request = it.event.request, .code = 10, .from = 1, .length = 6};
    SAME(turn(&it, keeps, &reply, 1, "xanswer"), ZUMELIVON_DONE);
    SAME(it.report.done, ZUMELIVON_FINISHED);
    SAME(it.report.has_event, 1);
    SAME(it.report.event, call);
    SAME(it.report.calls, 1);
    SAME(it.report.replied, 1);
    SAME(zumelivon_list(&it.table, ZUMELIVON_REPLIED, 0, &it.listed), ZUMELIVON_DONE);
    SAME(it.listed.machine, it.event.machine);
    SAME(it.listed.number, call);
    SAME(zumelivon_collect(&it.table, it.id, call, &it.content, it.room, 5), ZUMELIVON_TOO_SMALL);
    SAME(it.content.length, 6);
    SAME(zumelivon_collect(&it.table, it.id, call, &it.content, it.room, 0), ZUMELIVON_TOO_SMALL);
    SAME(zumelivon_collect(&it.table, it.id, call, &it.content, it.room, 6), ZUMELIVON_DONE);
    SAME(it.content.code, 10);
    SAME(it.content.length, 6);
    SAME(memcmp(it.room, "answer", 6), 0);
    SAME(zumelivon_collect(&it.table, it.id, call, &it.content, it.room, 6), ZUMELIVON_GONE);
    SAME(zumelivon_collect(&it.table, it.id, call + 1, &it.content, it.room, 6), ZUMELIVON_GONE);
    SAME(zumelivon_collect(&it.table, it.id, UINT64_MAX, &it.content, it.room, 6), ZUMELIVON_GONE);
    take_down(&it);
}

static void a_reply_from_outside(void) {
    struct set it;
    uint64_t call;
    set_up(&it);
    SAME(post_text(&it.table, it.id, ZUMELIVON_CALL, 9, "", &call), ZUMELIVON_DONE);
    handle_one(&it);
    SAME(zumelivon_reply(&it.table, it.id, call + 1, 3, bytes_of("yes"), 3), ZUMELIVON_NOTHING);
    SAME(zumelivon_reply(&it.table, it.id, call, 3, bytes_of("yes"), 3), ZUMELIVON_DONE);
    SAME(zumelivon_reply(&it.table, it.id, call, 3, bytes_of("yes"), 3), ZUMELIVON_NOTHING);
    SAME(zumelivon_collect(&it.table, it.id, call, &it.content, it.room, 3), ZUMELIVON_DONE);
    SAME(it.content.code, 3);
    SAME(memcmp(it.room, "yes", 3), 0);
    SAME(zumelivon_reply(&it.table, it.id, call, 3, no_bytes, 0), ZUMELIVON_NOTHING);
    take_down(&it);
}

/* The postponed event comes again behind a state change; an inserted one comes before it. */
static void postponed_and_inserted(void) {
    const zumelivon_action postpone = {.what = ZUMELIVON_POSTPONE, .postpone = 1},
                           insert = {.what = ZUMELIVON_NEXT_EVENT, .kind = ZUMELIVON_INTERNAL, .code = 3};
    struct set it;
    uint64_t first, second;
    set_up(&it);
    cast(&it, 1);
    first = it.number;
    cast(&it, 2);
    second = it.number;
    SAME(next(&it), ZUMELIVON_DONE);
    SAME(it.event.number, first);
    SAME(turn(&it, keeps, &postpone, 1, ""), ZUMELIVON_DONE);
    SAME(it.report.done, ZUMELIVON_POSTPONED);
    SAME(next(&it), ZUMELIVON_DONE);
    SAME(it.event.number, second);
    SAME(turn(&it, (zumelivon_answer){.what = ZUMELIVON_NEXT_STATE, .state = 2, .data = 6}, &insert, 1, ""),
         ZUMELIVON_DONE);
    SAME(it.report.before, 1);
    SAME(it.report.after, 2);
    SAME(it.report.inserted, 1);
    SAME(zumelivon_list(&it.table, ZUMELIVON_INSERTED, 0, &it.listed), ZUMELIVON_DONE);
    SAME(next(&it), ZUMELIVON_DONE);
    SAME(it.event.kind, ZUMELIVON_INTERNAL);
    SAME(it.event.number, it.listed.number);
    SAME(it.event.code, 3);
    SAME(it.event.state, 2);
    SAME(it.event.data, 6);
    SAME(turn(&it, keeps, &no_action, 0, ""), ZUMELIVON_DONE);
    SAME(next(&it), ZUMELIVON_DONE);
    SAME(it.event.number, first);
    SAME(turn(&it, (zumelivon_answer){.what = ZUMELIVON_REPEAT_STATE, .data = 7}, &no_action, 0, ""), ZUMELIVON_DONE);
    SAME(next(&it), ZUMELIVON_NOTHING);
    SAME(look(&it), ZUMELIVON_DONE);
    SAME(it.machine.data, 7);
    take_down(&it);
}

/* An inserted event has the kind, the tag and the timer that it was given. */
static void inserted_kinds(void) {
    struct set it;
    set_up(&it);
    const zumelivon_action inserts[] = {
        {.what = ZUMELIVON_NEXT_EVENT, .kind = ZUMELIVON_CALL, .machine = 77, .request = 88, .code = 1},
        {.what = ZUMELIVON_NEXT_EVENT, .kind = ZUMELIVON_CAST, .code = UINT64_MAX},
        {.what = ZUMELIVON_NEXT_EVENT, .kind = ZUMELIVON_INFO, .code = 3},
        {.what = ZUMELIVON_NEXT_EVENT, .kind = ZUMELIVON_TIMEOUT, .timer = ZUMELIVON_NAMED_TIMER, .name = UINT32_MAX},
        {.what = ZUMELIVON_NEXT_EVENT, .kind = ZUMELIVON_TIMEOUT, .timer = ZUMELIVON_STATE_TIMER},
        {.what = ZUMELIVON_NEXT_EVENT, .kind = ZUMELIVON_INTERNAL, .code = 6}};
    cast(&it, 1);
    SAME(next(&it), ZUMELIVON_DONE);
    SAME(turn(&it, keeps, inserts, 6, ""), ZUMELIVON_DONE);
    for (uint32_t i = 0; i < 6; i++) {
        SAME(next(&it), ZUMELIVON_DONE);
        SAME(it.event.kind, inserts[i].kind);
        SAME(it.event.code, inserts[i].code);
        SAME(it.event.timer, inserts[i].timer);
        SAME(it.event.name, inserts[i].name);
        SAME(it.event.kind != ZUMELIVON_CALL || (it.event.machine == 77 && it.event.request == 88), 1);
        SAME(turn(&it, keeps, &no_action, 0, ""), ZUMELIVON_DONE);
    }
    SAME(next(&it), ZUMELIVON_NOTHING);
    take_down(&it);
}

static void time_outs(void) {
    struct set it;
    uint64_t expired;
    set_up(&it);
    cast(&it, 1);
    SAME(next(&it), ZUMELIVON_DONE);
    const zumelivon_action sets[] = {
        {.what = ZUMELIVON_SET, .timer = ZUMELIVON_NAMED_TIMER, .name = 7, .time = 100, .code = 44, .length = 2},
        {.what = ZUMELIVON_SET, .timer = ZUMELIVON_STATE_TIMER, .time = 50},
        {.what = ZUMELIVON_SET, .timer = ZUMELIVON_EVENT_TIMER, .time = 10, .infinite = 1},
        {.what = ZUMELIVON_CANCEL, .timer = ZUMELIVON_STATE_TIMER},
        {.what = ZUMELIVON_UPDATE, .timer = ZUMELIVON_NAMED_TIMER, .name = 8, .code = 45}};
    SAME(turn_with(&it.table, it.id, it.event.number, 10, keeps, sets, 5, "hi", &it.report), ZUMELIVON_DONE);
    SAME(it.report.set, 4);
    SAME(zumelivon_list(&it.table, ZUMELIVON_SET_TIMERS, 0, &it.listed), ZUMELIVON_DONE);
    SAME(it.listed.timer, ZUMELIVON_NAMED_TIMER);
    SAME(it.listed.name, 7);
    SAME(it.listed.decision, ZUMELIVON_TIMER_SET);
    SAME(it.listed.time, 100);
    SAME(it.listed.infinite, 0);
    SAME(zumelivon_list(&it.table, ZUMELIVON_SET_TIMERS, 1, &it.listed), ZUMELIVON_DONE);
    SAME(it.listed.timer, ZUMELIVON_EVENT_TIMER);
    SAME(it.listed.decision, ZUMELIVON_TIMER_SET);
    SAME(it.listed.infinite, 1);
    SAME(zumelivon_list(&it.table, ZUMELIVON_SET_TIMERS, 2, &it.listed), ZUMELIVON_DONE);
    SAME(it.listed.timer, ZUMELIVON_STATE_TIMER);
    SAME(it.listed.decision, ZUMELIVON_TIMER_CANCELLED);
    SAME(zumelivon_list(&it.table, ZUMELIVON_SET_TIMERS, 3, &it.listed), ZUMELIVON_DONE);
    SAME(it.listed.name, 8);
    SAME(it.listed.decision, ZUMELIVON_TIMER_UPDATED);
    SAME(next(&it), ZUMELIVON_DONE); /* the one that was updated and did not run is due at once */
    SAME(it.event.name, 8);
    SAME(it.event.code, 45);
    SAME(turn(&it, keeps, &no_action, 0, ""), ZUMELIVON_DONE);
    SAME(look(&it), ZUMELIVON_DONE);
    SAME(it.machine.has_due, 1);
    SAME(it.machine.due, 110);
    SAME(it.machine.latest, 10);
    SAME(zumelivon_tick(&it.table, it.id, 109, &expired), ZUMELIVON_DONE);
    SAME(expired, 0);
    SAME(next(&it), ZUMELIVON_NOTHING);
    SAME(zumelivon_tick(&it.table, it.id, 110, &expired), ZUMELIVON_DONE);
    SAME(expired, 1);
    SAME(next(&it), ZUMELIVON_DONE);
    SAME(it.event.kind, ZUMELIVON_TIMEOUT);
    SAME(it.event.timer, ZUMELIVON_NAMED_TIMER);
    SAME(it.event.name, 7);
    SAME(it.event.code, 44);
    SAME(it.event.length, 2);
    SAME(memcmp(it.room, "hi", 2), 0);
    SAME(turn(&it, keeps, &no_action, 0, ""), ZUMELIVON_DONE);
    SAME(look(&it), ZUMELIVON_DONE);
    SAME(it.machine.has_due, 0);
    SAME(zumelivon_tick(&it.table, it.id, (uint64_t)1 << 63, &expired), ZUMELIVON_BAD_MOMENT);
    SAME(zumelivon_tick(&it.table, it.id, UINT64_MAX, &expired), ZUMELIVON_BAD_MOMENT);
    SAME(zumelivon_tick(&it.table, it.id, 5, &expired), ZUMELIVON_DONE);
    SAME(look(&it), ZUMELIVON_DONE);
    SAME(it.machine.latest, 110);
    take_down(&it);
}

static void enter_calls(void) {
    const zumelivon_begin begin = {.state = 1, .data = 5, .enters = 1};
    const zumelivon_answer on = {.what = ZUMELIVON_NEXT_STATE, .state = 2, .data = 9},
                           with_data = {.what = ZUMELIVON_KEEP_STATE, .data = 50},
                           repeats = {.what = ZUMELIVON_REPEAT_STATE_AND_DATA},
                           stops = {.what = ZUMELIVON_STOP, .reason = 3};
    const zumelivon_action timer = {.what = ZUMELIVON_SET, .timer = ZUMELIVON_STATE_TIMER, .time = 10};
    struct set it;
    set_up(&it);
    SAME(zumelivon_start(&it.table, 0, &begin, &no_action, 0, &with_data, &timer, 1, no_bytes, 0, &it.id, &it.report),
         ZUMELIVON_DONE);
    SAME(it.report.set, 1);
    SAME(look(&it), ZUMELIVON_DONE);
    SAME(it.machine.data, 50);
    SAME(it.machine.due, 10);
    cast(&it, 1);
    SAME(next(&it), ZUMELIVON_DONE);
    SAME(it.event.enters, 1);
    SAME(zumelivon_enters(&it.event, &on), 1);
    SAME(zumelivon_enters(&it.event, &repeats), 1);
    SAME(zumelivon_enters(&it.event, &keeps), 0);
    SAME(zumelivon_turn(&it.table, it.id, it.event.number, 200, &on, &no_action, 0, &no_answer, &timer, 1, no_bytes,
                        0, 0, &it.report),
         ZUMELIVON_INVALID);
    SAME(zumelivon_turn(&it.table, it.id, it.event.number, 200, &on, &no_action, 0, &keeps, &timer, 1, no_bytes, 0, 0,
                        &it.report),
         ZUMELIVON_DONE);
    SAME(it.report.calls, 2);
    SAME(it.report.after, 2);
    SAME(look(&it), ZUMELIVON_DONE);
    SAME(it.machine.data, 9);
    SAME(it.machine.due, 210);
    cast(&it, 1);
    SAME(next(&it), ZUMELIVON_DONE);
    SAME(zumelivon_turn(&it.table, it.id, it.event.number, 200, &repeats, &no_action, 0, &stops, &no_action, 0,
                        no_bytes, 0, 33, &it.report),
         ZUMELIVON_DONE);
    SAME(it.report.done, ZUMELIVON_HAS_ENDED);
    SAME(it.report.reason, 3);
    SAME(it.report.word, 33);
    take_down(&it);
}

/* Each wrong answer is refused, and the event waits as before. */
static void wrong_answers(void) {
    const struct {
        zumelivon_answer answer;
        zumelivon_action action;
        size_t count;
    } wrongs[] = {
        {{.what = ZUMELIVON_NONE}, {0}, 0},
        {{.what = 8}, {0}, 0},
        {{.what = UINT32_MAX}, {0}, 0},
        {{.what = ZUMELIVON_STOP}, {.what = ZUMELIVON_REPLY}, 1},
        {{.what = ZUMELIVON_STOP}, {.what = ZUMELIVON_HIBERNATE}, 1},
        {{.what = ZUMELIVON_STOP_AND_REPLY}, {.what = ZUMELIVON_SET}, 1},
        {{.what = ZUMELIVON_STOP_AND_REPLY}, {.what = ZUMELIVON_SEND}, 1},
        {{.what = ZUMELIVON_KEEP_STATE}, {.what = 0}, 1},
        {{.what = ZUMELIVON_KEEP_STATE}, {.what = 9}, 1},
        {{.what = ZUMELIVON_KEEP_STATE}, {.what = UINT32_MAX}, 1},
        {{.what = ZUMELIVON_KEEP_STATE}, {.what = ZUMELIVON_NEXT_EVENT, .kind = 5}, 1},
        {{.what = ZUMELIVON_KEEP_STATE}, {.what = ZUMELIVON_NEXT_EVENT, .kind = UINT32_MAX}, 1},
        {{.what = ZUMELIVON_KEEP_STATE}, {.what = ZUMELIVON_NEXT_EVENT, .kind = ZUMELIVON_TIMEOUT, .timer = 3}, 1},
        {{.what = ZUMELIVON_KEEP_STATE}, {.what = ZUMELIVON_SET, .timer = 3}, 1},
        {{.what = ZUMELIVON_KEEP_STATE}, {.what = ZUMELIVON_CANCEL, .timer = UINT32_MAX}, 1},
        {{.what = ZUMELIVON_KEEP_STATE}, {.what = ZUMELIVON_UPDATE, .timer = 4}, 1},
        {{.what = ZUMELIVON_KEEP_STATE}, {.what = ZUMELIVON_REPLY, .from = 4, .length = 0}, 1},
        {{.what = ZUMELIVON_KEEP_STATE}, {.what = ZUMELIVON_REPLY, .from = 0, .length = 4}, 1},
        {{.what = ZUMELIVON_KEEP_STATE}, {.what = ZUMELIVON_REPLY, .from = 3, .length = 1}, 1},
        {{.what = ZUMELIVON_KEEP_STATE}, {.what = ZUMELIVON_REPLY, .from = UINT64_MAX, .length = 2}, 1},
        {{.what = ZUMELIVON_KEEP_STATE}, {.what = ZUMELIVON_SEND, .from = 2, .length = UINT64_MAX}, 1},
        {{.what = ZUMELIVON_KEEP_STATE}, {.what = ZUMELIVON_SET, .from = UINT64_MAX, .length = UINT64_MAX}, 1},
        {{.what = ZUMELIVON_KEEP_STATE}, {.what = ZUMELIVON_UPDATE, .from = 1, .length = (uint64_t)1 << 63}, 1},
        {{.what = ZUMELIVON_KEEP_STATE}, {.what = ZUMELIVON_NEXT_EVENT, .from = UINT64_MAX - 1, .length = 2}, 1},
    };
    struct set it;
    set_up(&it);
    cast(&it, 1);
    SAME(next(&it), ZUMELIVON_DONE);
    for (size_t i = 0; i < sizeof wrongs / sizeof *wrongs; i++) {
        uint32_t answer = turn(&it, wrongs[i].answer, &wrongs[i].action, wrongs[i].count, "abc");
        if (answer != ZUMELIVON_INVALID) {
            printf("answers.c: the wrong answer %zu:\n", i);
        }
        SAME(answer, ZUMELIVON_INVALID);
        SAME(look(&it), ZUMELIVON_DONE);
        SAME(it.machine.waiting, 1);
        SAME(it.machine.state, 1);
        SAME(it.machine.data, 5);
    }
    handle_one(&it);
    take_down(&it);
}

static void wrong_enter_answers(void) {
    static const uint32_t whats[] = {ZUMELIVON_NEXT_STATE, ZUMELIVON_REPEAT_STATE, ZUMELIVON_REPEAT_STATE_AND_DATA, 8,
                                     UINT32_MAX};
    static const uint32_t actions[] = {ZUMELIVON_POSTPONE, ZUMELIVON_NEXT_EVENT, ZUMELIVON_SEND, 9, UINT32_MAX};
    const zumelivon_begin begin = {.state = 1, .enters = 1};
    const zumelivon_answer on = {.what = ZUMELIVON_NEXT_STATE, .state = 2};
    struct set it;
    set_up(&it);
    SAME(zumelivon_start(&it.table, 0, &begin, &no_action, 0, &no_answer, &no_action, 0, no_bytes, 0, &it.id,
                         &it.report),
         ZUMELIVON_DONE);
    cast(&it, 1);
    SAME(next(&it), ZUMELIVON_DONE);
    for (size_t i = 0; i < 5; i++) {
        const zumelivon_answer entered = {.what = whats[i]};
        const zumelivon_action action = {.what = actions[i]};
        SAME(zumelivon_turn(&it.table, it.id, it.event.number, 0, &on, &no_action, 0, &entered, &no_action, 0, no_bytes,
                            0, 0, &it.report),
             ZUMELIVON_INVALID);
        SAME(zumelivon_turn(&it.table, it.id, it.event.number, 0, &on, &no_action, 0, &keeps, &action, 1, no_bytes, 0,
                            0, &it.report),
             ZUMELIVON_INVALID);
    }
    SAME(zumelivon_turn(&it.table, it.id, it.event.number, 0, &on, &no_action, 0, &no_answer, &no_action, 0, no_bytes,
                        0, 0, &it.report),
         ZUMELIVON_DONE);
    take_down(&it);
}

/* A turn is refused where it is another event's, or comes too late; and the event stays. */
static void turns_that_are_refused(void) {
    struct set it;
    set_up(&it);
    it.event.number = 1;
    SAME(turn(&it, keeps, &no_action, 0, ""), ZUMELIVON_NOT_NEXT);
    cast(&it, 1);
    it.event.number = it.number + 1;
    SAME(turn(&it, keeps, &no_action, 0, ""), ZUMELIVON_NOT_NEXT);
    it.event.number = UINT64_MAX;
    SAME(turn(&it, keeps, &no_action, 0, ""), ZUMELIVON_NOT_NEXT);
    it.event.number = it.number;
    SAME(turn_with(&it.table, it.id, it.number, (uint64_t)1 << 63, keeps, &no_action, 0, "", &it.report),
         ZUMELIVON_BAD_MOMENT);
    SAME(turn_with(&it.table, it.id, it.number, UINT64_MAX, keeps, &no_action, 0, "", &it.report),
         ZUMELIVON_BAD_MOMENT);
    SAME(look(&it), ZUMELIVON_DONE);
    SAME(it.machine.latest, 0);
    SAME(turn(&it, keeps, &no_action, 0, ""), ZUMELIVON_DONE);
    SAME(turn(&it, keeps, &no_action, 0, ""), ZUMELIVON_NOT_NEXT);
    take_down(&it);
}

/* What is shown stays next, whatever else is called, until a turn. */
static void the_next_event_stays(void) {
    struct set it;
    uint64_t shown, expired, other;
    set_up(&it);
    cast(&it, 1);
    SAME(next(&it), ZUMELIVON_DONE);
    const zumelivon_action zero = {.what = ZUMELIVON_SET, .timer = ZUMELIVON_STATE_TIMER, .time = 5};
    SAME(turn(&it, keeps, &zero, 1, ""), ZUMELIVON_DONE);
    cast(&it, 2);
    SAME(next(&it), ZUMELIVON_DONE);
    shown = it.event.number;
    cast(&it, 3);
    SAME(zumelivon_tick(&it.table, it.id, 100, &expired), ZUMELIVON_DONE);
    SAME(expired, 1);
    SAME(start_plain(&it.table, 1, 1, &other, &it.report), ZUMELIVON_DONE);
    SAME(zumelivon_remove(&it.table, other), ZUMELIVON_DONE);
    SAME(next(&it), ZUMELIVON_DONE);
    SAME(it.event.number, shown);
    take_down(&it);
}

static void rooms_that_are_too_small(void) {
    struct set it;
    zumelivon_event whole;
    set_up(&it);
    SAME(post_text(&it.table, it.id, ZUMELIVON_INFO, 4, "seven..", &it.number), ZUMELIVON_DONE);
    memset(it.room, 'x', sizeof it.room);
    for (size_t capacity = 0; capacity < 7; capacity++) {
        memset(&it.event, 0, sizeof it.event);
        SAME(zumelivon_next(&it.table, it.id, &it.event, it.room, capacity), ZUMELIVON_TOO_SMALL);
        SAME(it.event.number, it.number);
        SAME(it.event.code, 4);
        SAME(it.event.length, 7);
        SAME(it.room[0], 'x');
    }
    SAME(zumelivon_next(&it.table, it.id, &whole, it.room, 7), ZUMELIVON_DONE);
    SAME(memcmp(it.room, "seven..x", 8), 0);
    SAME(memcmp(&whole, &it.event, sizeof whole), 0);
    const zumelivon_action send = {.what = ZUMELIVON_SEND, .machine = 5, .code = 6, .from = 1, .length = 3};
    SAME(turn(&it, keeps, &send, 1, "abcdef"), ZUMELIVON_DONE);
    SAME(zumelivon_take_out(&it.table, it.id, &it.message, it.room, 2), ZUMELIVON_TOO_SMALL);
    SAME(it.message.length, 3);
    SAME(zumelivon_take_out(&it.table, it.id, &it.message, it.room, 3), ZUMELIVON_DONE);
    SAME(memcmp(it.room, "bcd", 3), 0);
    take_down(&it);
}

/* A long content goes in and comes out as it was. */
static void long_contents(void) {
    enum { LONG = 300000 };
    struct set it;
    uint8_t *sent = malloc(LONG), *got = malloc(LONG);
    uint64_t call;
    set_up(&it);
    for (size_t i = 0; i < LONG; i++) {
        sent[i] = (uint8_t)(i * 7 + i / 256);
    }
    SAME(zumelivon_post(&it.table, it.id, ZUMELIVON_CALL, 1, sent, LONG, &call), ZUMELIVON_DONE);
    SAME(zumelivon_next(&it.table, it.id, &it.event, got, LONG - 1), ZUMELIVON_TOO_SMALL);
    SAME(zumelivon_next(&it.table, it.id, &it.event, got, LONG), ZUMELIVON_DONE);
    SAME(memcmp(sent, got, LONG), 0);
    const zumelivon_action reply = {.what = ZUMELIVON_REPLY, .machine = it.event.machine,
                                    .request = it.event.request, .from = 1, .length = LONG - 1};
    SAME(zumelivon_turn(&it.table, it.id, call, 0, &keeps, &reply, 1, &no_answer, &no_action, 0, sent, LONG, 0,
                        &it.report),
         ZUMELIVON_DONE);
    SAME(zumelivon_collect(&it.table, it.id, call, &it.content, got, LONG), ZUMELIVON_DONE);
    SAME(it.content.length, LONG - 1);
    SAME(memcmp(sent + 1, got, LONG - 1), 0);
    take_down(&it);
    free(sent);
    free(got);
}

static void messages(void) {
    struct set it;
    set_up(&it);
    SAME(zumelivon_take_out(&it.table, it.id, &it.message, it.room, sizeof it.room), ZUMELIVON_NOTHING);
    cast(&it, 1);
    SAME(next(&it), ZUMELIVON_DONE);
    const zumelivon_action sends[] = {{.what = ZUMELIVON_SEND, .machine = 12, .code = 8, .length = 2},
                                      {.what = ZUMELIVON_SEND, .machine = UINT64_MAX, .code = 9}};
    SAME(turn(&it, keeps, sends, 2, "hi"), ZUMELIVON_DONE);
    SAME(it.report.sent, 2);
    SAME(zumelivon_list(&it.table, ZUMELIVON_SENT, 1, &it.listed), ZUMELIVON_DONE);
    SAME(it.listed.number, 2);
    SAME(look(&it), ZUMELIVON_DONE);
    SAME(it.machine.has_message, 1);
    SAME(zumelivon_take_out(&it.table, it.id, &it.message, it.room, sizeof it.room), ZUMELIVON_DONE);
    SAME(it.message.target, 12);
    SAME(it.message.number, 1);
    SAME(it.message.code, 8);
    SAME(it.message.length, 2);
    SAME(memcmp(it.room, "hi", 2), 0);
    SAME(zumelivon_stop(&it.table, it.id, 1, 1), ZUMELIVON_DONE); /* what was sent stays */
    SAME(zumelivon_take_out(&it.table, it.id, &it.message, it.room, sizeof it.room), ZUMELIVON_DONE);
    SAME(it.message.target, UINT64_MAX);
    SAME(it.message.number, 2);
    SAME(zumelivon_take_out(&it.table, it.id, &it.message, it.room, sizeof it.room), ZUMELIVON_NOTHING);
    take_down(&it);
}

static void lists(void) {
    static const uint32_t all[] = {ZUMELIVON_REPLIED, ZUMELIVON_INSERTED, ZUMELIVON_SET_TIMERS, ZUMELIVON_SENT};
    struct set it;
    set_up(&it);
    for (size_t i = 0; i < 4; i++) {
        SAME(zumelivon_list(&it.table, all[i], 0, &it.listed), ZUMELIVON_NOTHING);
        SAME(zumelivon_list(&it.table, all[i], UINT64_MAX, &it.listed), ZUMELIVON_NOTHING);
    }
    SAME(zumelivon_list(&it.table, 4, 0, &it.listed), ZUMELIVON_INVALID);
    SAME(zumelivon_list(&it.table, UINT32_MAX, 0, &it.listed), ZUMELIVON_INVALID);
    take_down(&it);
}

static void wrong_entries(void) {
    static const uint32_t entries[] = {ZUMELIVON_TIMEOUT, ZUMELIVON_INTERNAL, 5, UINT32_MAX};
    struct set it;
    set_up(&it);
    for (size_t i = 0; i < 4; i++) {
        SAME(post_text(&it.table, it.id, entries[i], 1, "", &it.number), ZUMELIVON_INVALID);
    }
    SAME(next(&it), ZUMELIVON_NOTHING);
    take_down(&it);
}

/* ---- the end ---- */

static void an_end_from_inside(void) {
    struct set it;
    uint64_t open_call, expired;
    set_up(&it);
    SAME(post_text(&it.table, it.id, ZUMELIVON_CALL, 1, "", &open_call), ZUMELIVON_DONE);
    cast(&it, 1);
    SAME(next(&it), ZUMELIVON_DONE);
    const zumelivon_answer stops = {.what = ZUMELIVON_STOP, .reason = 13, .has_data = 1, .data = 8};
    SAME(zumelivon_turn(&it.table, it.id, it.event.number, 4, &stops, &no_action, 0, &no_answer, &no_action, 0,
                        no_bytes, 0, 77, &it.report),
         ZUMELIVON_DONE);
    SAME(it.report.done, ZUMELIVON_HAS_ENDED);
    SAME(it.report.reason, 13);
    SAME(it.report.word, 77);
    SAME(look(&it), ZUMELIVON_DONE);
    SAME(it.machine.ended, 1);
    SAME(it.machine.reason, 13);
    SAME(it.machine.word, 77);
    SAME(it.machine.data, 8);
    SAME(it.machine.waiting, 0);
    SAME(zumelivon_collect(&it.table, it.id, open_call, &it.content, it.room, 0), ZUMELIVON_STOPPED);
    SAME(it.content.reason, 13);
    SAME(zumelivon_collect(&it.table, it.id, open_call, &it.content, it.room, 0), ZUMELIVON_GONE);
    SAME(post_text(&it.table, it.id, ZUMELIVON_CAST, 1, "", &it.number), ZUMELIVON_ENDED);
    SAME(zumelivon_tick(&it.table, it.id, 9, &expired), ZUMELIVON_ENDED);
    SAME(zumelivon_stop(&it.table, it.id, 1, 1), ZUMELIVON_ENDED);
    SAME(turn(&it, keeps, &no_action, 0, ""), ZUMELIVON_ENDED);
    SAME(next(&it), ZUMELIVON_NOTHING);
    SAME(zumelivon_reply(&it.table, it.id, open_call, 1, no_bytes, 0), ZUMELIVON_NOTHING);
    SAME(zumelivon_remove(&it.table, it.id), ZUMELIVON_DONE);
    take_down(&it);
}

static void an_end_with_replies(void) {
    const zumelivon_answer stops = {.what = ZUMELIVON_STOP_AND_REPLY, .reason = 2};
    struct set it;
    uint64_t call;
    set_up(&it);
    SAME(post_text(&it.table, it.id, ZUMELIVON_CALL, 1, "", &call), ZUMELIVON_DONE);
    SAME(next(&it), ZUMELIVON_DONE);
    const zumelivon_action reply = {.what = ZUMELIVON_REPLY, .machine = it.event.machine,
                                    .request = it.event.request, .code = 6};
    SAME(turn(&it, stops, &reply, 1, ""), ZUMELIVON_DONE);
    SAME(it.report.replied, 1);
    SAME(zumelivon_collect(&it.table, it.id, call, &it.content, it.room, 0), ZUMELIVON_DONE);
    SAME(it.content.code, 6);
    take_down(&it);
}

static void an_end_from_outside(void) {
    struct set it;
    set_up(&it);
    cast(&it, 1);
    SAME(zumelivon_stop(&it.table, it.id, 21, 22), ZUMELIVON_DONE);
    SAME(look(&it), ZUMELIVON_DONE);
    SAME(it.machine.ended, 1);
    SAME(it.machine.reason, 21);
    SAME(it.machine.word, 22);
    SAME(it.machine.waiting, 0);
    SAME(it.machine.state, 1);
    take_down(&it);
}

/* A table is closed with machines, calls and messages in it. */
static void many_machines(void) {
    struct set it;
    uint64_t id, number;
    set_up(&it);
    for (int i = 0; i < 1000; i++) {
        SAME(start_plain(&it.table, (uint64_t)i, 0, &id, &it.report), ZUMELIVON_DONE);
        SAME(post_text(&it.table, id, ZUMELIVON_CALL, 1, "left behind", &number), ZUMELIVON_DONE);
        if (i % 3 == 0) {
            SAME(zumelivon_remove(&it.table, id), ZUMELIVON_DONE);
        }
    }
    take_down(&it);
}

/* ---- described machines ---- */

static const char lamp[] =
    "{ \"args\": [\"left\"], \"initial\": \"off\", \"context\": { \"left\": 0 },"
    "  \"states\": {"
    "    \"off\": { \"on\": { \"cast press\": { \"guard\": \"left > 0\", \"target\": \"on\" },"
    "                       \"call ask\": { \"actions\": { \"reply\": \"is_off\" } } } },"
    "    \"on\": { \"entry\": { \"assign\": { \"left\": \"left - 1\" } },"
    "            \"after\": { \"10000\": \"off\" },"
    "            \"on\": { \"cast press\": \"off\","
    "                      \"call say\": { \"actions\": { \"reply\": \"said\", \"with\": \"event\" } },"
    "                      \"cast tell\": { \"actions\":"
    "                        { \"send\": \"told\", \"with\": \"'a text'\", \"to\": \"event\" } },"
    "                      \"cast end\": { \"stop\": 17 } } } },"
    "  \"last\": \"left\" }";

struct lamp {
    zumelivon table;
    uint64_t description, id, number, turns;
    uint32_t more, reason;
    zumelivon_report report;
    zumelivon_signal signal;
    zumelivon_machine machine;
    uint8_t room[64];
};

static uint32_t symbol(struct lamp *it, const char *name) {
    uint64_t number = UINT64_MAX;
    SAME(zumelivon_number_of(&it->table, it->description, ZUMELIVON_SYMBOL, bytes_of(name), strlen(name), &number),
         ZUMELIVON_DONE);
    return (uint32_t)number;
}

static void set_up_lamp(struct lamp *it) {
    const zumelivon_signal left = {.what = ZUMELIVON_NUMBER, .number = 3};
    uint64_t length;
    memset(it, 0, sizeof *it);
    SAME(zumelivon_open(&it->table, ZUMELIVON_VERSION), ZUMELIVON_DONE);
    SAME(zumelivon_describe(&it->table, bytes_of(lamp), sizeof lamp - 1, &it->description, it->room, sizeof it->room,
                            &length),
         ZUMELIVON_DONE);
    SAME(zumelivon_start_described(&it->table, it->description, 0, &left, 1, no_bytes, 0, &it->id, &it->report),
         ZUMELIVON_DONE);
}

static uint32_t post_signal(struct lamp *it, uint32_t entry, zumelivon_signal signal, const char *text) {
    return zumelivon_post_signal(&it->table, it->id, entry, &signal, bytes_of(text), strlen(text), &it->number);
}

static void post_and_run(struct lamp *it, uint32_t entry, zumelivon_signal signal, const char *text) {
    SAME(post_signal(it, entry, signal, text), ZUMELIVON_DONE);
    SAME(zumelivon_run(&it->table, it->id, 0, 100, &it->turns, &it->more), ZUMELIVON_DONE);
    SAME(it->turns, 1);
    SAME(it->more, 0);
}

static void press(struct lamp *it) {
    post_and_run(it, ZUMELIVON_CAST, (zumelivon_signal){.symbol = symbol(it, "press")}, "");
}

static const char *state_of(struct lamp *it) {
    uint64_t length = 0;
    SAME(zumelivon_look(&it->table, it->id, &it->machine), ZUMELIVON_DONE);
    SAME(zumelivon_name_of(&it->table, it->description, ZUMELIVON_STATE, it->machine.state, it->room,
                           sizeof it->room - 1, &length),
         ZUMELIVON_DONE);
    it->room[length] = 0;
    return (const char *)it->room;
}

static void a_described_machine(void) {
    struct lamp it;
    uint64_t expired;
    set_up_lamp(&it);
    SAME(strcmp(state_of(&it), "off"), 0);
    press(&it);
    SAME(strcmp(state_of(&it), "on"), 0);
    SAME(it.machine.has_due && it.machine.due == 10000, 1);
    SAME(zumelivon_tick(&it.table, it.id, 10000, &expired), ZUMELIVON_DONE);
    SAME(expired, 1);
    SAME(zumelivon_run(&it.table, it.id, 10000, 0, &it.turns, &it.more), ZUMELIVON_DONE);
    SAME(it.turns, 0);
    SAME(it.more, 1);
    SAME(zumelivon_run(&it.table, it.id, 10000, 1, &it.turns, &it.more), ZUMELIVON_DONE);
    SAME(it.turns, 1);
    SAME(it.more, 0);
    SAME(strcmp(state_of(&it), "off"), 0);
    SAME(zumelivon_run(&it.table, it.id, (uint64_t)1 << 63, 1, &it.turns, &it.more), ZUMELIVON_DONE); /* no event */
    SAME(post_signal(&it, ZUMELIVON_CAST, (zumelivon_signal){.symbol = symbol(&it, "press")}, ""), ZUMELIVON_DONE);
    SAME(zumelivon_run(&it.table, it.id, (uint64_t)1 << 63, 1, &it.turns, &it.more), ZUMELIVON_BAD_MOMENT);
    SAME(it.turns, 0);
    SAME(it.more, 1);
    SAME(zumelivon_look(&it.table, it.id, &it.machine), ZUMELIVON_DONE);
    SAME(it.machine.waiting, 1);
    SAME(zumelivon_close(&it.table), ZUMELIVON_DONE);
}

static void described_replies_and_messages(void) {
    struct lamp it;
    zumelivon_listed listed;
    uint64_t target, number;
    uint8_t room[8];
    set_up_lamp(&it);
    press(&it);
    SAME(post_signal(&it, ZUMELIVON_CALL, (zumelivon_signal){.symbol = symbol(&it, "say"), .what = ZUMELIVON_TEXT,
                                                              .from = 1, .length = 5},
                     "xhello"),
         ZUMELIVON_DONE);
    SAME(zumelivon_collect_signal(&it.table, it.id, it.number, &it.signal, &it.reason, room, 8), ZUMELIVON_NOTHING);
    SAME(zumelivon_run(&it.table, it.id, 0, 9, &it.turns, &it.more), ZUMELIVON_DONE);
    SAME(zumelivon_list(&it.table, ZUMELIVON_REPLIED, 0, &listed), ZUMELIVON_NOTHING);
    SAME(zumelivon_collect_signal(&it.table, it.id, it.number, &it.signal, &it.reason, room, 4), ZUMELIVON_TOO_SMALL);
    SAME(it.signal.length, 5);
    SAME(zumelivon_collect_signal(&it.table, it.id, it.number, &it.signal, &it.reason, room, 5), ZUMELIVON_DONE);
    SAME(it.signal.symbol, symbol(&it, "said"));
    SAME(it.signal.what, ZUMELIVON_TEXT);
    SAME(it.signal.from, 0);
    SAME(it.signal.length, 5);
    SAME(memcmp(room, "hello", 5), 0);
    SAME(zumelivon_collect_signal(&it.table, it.id, it.number, &it.signal, &it.reason, room, 5), ZUMELIVON_GONE);
    post_and_run(&it, ZUMELIVON_CALL, (zumelivon_signal){.symbol = symbol(&it, "say"), .what = ZUMELIVON_NUMBER,
                                                         .number = UINT64_MAX}, "");
    SAME(zumelivon_collect_signal(&it.table, it.id, it.number, &it.signal, &it.reason, room, 0), ZUMELIVON_DONE);
    SAME(it.signal.what, ZUMELIVON_NUMBER);
    SAME(it.signal.number, UINT64_MAX);
    post_and_run(&it, ZUMELIVON_CALL, (zumelivon_signal){.symbol = symbol(&it, "say"), .what = ZUMELIVON_CALL_TAG,
                                                         .number = 5, .request = 6}, "");
    SAME(zumelivon_collect_signal(&it.table, it.id, it.number, &it.signal, &it.reason, room, 0), ZUMELIVON_DONE);
    SAME(it.signal.what, ZUMELIVON_CALL_TAG);
    SAME(it.signal.number, 5);
    SAME(it.signal.request, 6);
    SAME(zumelivon_take_out_signal(&it.table, it.id, &it.signal, &target, &number, room, 8), ZUMELIVON_NOTHING);
    post_and_run(&it, ZUMELIVON_CAST, (zumelivon_signal){.symbol = symbol(&it, "tell"), .what = ZUMELIVON_MACHINE,
                                                         .number = 99}, "");
    SAME(zumelivon_take_out_signal(&it.table, it.id, &it.signal, &target, &number, room, 5), ZUMELIVON_TOO_SMALL);
    SAME(it.signal.length, 6);
    SAME(zumelivon_take_out_signal(&it.table, it.id, &it.signal, &target, &number, room, 6), ZUMELIVON_DONE);
    SAME(target, 99);
    SAME(number, 1);
    SAME(it.signal.symbol, symbol(&it, "told"));
    SAME(memcmp(room, "a text", 6), 0);
    SAME(zumelivon_close(&it.table), ZUMELIVON_DONE);
}

static void a_described_end(void) {
    struct lamp it;
    uint64_t call;
    set_up_lamp(&it);
    press(&it);
    SAME(post_signal(&it, ZUMELIVON_CAST, (zumelivon_signal){.symbol = symbol(&it, "end")}, ""), ZUMELIVON_DONE);
    SAME(post_signal(&it, ZUMELIVON_CALL, (zumelivon_signal){.symbol = symbol(&it, "say")}, ""), ZUMELIVON_DONE);
    call = it.number;
    SAME(zumelivon_run(&it.table, it.id, 0, 9, &it.turns, &it.more), ZUMELIVON_DONE);
    SAME(it.turns, 1);
    SAME(it.more, 0);
    SAME(zumelivon_look(&it.table, it.id, &it.machine), ZUMELIVON_DONE);
    SAME(it.machine.ended, 1);
    SAME(it.machine.reason, 17);
    SAME(it.machine.word, 2);
    SAME(zumelivon_collect_signal(&it.table, it.id, call, &it.signal, &it.reason, it.room, 0), ZUMELIVON_STOPPED);
    SAME(it.reason, 17);
    SAME(zumelivon_run(&it.table, it.id, 0, 9, &it.turns, &it.more), ZUMELIVON_ENDED);
    SAME(post_signal(&it, ZUMELIVON_CAST, (zumelivon_signal){.symbol = symbol(&it, "press")}, ""), ZUMELIVON_ENDED);
    SAME(zumelivon_stop(&it.table, it.id, 1, 1), ZUMELIVON_ENDED);
    SAME(zumelivon_remove(&it.table, it.id), ZUMELIVON_DONE);
    each_described_call_answers(&it.table, it.id, ZUMELIVON_NO_SUCH_MACHINE);
    SAME(zumelivon_close(&it.table), ZUMELIVON_DONE);
}

/* Each call of hosted machines alone refuses a described one. */
static void of_the_other_family(void) {
    struct lamp it;
    struct set of;
    set_up_lamp(&it);
    memset(&of, 0, sizeof of);
    SAME(post_text(&it.table, it.id, ZUMELIVON_CAST, 1, "a", &it.number), ZUMELIVON_NO_SUCH_MACHINE);
    SAME(zumelivon_next(&it.table, it.id, &of.event, of.room, sizeof of.room), ZUMELIVON_NO_SUCH_MACHINE);
    SAME(turn_with(&it.table, it.id, 1, 1, keeps, &no_action, 0, "", &of.report), ZUMELIVON_NO_SUCH_MACHINE);
    SAME(zumelivon_collect(&it.table, it.id, 1, &of.content, of.room, sizeof of.room), ZUMELIVON_NO_SUCH_MACHINE);
    SAME(zumelivon_reply(&it.table, it.id, 1, 1, no_bytes, 0), ZUMELIVON_NO_SUCH_MACHINE);
    SAME(zumelivon_take_out(&it.table, it.id, &of.message, of.room, sizeof of.room), ZUMELIVON_NO_SUCH_MACHINE);
    SAME(zumelivon_close(&it.table), ZUMELIVON_DONE);
}

static void wrong_signals(void) {
    struct lamp it;
    set_up_lamp(&it);
    const uint32_t press_symbol = symbol(&it, "press");
    const zumelivon_signal kind = {.symbol = press_symbol, .what = 5},
                           far = {.symbol = press_symbol, .what = UINT32_MAX},
                           beyond = {.symbol = press_symbol, .what = ZUMELIVON_TEXT, .from = 1, .length = 3},
                           endless = {.symbol = press_symbol, .what = ZUMELIVON_TEXT, .from = 1, .length = UINT64_MAX};
    SAME(post_signal(&it, ZUMELIVON_CAST, kind, ""), ZUMELIVON_INVALID);
    SAME(post_signal(&it, ZUMELIVON_CAST, far, ""), ZUMELIVON_INVALID);
    SAME(post_signal(&it, ZUMELIVON_CAST, beyond, "abc"), ZUMELIVON_INVALID);
    SAME(post_signal(&it, ZUMELIVON_CAST, endless, "abc"), ZUMELIVON_INVALID);
    SAME(post_signal(&it, ZUMELIVON_TIMEOUT, (zumelivon_signal){.symbol = press_symbol}, ""), ZUMELIVON_INVALID);
    SAME(post_signal(&it, UINT32_MAX, (zumelivon_signal){.symbol = press_symbol}, ""), ZUMELIVON_INVALID);
    SAME(zumelivon_start_described(&it.table, it.description, 0, &kind, 1, no_bytes, 0, &it.id, &it.report),
         ZUMELIVON_INVALID);
    SAME(zumelivon_start_described(&it.table, it.description, 0, &endless, 1, bytes_of("abc"), 3, &it.id, &it.report),
         ZUMELIVON_INVALID);
    SAME(zumelivon_start_described(&it.table, it.description, UINT64_MAX, &kind, 0, no_bytes, 0, &it.id, &it.report),
         ZUMELIVON_BAD_MOMENT);
    SAME(zumelivon_close(&it.table), ZUMELIVON_DONE);
}

static void names(void) {
    struct lamp it;
    uint64_t number, length = 0;
    set_up_lamp(&it);
    SAME(zumelivon_number_of(&it.table, it.description, ZUMELIVON_STATE, bytes_of("on"), 2, &number), ZUMELIVON_DONE);
    SAME(zumelivon_name_of(&it.table, it.description, ZUMELIVON_STATE, number, it.room, 1, &length),
         ZUMELIVON_TOO_SMALL);
    SAME(length, 2);
    SAME(zumelivon_name_of(&it.table, it.description, ZUMELIVON_STATE, number, it.room, 2, &length), ZUMELIVON_DONE);
    SAME(length, 2);
    SAME(memcmp(it.room, "on", 2), 0);
    SAME(zumelivon_number_of(&it.table, it.description, ZUMELIVON_STATE, bytes_of("of"), 2, &number),
         ZUMELIVON_NO_SUCH_NAME);
    SAME(zumelivon_number_of(&it.table, it.description, ZUMELIVON_STATE, no_bytes, 0, &number), ZUMELIVON_NO_SUCH_NAME);
    SAME(zumelivon_number_of(&it.table, it.description, ZUMELIVON_STATE, bytes_of("\xff\xfe"), 2, &number),
         ZUMELIVON_NO_SUCH_NAME);
    SAME(zumelivon_number_of(&it.table, it.description, 3, bytes_of("on"), 2, &number), ZUMELIVON_INVALID);
    SAME(zumelivon_name_of(&it.table, it.description, 3, 0, it.room, 9, &length), ZUMELIVON_INVALID);
    SAME(zumelivon_name_of(&it.table, it.description, ZUMELIVON_STATE, 2, it.room, 9, &length), ZUMELIVON_NO_SUCH_NAME);
    SAME(zumelivon_name_of(&it.table, it.description, ZUMELIVON_SYMBOL, UINT64_MAX, it.room, 9, &length),
         ZUMELIVON_NO_SUCH_NAME);
    each_description_call_answers(&it.table, it.description + 1, ZUMELIVON_NO_SUCH_DESCRIPTION);
    each_description_call_answers(&it.table, UINT64_MAX, ZUMELIVON_NO_SUCH_DESCRIPTION);
    SAME(zumelivon_close(&it.table), ZUMELIVON_DONE);
}

static uint32_t describe(struct lamp *it, const char *text, size_t size, size_t capacity, uint64_t *length) {
    return zumelivon_describe(&it->table, bytes_of(text), size, &it->description, it->room, capacity, length);
}

static void descriptions_with_faults(void) {
    static const char *faulty[] = {"", "{", "{}", "[1]", "{ \"initial\": \"a\", \"states\": { \"b\": {} } }", "\xff",
                                   "\"\\ud800\""};
    struct lamp it;
    uint64_t whole, part, first;
    set_up_lamp(&it);
    first = it.description;
    for (size_t i = 0; i < sizeof faulty / sizeof *faulty; i++) {
        size_t size = strlen(faulty[i]);
        whole = part = 0;
        SAME(describe(&it, faulty[i], size, sizeof it.room, &whole), ZUMELIVON_FAULTY);
        SAME(whole > 0, 1);
        memset(it.room, 'x', sizeof it.room);
        SAME(describe(&it, faulty[i], size, 3, &part), ZUMELIVON_FAULTY);
        SAME(part, whole);
        SAME(it.room[3], 'x');
        SAME(describe(&it, faulty[i], size, 0, &part), ZUMELIVON_FAULTY);
    }
    it.description = first;
    SAME(describe(&it, lamp, sizeof lamp - 1, 0, &part), ZUMELIVON_DONE); /* the same once more is another number */
    SAME(it.description != first, 1);
    SAME(zumelivon_close(&it.table), ZUMELIVON_DONE);
}

/* Starts that a description ignores, and stops. */
static void starts_of_descriptions(void) {
    static const char text[] = "{ \"args\": [\"a\"], \"context\": { \"a\": 0 },"
                               "  \"start\": [ { \"guard\": \"arg.a == 1\", \"target\": \"s\" },"
                               "               { \"guard\": \"arg.a == 2\", \"stop\": 9 } ],"
                               "  \"states\": { \"s\": {} } }";
    struct lamp it;
    uint64_t length = 0;
    zumelivon_signal value = {.what = ZUMELIVON_NUMBER};
    memset(&it, 0, sizeof it);
    SAME(zumelivon_open(&it.table, ZUMELIVON_VERSION), ZUMELIVON_DONE);
    SAME(describe(&it, text, sizeof text - 1, sizeof it.room, &length), ZUMELIVON_DONE);
    value.number = 1;
    SAME(zumelivon_start_described(&it.table, it.description, 0, &value, 1, no_bytes, 0, &it.id, &it.report),
         ZUMELIVON_DONE);
    value.number = 2;
    SAME(zumelivon_start_described(&it.table, it.description, 0, &value, 1, no_bytes, 0, &it.id, &it.report),
         ZUMELIVON_STOPPED);
    SAME(it.report.reason, 9);
    value.number = 3;
    SAME(zumelivon_start_described(&it.table, it.description, 0, &value, 1, no_bytes, 0, &it.id, &it.report),
         ZUMELIVON_IGNORED);
    SAME(zumelivon_close(&it.table), ZUMELIVON_DONE);
}

int main(void) {
    static void (*const tests[])(void) = {
        a_closed_table, opening_and_closing, ids_that_name_none, a_start, a_start_with_actions, starts_that_are_refused,
        a_start_that_stops, a_call_and_its_reply, a_reply_from_outside, postponed_and_inserted, inserted_kinds,
        time_outs, enter_calls, wrong_answers, wrong_enter_answers, turns_that_are_refused, the_next_event_stays,
        rooms_that_are_too_small, long_contents, messages, lists, wrong_entries, an_end_from_inside,
        an_end_with_replies, an_end_from_outside, many_machines, a_described_machine, described_replies_and_messages,
        a_described_end, of_the_other_family, wrong_signals, names, descriptions_with_faults, starts_of_descriptions};
    setvbuf(stdout, NULL, _IOLBF, BUFSIZ); /* what was printed is not lost where the library ends the program */
    for (size_t i = 0; i < sizeof tests / sizeof *tests; i++) {
        tests[i]();
    }
    printf("answers: %u compared, %u differ\n", made, wrong);
    return wrong != 0;
}

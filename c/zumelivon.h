/* zumelivon.h: the event engine of Erlang's gen_statem, for C.
 *
 * A table holds machines, each with a number of its own. The library calls nothing back, opens nothing, reads no clock,
 * starts no thread, and keeps no pointer beyond the call that it was handed to.
 *
 * Two families of machines stand in one table:
 *   - hosted: the program decides. zumelivon_next shows the next event; the program decides in its own language, and
 *     hands its answer to zumelivon_turn, which does the rest: replies, postponed and inserted events, time-outs, the end.
 *   - described: a text decides, as docs/MACHINES.md has it. zumelivon_run makes the turns.
 *
 * Every call returns ZUMELIVON_DONE, or why not. A call that returns anything else has changed nothing, neither of the
 * table nor behind its pointers, but what its comment names. Any call may return ZUMELIVON_NO_MEMORY; it can be made
 * again. Moments and times are in milliseconds, and moments are the program's: any clock that does not go back.
 *
 * What a caller owes, which nothing checks:
 *   - A table is a struct that was zeroed before zumelivon_open, and that nothing but these calls has changed since. It
 *     is not copied while it is open. One call at a time on a table; different tables are independent, and a table may
 *     go from thread to thread.
 *   - A pointer points to one valid, aligned object of its type, or to as many as the count behind it says. It is not
 *     NULL, also for a count of 0. Where a call writes through one, no other argument of it overlaps.
 * What a caller need not fear: a closed table, ids, numbers, codes, lengths within the bytes handed in, moments, the
 * order of calls. A wrong one is refused. An id of a machine that was removed names none for good.
 */
#ifndef ZUMELIVON_H
#define ZUMELIVON_H

#include <stddef.h>
#include <stdint.h>

#ifdef __cplusplus
extern "C" {
#endif

/* The version of these declarations. */
#define ZUMELIVON_VERSION 1u

/* A table of machines. Zeroed it is closed: zumelivon table = {0}; */
typedef struct zumelivon {
    void *at;
} zumelivon;

/* What calls return. */
enum {
    ZUMELIVON_DONE = 0,
    ZUMELIVON_NO_MEMORY = 1,           /* there is no memory; the call may be made again */
    ZUMELIVON_ENDED = 2,               /* the machine has ended */
    ZUMELIVON_EXHAUSTED = 3,           /* the machine's numbers are used up */
    ZUMELIVON_BAD_MOMENT = 4,          /* the moment is 2^63 or later */
    ZUMELIVON_NO_SUCH_NAME = 8,        /* the description has no such name, or no such number */
    ZUMELIVON_NO_SUCH_MACHINE = 9,     /* the id names no machine of this family */
    ZUMELIVON_FULL = 11,               /* the table's ids are used up */
    ZUMELIVON_NOTHING = 100,           /* there is no event, no message, no reply yet, no such request */
    ZUMELIVON_INVALID = 101,           /* a code, or a length beyond the bytes, in what was handed in */
    ZUMELIVON_TOO_SMALL = 102,         /* the room is too small: `length` is what it takes */
    ZUMELIVON_STOPPED = 103,           /* no reply comes, for the machine stopped: `reason` is why */
    ZUMELIVON_NOT_NEXT = 104,          /* the next turn handles another event, or none */
    ZUMELIVON_CLOSED = 105,            /* the table is closed */
    ZUMELIVON_OPEN = 106,              /* the table is open */
    ZUMELIVON_GONE = 107,              /* there is no such request, or it was collected */
    ZUMELIVON_WRONG_VERSION = 108,     /* the library is of another version than the declarations */
    ZUMELIVON_IGNORED = 110,           /* the description ignores such a start */
    ZUMELIVON_FAULTY = 111,            /* the description has faults */
    ZUMELIVON_NO_SUCH_DESCRIPTION = 112 /* the table has no such description */
};

/* Kinds of events. The first three are also ways to post one. */
enum { ZUMELIVON_CALL = 0, ZUMELIVON_CAST = 1, ZUMELIVON_INFO = 2, ZUMELIVON_TIMEOUT = 3, ZUMELIVON_INTERNAL = 4 };

/* Timers: that of the event, that of the state, and those with a name, which is a number. */
enum { ZUMELIVON_EVENT_TIMER = 0, ZUMELIVON_STATE_TIMER = 1, ZUMELIVON_NAMED_TIMER = 2 };

/* zumelivon_answer.what. NONE is no answer of an event's; of an enter call's, it keeps state and data, without actions. An
 * enter call is answered by NONE, KEEP_STATE, KEEP_STATE_AND_DATA, STOP or STOP_AND_REPLY. */
enum {
    ZUMELIVON_NONE = 0,
    ZUMELIVON_NEXT_STATE = 1,            /* to `state`, with `data` */
    ZUMELIVON_KEEP_STATE = 2,            /* with `data` */
    ZUMELIVON_KEEP_STATE_AND_DATA = 3,
    ZUMELIVON_REPEAT_STATE = 4,          /* with `data`; the state is entered again */
    ZUMELIVON_REPEAT_STATE_AND_DATA = 5, /* the state is entered again */
    ZUMELIVON_STOP = 6,                  /* for `reason`, with `data` where `has_data` is not 0; it has no actions */
    ZUMELIVON_STOP_AND_REPLY = 7         /* the same, behind its actions, which are replies alone */
};

/* zumelivon_action.what; 0 is none, and INVALID. An enter call has no POSTPONE, NEXT_EVENT and SEND. */
enum {
    ZUMELIVON_REPLY = 1,      /* to the request `request` of `machine`, with the content */
    ZUMELIVON_POSTPONE = 2,   /* the event, where `postpone` is not 0 */
    ZUMELIVON_NEXT_EVENT = 3, /* an event of `kind`, with the content, before all that were not handled; of a call
                                 `machine` and `request` are its tag, of a time-out `timer` and `name` its timer */
    ZUMELIVON_SET = 4,        /* `timer` (and `name`) to `time`, or to none where `infinite` is not 0, with the content */
    ZUMELIVON_CANCEL = 5,     /* `timer` (and `name`) */
    ZUMELIVON_UPDATE = 6,     /* `timer` (and `name`) gets the content */
    ZUMELIVON_SEND = 7,       /* to `machine`, the content */
    ZUMELIVON_HIBERNATE = 8   /* has no effect */
};

/* zumelivon_report.done: what became of the event, or the start. */
enum { ZUMELIVON_STARTED = 0, ZUMELIVON_FINISHED = 1, ZUMELIVON_POSTPONED = 2, ZUMELIVON_HAS_ENDED = 3 };

/* Lists of a report. */
enum { ZUMELIVON_REPLIED = 0, ZUMELIVON_INSERTED = 1, ZUMELIVON_SET_TIMERS = 2, ZUMELIVON_SENT = 3 };

/* zumelivon_listed.decision, of a timer. */
enum { ZUMELIVON_TIMER_SET = 0, ZUMELIVON_TIMER_CANCELLED = 1, ZUMELIVON_TIMER_UPDATED = 2 };

/* zumelivon_signal.what: what a described machine's event carries beside its symbol. */
enum {
    ZUMELIVON_NO_VALUE = 0,
    ZUMELIVON_NUMBER = 1,       /* `number` */
    ZUMELIVON_CALL_TAG = 2,     /* the request `request` of the machine `number` */
    ZUMELIVON_MACHINE = 3,      /* the machine `number` */
    ZUMELIVON_TEXT = 4          /* bytes */
};

/* Names of a description. */
enum { ZUMELIVON_SYMBOL = 0, ZUMELIVON_STATE = 1, ZUMELIVON_TIMER_NAME = 2 };

/* How a hosted machine begins. */
typedef struct zumelivon_begin {
    uint64_t state, data;
    uint32_t enters; /* whether it has enter calls */
    uint32_t word;   /* its last word, where its first enter call stops */
} zumelivon_begin;

/* What the program answers to an event, or to an enter call, without its actions. */
typedef struct zumelivon_answer {
    uint32_t what, reason, has_data, unused;
    uint64_t state, data;
} zumelivon_answer;

/* One action. Its content is `code`, and `length` of the call's bytes from `from` on. */
typedef struct zumelivon_action {
    uint32_t what, kind, postpone, timer, name, time, infinite, unused;
    uint64_t machine, request, code, from, length;
} zumelivon_action;

/* The event that the next turn handles, with the machine's state and data. Of a call, `machine` and `request` are the
 * tag that a ZUMELIVON_REPLY names. */
typedef struct zumelivon_event {
    uint64_t number;
    uint32_t kind, timer, name, enters;
    uint64_t machine, request, code, length, state, data;
} zumelivon_event;

/* A reply. */
typedef struct zumelivon_content {
    uint64_t code, length;
    uint32_t reason, unused;
} zumelivon_content;

/* A message: `number` counts those that its sender sent. */
typedef struct zumelivon_message {
    uint64_t target, number, code, length;
} zumelivon_message;

/* What a start or a turn did; of its lists the lengths, which zumelivon_list reads. */
typedef struct zumelivon_report {
    uint64_t event; /* the number of the event, where `has_event` is not 0 */
    uint32_t has_event, done, reason, word; /* reason, word: where it has ended */
    uint64_t before, after; /* the states */
    uint64_t calls; /* how many callbacks were made */
    uint64_t replied, inserted, set, sent;
} zumelivon_report;

/* An element of a list: of REPLIED `machine` and `number` are the request; of INSERTED and SENT `number`; of
 * SET_TIMERS the timer, and `time` where it was set, `infinite` or not. */
typedef struct zumelivon_listed {
    uint64_t machine, number;
    uint32_t timer, name, decision, time, infinite, unused;
} zumelivon_listed;

/* A machine as it is. `latest` is the latest moment that it was told, `waiting` how many events wait. */
typedef struct zumelivon_machine {
    uint64_t state, data, latest, waiting, due; /* data: of a hosted one; due: where has_due is not 0 */
    uint32_t has_due, has_event, has_message, ended, reason, word; /* reason, word: where it has ended */
} zumelivon_machine;

/* What a described machine's event, reply or message carries: a symbol and a value. Of a text, `length` of the call's
 * bytes from `from` on; one that is handed out begins at 0. */
typedef struct zumelivon_signal {
    uint32_t symbol, what;
    uint64_t number, request, from, length;
} zumelivon_signal;

/* ---- tables ---- */

/* The version of the library. */
uint32_t zumelivon_version(void);

/* Opens a closed table. WRONG_VERSION, OPEN. */
uint32_t zumelivon_open(zumelivon *table, uint32_t version);

/* Closes a table, and drops its machines. CLOSED. */
uint32_t zumelivon_close(zumelivon *table);

/* ---- machines of either family ---- */

/* Tells a machine the moment: what is due by then expires, and waits; `expired` is how many. ENDED, BAD_MOMENT,
 * NO_SUCH_MACHINE. */
uint32_t zumelivon_tick(zumelivon *table, uint64_t id, uint64_t now, uint64_t *expired);

/* Shows a machine. NO_SUCH_MACHINE. */
uint32_t zumelivon_look(zumelivon *table, uint64_t id, zumelivon_machine *machine);

/* Ends a machine for a reason. `word` is the last word of a hosted one. ENDED, NO_SUCH_MACHINE. */
uint32_t zumelivon_stop(zumelivon *table, uint64_t id, uint32_t reason, uint32_t word);

/* Drops a machine, ended or not: its requests, replies and messages go with it. NO_SUCH_MACHINE. */
uint32_t zumelivon_remove(zumelivon *table, uint64_t id);

/* Reads an element of a list that the latest start or zumelivon_turn of this table reported; zumelivon_run reports none.
 * NOTHING where the list has none of this index, INVALID. */
uint32_t zumelivon_list(zumelivon *table, uint32_t list, uint64_t index, zumelivon_listed *listed);

/* ---- hosted machines ---- */

/* Starts a machine in a state with data. `actions` are what its start asks for; with enter calls `entered` and
 * `enter_actions` are what the first one answers. BAD_MOMENT, EXHAUSTED, FULL, INVALID. */
uint32_t zumelivon_start(zumelivon *table, uint64_t now, const zumelivon_begin *begin, const zumelivon_action *actions,
                         size_t count, const zumelivon_answer *entered, const zumelivon_action *enter_actions,
                         size_t enter_count, const uint8_t *bytes, size_t length, uint64_t *id,
                         zumelivon_report *report);

/* Posts an event, and writes its number: a call's reply is collected by it. ENDED, EXHAUSTED, NO_SUCH_MACHINE, INVALID. */
uint32_t zumelivon_post(zumelivon *table, uint64_t id, uint32_t entry, uint64_t code, const uint8_t *bytes,
                        size_t length, uint64_t *number);

/* Shows the event that the next turn handles: it stays that one until a turn or a stop, whatever else is called. NOTHING
 * where there is none; TOO_SMALL writes the event without its bytes. NO_SUCH_MACHINE. */
uint32_t zumelivon_next(zumelivon *table, uint64_t id, zumelivon_event *event, uint8_t *room, size_t capacity);

/* Makes the turn with the answer to the event of this number. Where it leads to an enter call (zumelivon_enters),
 * `entered` and `enter_actions` answer that; `word` is the last word, where it stops. A turn that was refused for want
 * of memory is made again with the same answer. NOT_NEXT, ENDED, BAD_MOMENT, EXHAUSTED, NO_SUCH_MACHINE, INVALID. */
uint32_t zumelivon_turn(zumelivon *table, uint64_t id, uint64_t number, uint64_t now, const zumelivon_answer *handled,
                        const zumelivon_action *actions, size_t count, const zumelivon_answer *entered,
                        const zumelivon_action *enter_actions, size_t enter_count, const uint8_t *bytes, size_t length,
                        uint32_t word, zumelivon_report *report);

/* Takes the reply to a call out, once. NOTHING as long as there is none, GONE, NO_SUCH_MACHINE; STOPPED takes the
 * reason out, and TOO_SMALL nothing. */
uint32_t zumelivon_collect(zumelivon *table, uint64_t id, uint64_t number, zumelivon_content *content, uint8_t *room,
                           size_t capacity);

/* Answers a call from outside. NOTHING where it is not open; NO_SUCH_MACHINE. */
uint32_t zumelivon_reply(zumelivon *table, uint64_t id, uint64_t number, uint64_t code, const uint8_t *bytes,
                         size_t length);

/* Takes the first message out: the program delivers it. NOTHING, TOO_SMALL, NO_SUCH_MACHINE. */
uint32_t zumelivon_take_out(zumelivon *table, uint64_t id, zumelivon_message *message, uint8_t *room, size_t capacity);

/* ---- described machines ---- */

/* Reads a description, and writes its number. FAULTY: `room` gets what is at fault, as much as there is room for, and
 * `length` is how long that is. */
uint32_t zumelivon_describe(zumelivon *table, const uint8_t *text, size_t size, uint64_t *description, uint8_t *room,
                            size_t capacity, uint64_t *length);

/* The number of a name of a description, and the name of a number. NO_SUCH_DESCRIPTION, NO_SUCH_NAME, INVALID; TOO_SMALL
 * writes `length` alone. */
uint32_t zumelivon_number_of(zumelivon *table, uint64_t description, uint32_t kind, const uint8_t *name, size_t size,
                             uint64_t *number);
uint32_t zumelivon_name_of(zumelivon *table, uint64_t description, uint32_t kind, uint64_t number, uint8_t *room,
                           size_t capacity, uint64_t *length);

/* Starts a machine of a description with the values of these signals. IGNORED; STOPPED writes `report`'s reason.
 * BAD_MOMENT, EXHAUSTED, FULL, NO_SUCH_DESCRIPTION, INVALID. */
uint32_t zumelivon_start_described(zumelivon *table, uint64_t description, uint64_t now, const zumelivon_signal *values,
                                   size_t count, const uint8_t *bytes, size_t size, uint64_t *id,
                                   zumelivon_report *report);

/* Posts an event, and writes its number. ENDED, EXHAUSTED, NO_SUCH_MACHINE, INVALID. */
uint32_t zumelivon_post_signal(zumelivon *table, uint64_t id, uint32_t entry, const zumelivon_signal *signal,
                               const uint8_t *bytes, size_t size, uint64_t *number);

/* Makes turns until there is no event, but at most so many: writes how many were made, and whether an event is left.
 * A turn that is refused ends them: `turns` is then how many were made before, and these stay made. ENDED where it has
 * ended before. NO_SUCH_MACHINE; BAD_MOMENT where there is an event; EXHAUSTED. */
uint32_t zumelivon_run(zumelivon *table, uint64_t id, uint64_t now, uint64_t at_most, uint64_t *turns, uint32_t *more);

/* Takes the reply to a call out, as zumelivon_collect does. */
uint32_t zumelivon_collect_signal(zumelivon *table, uint64_t id, uint64_t number, zumelivon_signal *signal,
                                  uint32_t *reason, uint8_t *room, size_t capacity);

/* Takes the first message out, as zumelivon_take_out does. */
uint32_t zumelivon_take_out_signal(zumelivon *table, uint64_t id, zumelivon_signal *signal, uint64_t *target,
                                   uint64_t *number, uint8_t *room, size_t capacity);

/* Whether this answer to this event leads to an enter call. */
static inline int zumelivon_enters(const zumelivon_event *event, const zumelivon_answer *answer) {
    return event->enters != 0 &&
           ((answer->what == ZUMELIVON_NEXT_STATE && answer->state != event->state) ||
            answer->what == ZUMELIVON_REPEAT_STATE || answer->what == ZUMELIVON_REPEAT_STATE_AND_DATA);
}

#ifdef __cplusplus
}
#endif

#endif

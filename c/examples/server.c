/* server.c: a server of lines on loopback. Each connection is a machine.
 *
 *   server PORT SILENCE
 *
 * PORT 0 is any free one. SILENCE is in milliseconds. The server prints its port, and ends at SIGTERM.
 *
 * `login NAME` is the first line that is taken up: lines before it wait until it has come. Each further line is said
 * back with its number, `who` asks who one is, and `quit` ends the connection. So does silence.
 *
 * The program owns sockets, clock and decisions; the library owns the machines. The server shows what a host does:
 *   - a line comes: zumelivon_post, and then turns until there is no event (serve);
 *   - it waits until the earliest time-out is due, and tells the machines that are due the moment (tick_due).
 */
#define _GNU_SOURCE
#include <arpa/inet.h>
#include <errno.h>
#include <netinet/in.h>
#include <poll.h>
#include <signal.h>
#include <stdio.h>
#include <stdlib.h>
#include <string.h>
#include <sys/signalfd.h>
#include <sys/socket.h>
#include <time.h>
#include <unistd.h>

#include "zumelivon.h"

enum { UNKNOWN = 0, KNOWN = 1 };               /* states: before and after the login. The data is a number of lines. */
enum { LINE = 1, WHO = 2, SILENCE = 3 };       /* codes of contents */
enum { QUIT = 1, SILENT = 2, BROKEN = 3 };     /* reasons for an end */
enum { LINE_LIMIT = 512, NAME_LIMIT = 32 };

struct connection {
    int socket; /* below 0: it has ended */
    uint64_t id;
    uint64_t due; /* when its time-out is due; UINT64_MAX: none runs */
    size_t got;
    char name[NAME_LIMIT];
    uint8_t read[LINE_LIMIT];
};

struct server {
    zumelivon table;
    int listener, signals;
    uint32_t silence;
    struct connection **connections;
    size_t count, room;
    unsigned long turns, silent, postponed;
};

/* What the program answers to an event. */
struct decision {
    zumelivon_answer handled, entered;
    zumelivon_action actions[2];
    size_t count, length;
    uint8_t bytes[LINE_LIMIT];
};

static uint64_t now(void) {
    struct timespec at;
    clock_gettime(CLOCK_MONOTONIC, &at);
    return (uint64_t)at.tv_sec * 1000 + (uint64_t)at.tv_nsec / 1000000;
}

static void fail(const char *what) {
    perror(what);
    exit(1);
}

/* Ends the program where the library refuses what it should not. */
static void expect(uint32_t answer, const char *call) {
    if (answer != ZUMELIVON_DONE) {
        fprintf(stderr, "server: %s answered %u\n", call, answer);
        exit(1);
    }
}

/* A peer that has gone, or does not read what it is told, is one that a read will find gone. */
static void say(const struct connection *it, const char *text) {
    size_t length = strlen(text);
    if (send(it->socket, text, length, MSG_NOSIGNAL | MSG_DONTWAIT) != (ssize_t)length) {
        shutdown(it->socket, SHUT_RDWR);
    }
}

/* ---- what the machines do ---- */

/* The time-out of the event, which any event cancels: so each answer sets it anew. */
static zumelivon_action until_silence(const struct server *all) {
    return (zumelivon_action){
        .what = ZUMELIVON_SET, .timer = ZUMELIVON_EVENT_TIMER, .time = all->silence, .code = SILENCE};
}

static void add(struct decision *it, zumelivon_action action) {
    it->actions[it->count++] = action;
}

static void stop(struct decision *it, uint32_t reason) {
    it->handled = (zumelivon_answer){.what = ZUMELIVON_STOP, .reason = reason};
    it->count = 0;
}

static int is_login(const zumelivon_event *event, const uint8_t *bytes) {
    return event->code == LINE && event->length > 6 && memcmp(bytes, "login ", 6) == 0;
}

static void before_login(struct server *all, struct connection *it, const zumelivon_event *event, const uint8_t *bytes,
                         struct decision *decision) {
    if (is_login(event, bytes)) {
        snprintf(it->name, sizeof it->name, "%.*s", (int)event->length - 6, (const char *)bytes + 6);
        decision->handled = (zumelivon_answer){.what = ZUMELIVON_NEXT_STATE, .state = KNOWN, .data = event->data};
    } else {
        all->postponed++;
        add(decision, (zumelivon_action){.what = ZUMELIVON_POSTPONE, .postpone = 1});
    }
}

static void answer_who(const struct connection *it, const zumelivon_event *event, struct decision *decision) {
    decision->length = (size_t)snprintf((char *)decision->bytes, sizeof decision->bytes, "%s, %llu lines", it->name,
                                        (unsigned long long)event->data);
    add(decision, (zumelivon_action){.what = ZUMELIVON_REPLY, .machine = event->machine, .request = event->request,
                                     .code = WHO, .length = decision->length});
}

static void say_back(const struct connection *it, const zumelivon_event *event, const uint8_t *bytes,
                     struct decision *decision) {
    char text[LINE_LIMIT + NAME_LIMIT + 32];
    snprintf(text, sizeof text, "%s %llu: %.*s\n", it->name, (unsigned long long)event->data + 1, (int)event->length,
             (const char *)bytes);
    say(it, text);
    decision->handled = (zumelivon_answer){.what = ZUMELIVON_KEEP_STATE, .data = event->data + 1};
}

static void after_login(const struct connection *it, const zumelivon_event *event, const uint8_t *bytes,
                        struct decision *decision) {
    if (event->kind == ZUMELIVON_CALL) {
        answer_who(it, event, decision);
    } else if (event->length == 4 && memcmp(bytes, "quit", 4) == 0) {
        say(it, "bye\n");
        stop(decision, QUIT);
    } else {
        say_back(it, event, bytes, decision);
    }
}

/* The callback, in gen_statem's words. It may do what it likes, for no call of the library is under way. */
static void handle(struct server *all, struct connection *it, const zumelivon_event *event, const uint8_t *bytes,
                   struct decision *decision) {
    decision->handled = (zumelivon_answer){.what = ZUMELIVON_KEEP_STATE_AND_DATA};
    add(decision, until_silence(all));
    if (event->kind == ZUMELIVON_TIMEOUT) {
        all->silent++;
        say(it, "bye idle\n");
        stop(decision, SILENT);
    } else if (event->state == UNKNOWN) {
        before_login(all, it, event, bytes, decision);
    } else {
        after_login(it, event, bytes, decision);
    }
}

/* The enter call. */
static void enter(const struct connection *it, struct decision *decision) {
    say(it, "welcome ");
    say(it, it->name);
    say(it, "\n");
    decision->entered = (zumelivon_answer){.what = ZUMELIVON_KEEP_STATE_AND_DATA};
}

/* ---- how they are served ---- */

/* Hands on the replies of a turn. The call may be one that was postponed long ago. */
static void hand_on_replies(struct server *all, struct connection *it, const zumelivon_report *report) {
    for (uint64_t index = 0; index < report->replied; index++) {
        zumelivon_listed request;
        zumelivon_content content;
        uint8_t room[LINE_LIMIT];
        expect(zumelivon_list(&all->table, ZUMELIVON_REPLIED, index, &request), "list");
        expect(zumelivon_collect(&all->table, it->id, request.number, &content, room, sizeof room - 1), "collect");
        room[content.length] = 0;
        say(it, (const char *)room);
        say(it, "\n");
    }
}

/* Makes the turn. The callbacks are not asked again where there is no memory: the same answer is handed in again. */
static void turn(struct server *all, struct connection *it, uint64_t number, const struct decision *decision,
                 zumelivon_report *report) {
    const zumelivon_action none = {0};
    uint32_t made;
    while ((made = zumelivon_turn(&all->table, it->id, number, now(), &decision->handled, decision->actions,
                                  decision->count, &decision->entered, &none, 0, decision->bytes, decision->length, 0,
                                  report)) == ZUMELIVON_NO_MEMORY) {
        poll(NULL, 0, 10);
    }
    expect(made, "turn");
    all->turns++;
}

static void end(struct server *all, struct connection *it) {
    expect(zumelivon_remove(&all->table, it->id), "remove");
    close(it->socket);
    it->socket = -1;
}

static void note_due(struct server *all, struct connection *it) {
    zumelivon_machine machine;
    expect(zumelivon_look(&all->table, it->id, &machine), "look");
    it->due = machine.has_due ? machine.due : UINT64_MAX;
}

/* Makes turns until there is no event, or the machine has ended. */
static void serve(struct server *all, struct connection *it) {
    zumelivon_event event;
    uint8_t bytes[LINE_LIMIT];
    uint32_t next;
    while ((next = zumelivon_next(&all->table, it->id, &event, bytes, sizeof bytes)) == ZUMELIVON_DONE) {
        struct decision decision = {0};
        zumelivon_report report;
        handle(all, it, &event, bytes, &decision);
        if (zumelivon_enters(&event, &decision.handled)) {
            enter(it, &decision);
        }
        turn(all, it, event.number, &decision, &report);
        hand_on_replies(all, it, &report);
        if (report.done == ZUMELIVON_HAS_ENDED) {
            end(all, it);
            return;
        }
    }
    if (next != ZUMELIVON_NOTHING) {
        expect(next, "next");
    }
    note_due(all, it);
}

/* A line is an info. `who` is a call, so it has a reply. */
static void take_line(struct server *all, struct connection *it, const uint8_t *line, size_t length) {
    int is_call = length == 3 && memcmp(line, "who", 3) == 0;
    uint64_t number;
    expect(zumelivon_post(&all->table, it->id, is_call ? ZUMELIVON_CALL : ZUMELIVON_INFO, is_call ? WHO : LINE, line,
                          length, &number),
           "post");
    serve(all, it);
}

/* Takes the whole lines out of what was read. A line that is too long is cut. */
static void take_lines(struct server *all, struct connection *it) {
    uint8_t line[LINE_LIMIT];
    uint8_t *end_of_line;
    while (it->socket >= 0 && ((end_of_line = memchr(it->read, '\n', it->got)) != NULL || it->got == sizeof it->read)) {
        size_t length = end_of_line != NULL ? (size_t)(end_of_line - it->read) : it->got;
        size_t taken = end_of_line != NULL ? length + 1 : length;
        memcpy(line, it->read, length);
        memmove(it->read, it->read + taken, it->got - taken);
        it->got -= taken;
        take_line(all, it, line, length);
    }
}

static void read_from(struct server *all, struct connection *it) {
    ssize_t got = recv(it->socket, it->read + it->got, sizeof it->read - it->got, MSG_DONTWAIT);
    if (got > 0) {
        it->got += (size_t)got;
        take_lines(all, it);
    } else if (got == 0 || (errno != EAGAIN && errno != EINTR)) {
        expect(zumelivon_stop(&all->table, it->id, BROKEN, 0), "stop");
        end(all, it);
    }
}

/* Tells the machines that are due the moment. Their time-outs are events then. */
static void tick_due(struct server *all) {
    uint64_t at = now();
    for (size_t i = 0; i < all->count; i++) {
        struct connection *it = all->connections[i];
        uint64_t expired;
        if (it->socket >= 0 && it->due <= at) {
            expect(zumelivon_tick(&all->table, it->id, at, &expired), "tick");
            serve(all, it);
        }
    }
}

/* ---- sockets ---- */

/* Starts a machine in UNKNOWN. Its first enter call sets the time-out. */
static void start(struct server *all, struct connection *it) {
    const zumelivon_begin begin = {.state = UNKNOWN, .data = 0, .enters = 1};
    const zumelivon_answer entered = {.what = ZUMELIVON_KEEP_STATE_AND_DATA};
    const zumelivon_action timer = until_silence(all), none = {0};
    const uint8_t no_bytes = 0;
    zumelivon_report report;
    expect(zumelivon_start(&all->table, now(), &begin, &none, 0, &entered, &timer, 1, &no_bytes, 0, &it->id, &report),
           "start");
    note_due(all, it);
}

static void take_connection(struct server *all, int socket) {
    if (all->count == all->room) {
        all->room = all->room * 2 + 16;
        all->connections = realloc(all->connections, all->room * sizeof *all->connections);
    }
    struct connection *it = calloc(1, sizeof *it);
    if (all->connections == NULL || it == NULL) {
        fail("server");
    }
    it->socket = socket;
    all->connections[all->count++] = it;
    start(all, it);
}

static void take_connections(struct server *all) {
    int socket;
    while ((socket = accept4(all->listener, NULL, NULL, SOCK_CLOEXEC)) >= 0) {
        take_connection(all, socket);
    }
}

static void forget_ended(struct server *all) {
    size_t kept = 0;
    for (size_t i = 0; i < all->count; i++) {
        if (all->connections[i]->socket >= 0) {
            all->connections[kept++] = all->connections[i];
        } else {
            free(all->connections[i]);
        }
    }
    all->count = kept;
}

/* How long to wait: until the earliest time-out is due. */
static int until_due(const struct server *all) {
    uint64_t at = now(), due = at + 60000;
    for (size_t i = 0; i < all->count; i++) {
        due = all->connections[i]->due < due ? all->connections[i]->due : due;
    }
    return due > at ? (int)(due - at) : 0;
}

/* One round: waits, and serves what has come. Answers 0 at a signal. */
static int go_round(struct server *all) {
    size_t count = all->count;
    struct pollfd *polled = calloc(count + 2, sizeof *polled);
    if (polled == NULL) {
        fail("server");
    }
    for (size_t i = 0; i < count; i++) {
        polled[i] = (struct pollfd){.fd = all->connections[i]->socket, .events = POLLIN};
    }
    polled[count] = (struct pollfd){.fd = all->listener, .events = POLLIN};
    polled[count + 1] = (struct pollfd){.fd = all->signals, .events = POLLIN};
    if (poll(polled, (nfds_t)count + 2, until_due(all)) < 0 && errno != EINTR) {
        fail("poll");
    }
    for (size_t i = 0; i < count; i++) {
        if (polled[i].revents != 0) {
            read_from(all, all->connections[i]);
        }
    }
    tick_due(all);
    forget_ended(all);
    if (polled[count].revents != 0) {
        take_connections(all);
    }
    int goes_on = polled[count + 1].revents == 0;
    free(polled);
    return goes_on;
}

static int listen_on(uint16_t port) {
    struct sockaddr_in at = {.sin_family = AF_INET, .sin_port = htons(port), .sin_addr.s_addr = htonl(INADDR_LOOPBACK)};
    socklen_t size = sizeof at;
    int one = 1, listener = socket(AF_INET, SOCK_STREAM | SOCK_CLOEXEC | SOCK_NONBLOCK, 0);
    if (listener < 0 || setsockopt(listener, SOL_SOCKET, SO_REUSEADDR, &one, sizeof one) < 0 ||
        bind(listener, (struct sockaddr *)&at, size) < 0 || listen(listener, 1024) < 0 ||
        getsockname(listener, (struct sockaddr *)&at, &size) < 0) {
        fail("listen");
    }
    printf("port %u\n", ntohs(at.sin_port));
    fflush(stdout);
    return listener;
}

static int signals(void) {
    sigset_t ending;
    sigemptyset(&ending);
    sigaddset(&ending, SIGTERM);
    sigaddset(&ending, SIGINT);
    if (sigprocmask(SIG_BLOCK, &ending, NULL) < 0) {
        fail("sigprocmask");
    }
    return signalfd(-1, &ending, SFD_CLOEXEC);
}

static void close_all(struct server *all) {
    for (size_t i = 0; i < all->count; i++) {
        end(all, all->connections[i]);
    }
    forget_ended(all);
    free(all->connections);
    close(all->listener);
    close(all->signals);
    expect(zumelivon_close(&all->table), "close");
}

int main(int argc, char **argv) {
    if (argc != 3) {
        fprintf(stderr, "usage: server PORT SILENCE\n");
        return 2;
    }
    struct server all = {.silence = (uint32_t)strtoul(argv[2], NULL, 10)};
    expect(zumelivon_open(&all.table, ZUMELIVON_VERSION), "open");
    all.signals = signals();
    all.listener = listen_on((uint16_t)strtoul(argv[1], NULL, 10));
    while (go_round(&all)) {
    }
    printf("turns %lu silent %lu postponed %lu\n", all.turns, all.silent, all.postponed);
    close_all(&all);
    return 0;
}

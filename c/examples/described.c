/* described.c: runs the circuit breaker of examples/machines: calls are refused for a while where too many failed.
 *
 *   described BREAKER.json
 *
 * What the machine does stands in the file. The program tells it what happens, and when.
 */
#include <stdio.h>
#include <stdlib.h>
#include <string.h>

#include "zumelivon.h"

enum { FILE_LIMIT = 1 << 20, FAULTS_LIMIT = 4096, NAME_LIMIT = 65 };

/* What the calls below share. */
struct run {
    zumelivon table;
    uint64_t description, machine, now;
};

static void expect(uint32_t answer, const char *call) {
    if (answer != ZUMELIVON_DONE) {
        fprintf(stderr, "described: %s answered %u\n", call, answer);
        exit(1);
    }
}

static size_t read_file(const char *path, uint8_t *text, size_t room) {
    FILE *file = fopen(path, "rb");
    if (file == NULL) {
        perror(path);
        exit(1);
    }
    size_t size = fread(text, 1, room, file);
    fclose(file);
    return size;
}

/* Reads the description. Its faults are printed. */
static void describe(struct run *run, const char *path) {
    uint8_t *text = malloc(FILE_LIMIT), faults[FAULTS_LIMIT];
    uint64_t length = 0;
    if (text == NULL) {
        exit(1);
    }
    uint32_t answer = zumelivon_describe(&run->table, text, read_file(path, text, FILE_LIMIT), &run->description,
                                         faults, sizeof faults, &length);
    free(text);
    if (answer == ZUMELIVON_FAULTY) {
        fwrite(faults, 1, length < sizeof faults ? length : sizeof faults, stderr);
    }
    expect(answer, "describe");
}

static uint32_t symbol(struct run *run, const char *name) {
    uint64_t number;
    expect(zumelivon_number_of(&run->table, run->description, ZUMELIVON_SYMBOL, (const uint8_t *)name, strlen(name),
                               &number),
           name);
    return (uint32_t)number;
}

/* The name of a number, in the room. */
static const char *name_of(struct run *run, uint32_t kind, uint64_t number, char *room) {
    uint64_t length;
    expect(zumelivon_name_of(&run->table, run->description, kind, number, (uint8_t *)room, NAME_LIMIT - 1, &length),
           "name_of");
    room[length] = 0;
    return room;
}

/* Starts a breaker: so many failures open it, for so long. */
static void start(struct run *run, uint64_t failures, uint64_t pause) {
    const zumelivon_signal values[] = {{.what = ZUMELIVON_NUMBER, .number = failures},
                                       {.what = ZUMELIVON_NUMBER, .number = pause}};
    const uint8_t none = 0;
    zumelivon_report report;
    expect(zumelivon_start_described(&run->table, run->description, run->now, values, 2, &none, 0, &run->machine,
                                     &report),
           "start_described");
}

/* Posts an event without a value, and lets the machine handle all that there is. */
static uint64_t post(struct run *run, uint32_t entry, const char *name) {
    const zumelivon_signal signal = {.symbol = symbol(run, name), .what = ZUMELIVON_NO_VALUE};
    const uint8_t none = 0;
    uint64_t number, turns;
    uint32_t more;
    expect(zumelivon_post_signal(&run->table, run->machine, entry, &signal, &none, 0, &number), "post_signal");
    expect(zumelivon_run(&run->table, run->machine, run->now, 1000, &turns, &more), "run");
    return number;
}

/* Calls, and prints the reply. */
static void ask(struct run *run) {
    zumelivon_signal reply;
    uint32_t reason;
    uint8_t room[1];
    char name[NAME_LIMIT];
    uint64_t number = post(run, ZUMELIVON_CALL, "ask");
    expect(zumelivon_collect_signal(&run->table, run->machine, number, &reply, &reason, room, sizeof room),
           "collect_signal");
    printf("%llu: ask: %s\n", (unsigned long long)run->now, name_of(run, ZUMELIVON_SYMBOL, reply.symbol, name));
}

static void print_state(struct run *run) {
    zumelivon_machine machine;
    char name[NAME_LIMIT];
    expect(zumelivon_look(&run->table, run->machine, &machine), "look");
    printf("%llu: %s\n", (unsigned long long)run->now, name_of(run, ZUMELIVON_STATE, machine.state, name));
}

/* Lets time pass to the moment when the time-out is due. */
static void wait_for_time_out(struct run *run) {
    zumelivon_machine machine;
    uint64_t expired, turns;
    uint32_t more;
    expect(zumelivon_look(&run->table, run->machine, &machine), "look");
    run->now = machine.due;
    expect(zumelivon_tick(&run->table, run->machine, run->now, &expired), "tick");
    expect(zumelivon_run(&run->table, run->machine, run->now, 1000, &turns, &more), "run");
}

int main(int argc, char **argv) {
    struct run run = {0};
    if (argc != 2) {
        fprintf(stderr, "usage: described BREAKER.json\n");
        return 2;
    }
    expect(zumelivon_open(&run.table, ZUMELIVON_VERSION), "open");
    describe(&run, argv[1]);
    start(&run, 2, 5000);
    ask(&run);
    post(&run, ZUMELIVON_CAST, "failed");
    post(&run, ZUMELIVON_CAST, "failed");
    print_state(&run);
    ask(&run);
    wait_for_time_out(&run);
    print_state(&run);
    ask(&run);
    post(&run, ZUMELIVON_CAST, "succeeded");
    print_state(&run);
    expect(zumelivon_close(&run.table), "close");
    return 0;
}

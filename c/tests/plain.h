/* plain.h: the calls that the tests make, with fewer arguments: no bytes, no enter calls, one action at most. */
#ifndef PLAIN_H
#define PLAIN_H

#include <stdint.h>
#include <stdio.h>
#include <string.h>

#include "zumelivon.h"

/* What stands where nothing is handed in, since no pointer may be NULL. */
static const zumelivon_action no_action = {0};
static const zumelivon_answer no_answer = {0};
static const zumelivon_answer keeps = {.what = ZUMELIVON_KEEP_STATE_AND_DATA};
static const uint8_t no_bytes[1] = {0};

static inline const uint8_t *bytes_of(const char *text) {
    return (const uint8_t *)text;
}

/* Starts a machine without enter calls. */
static inline uint32_t start_plain(zumelivon *table, uint64_t state, uint64_t data, uint64_t *id,
                                   zumelivon_report *report) {
    const zumelivon_begin begin = {.state = state, .data = data};
    return zumelivon_start(table, 0, &begin, &no_action, 0, &no_answer, &no_action, 0, no_bytes, 0, id, report);
}

/* Posts a text. */
static inline uint32_t post_text(zumelivon *table, uint64_t id, uint32_t entry, uint64_t code, const char *text,
                                 uint64_t *number) {
    return zumelivon_post(table, id, entry, code, bytes_of(text), strlen(text), number);
}

/* Makes a turn with an answer, and actions whose contents are in the text. */
static inline uint32_t turn_with(zumelivon *table, uint64_t id, uint64_t number, uint64_t now, zumelivon_answer answer,
                                 const zumelivon_action *actions, size_t count, const char *text,
                                 zumelivon_report *report) {
    return zumelivon_turn(table, id, number, now, &answer, actions, count, &no_answer, &no_action, 0, bytes_of(text),
                          strlen(text), 0, report);
}

#endif

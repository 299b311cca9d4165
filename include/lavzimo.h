/* The group-by and the roll-ups of Lavzimo in memory. docs/FORMATS.md, "Calls from C", says what each call gives. */
#ifndef LAVZIMO_H
#define LAVZIMO_H

#include <stddef.h>
#include <stdint.h>

#ifdef __cplusplus
extern "C" {
#endif

/* How an answer is written. */
enum {
    LAVZIMO_CSV = 0,
    LAVZIMO_JSON = 1 /* a line of JSON for each row */
};

/* What a call answers. */
enum {
    LAVZIMO_DONE = 0,
    LAVZIMO_WORDS_REFUSED = 2, /* the format is none; or the lengths aren't those of states, one at least */
    LAVZIMO_QUERY_REFUSED = 3, /* the query is no JSON, no query, one with a fault, or none to be saved */
    LAVZIMO_INPUT_REFUSED = 4, /* the text doesn't fit the schema */
    LAVZIMO_TOO_LARGE = 7,     /* a text has more than 2^30 bytes, or there are too many rows or chunks */
    LAVZIMO_NO_MEMORY = 10,
    LAVZIMO_NOT_A_STATE = 12,  /* a state is none of the query */
    LAVZIMO_OVERLAP = 13,      /* a state shares a position with one before it */
    LAVZIMO_KEYS_REFUSED = 14, /* the keys are no list of key columns, one at least and none twice */
    LAVZIMO_ROOM_SHORT = 20    /* the room has fewer than *need bytes; it is as it was */
};

/*
 * Groups the rows of a text of CSV by a query, which is JSON.
 *
 * With LAVZIMO_DONE the answer stands at the front of the room, with any other status but LAVZIMO_ROOM_SHORT
 * the line of the fault, which ends with LF. *need says how many bytes stand there, or with
 * LAVZIMO_ROOM_SHORT how many would; a room of 256 bytes holds each line.
 *
 * No pointer may be NULL, not even one to nothing, and neither the room nor *need may overlap anything else
 * that is handed in. Nothing is kept behind the call, so there is nothing to free, and calls may run in many
 * threads at once.
 */
uint8_t lavzimo_group(const uint8_t *query, size_t query_length,
                      const uint8_t *text, size_t text_length,
                      uint8_t format,
                      uint8_t *room, size_t room_length, size_t *need);

/*
 * Saves the state of the rows of a text of CSV by a query, which has neither a slice nor kept order. The text is
 * read in chunks of 50,000 rows, of which the first has the position first and each other one the next. All
 * else is as it is with lavzimo_group.
 */
uint8_t lavzimo_save(const uint8_t *query, size_t query_length,
                     uint32_t first,
                     const uint8_t *text, size_t text_length,
                     uint8_t *room, size_t room_length, size_t *need);

/*
 * Rolls up states of a query by some of its key columns, of whose names the keys are a JSON list. The states
 * stand in one text, one behind another, and have these lengths; a line tells a state by its number, from 1 on.
 * The answer is CSV. All else is as it is with lavzimo_group.
 */
uint8_t lavzimo_roll(const uint8_t *query, size_t query_length,
                     const uint8_t *keys, size_t keys_length,
                     const size_t *lengths, size_t count,
                     const uint8_t *states, size_t states_length,
                     uint8_t *room, size_t room_length, size_t *need);

#ifdef __cplusplus
}
#endif

#endif

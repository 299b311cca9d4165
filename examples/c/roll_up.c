/* Saves the state of each CSV of some files by the query that is the first argument, and rolls all of them up by the
 * keys that the second one names; it writes the answer, or the line of a fault to standard error, and its exit
 * status is that of the last call. */
#include <string.h>

#include "bytes.h"
#include "lavzimo.h"

/* The states so far, one behind another, with their lengths, and the position behind the last. */
struct states {
    struct bytes all;
    size_t *lengths;
    size_t count;
    uint32_t end;
};

/* The position behind the last chunk of a state, which its bytes 4 to 7 tell. */
static uint32_t end_of(const uint8_t *state)
{
    return (uint32_t)state[4] << 24 | (uint32_t)state[5] << 16 | (uint32_t)state[6] << 8 | (uint32_t)state[7];
}

/* Saves a text behind the other states, or writes the line of the fault to standard error. */
static uint8_t save(const char *query, const struct bytes *text, struct states *states)
{
    for (;;) {
        size_t need = 0;
        uint8_t *at = states->all.at + states->all.length;
        uint8_t status = lavzimo_save((const uint8_t *)query, strlen(query), states->end, text->at, text->length,
                                      at, states->all.room - states->all.length, &need);
        if (status == LAVZIMO_ROOM_SHORT) {
            if (!grow(&states->all, states->all.length + need))
                return LAVZIMO_NO_MEMORY;
            continue;
        }
        if (status != LAVZIMO_DONE) {
            fwrite(at, 1, need, stderr);
            return status;
        }
        states->end = end_of(at);
        states->lengths[states->count++] = need;
        states->all.length += need;
        return status;
    }
}

/* Reads a file and saves it. */
static uint8_t save_file(const char *query, const char *name, struct states *states)
{
    struct bytes text = {NULL, 0, 0};
    uint8_t status = LAVZIMO_INPUT_REFUSED;
    FILE *file = fopen(name, "rb");
    if (file != NULL && grow(&text, 4096) && read_all(file, &text))
        status = save(query, &text, states);
    if (file != NULL)
        fclose(file);
    free(text.at);
    return status;
}

/* Rolls all states up into an answer, which gets as much room as it needs. */
static uint8_t roll(const char *query, const char *keys, const struct states *states, struct bytes *answer)
{
    for (;;) {
        uint8_t status = lavzimo_roll((const uint8_t *)query, strlen(query), (const uint8_t *)keys, strlen(keys),
                                      states->lengths, states->count, states->all.at, states->all.length,
                                      answer->at, answer->room, &answer->length);
        if (status != LAVZIMO_ROOM_SHORT)
            return status;
        if (!grow(answer, answer->length))
            return LAVZIMO_NO_MEMORY;
    }
}

int main(int count, char **words)
{
    struct states states = {{NULL, 0, 0}, NULL, 0, 0};
    struct bytes answer = {NULL, 0, 0};
    uint8_t status = LAVZIMO_WORDS_REFUSED;
    states.lengths = calloc((size_t)count, sizeof *states.lengths);
    if (count > 3 && states.lengths != NULL && grow(&states.all, 256) && grow(&answer, 256)) {
        status = LAVZIMO_DONE;
        for (int n = 3; n < count && status == LAVZIMO_DONE; n++)
            status = save_file(words[1], words[n], &states);
        if (status == LAVZIMO_DONE) {
            status = roll(words[1], words[2], &states, &answer);
            fwrite(answer.at, 1, answer.length, status == LAVZIMO_DONE ? stdout : stderr);
        }
    }
    free(states.all.at);
    free(states.lengths);
    free(answer.at);
    return status;
}

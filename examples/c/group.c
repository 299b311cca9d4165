/* Groups a CSV from standard input by the query that is its argument, and writes the answer, or the line of a
 * fault to standard error; its exit status is that of the call. */
#include <string.h>

#include "bytes.h"
#include "lavzimo.h"

/* Groups a text into an answer, which gets as much room as it needs. */
static uint8_t group(const char *query, const struct bytes *text, struct bytes *answer)
{
    for (;;) {
        uint8_t status = lavzimo_group((const uint8_t *)query, strlen(query), text->at, text->length,
                                       LAVZIMO_CSV, answer->at, answer->room, &answer->length);
        if (status != LAVZIMO_ROOM_SHORT)
            return status;
        if (!grow(answer, answer->length))
            return LAVZIMO_NO_MEMORY;
    }
}

int main(int count, char **words)
{
    struct bytes text = {NULL, 0, 0}, answer = {NULL, 0, 0};
    uint8_t status = LAVZIMO_WORDS_REFUSED;
    if (count == 2 && grow(&text, 4096) && grow(&answer, 256) && read_all(stdin, &text)) {
        status = group(words[1], &text, &answer);
        fwrite(answer.at, 1, answer.length, status == LAVZIMO_DONE ? stdout : stderr);
    }
    free(text.at);
    free(answer.at);
    return status;
}

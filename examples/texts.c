/* Reads a list of at most 65,536 bytes from standard input and prints its texts, then how long its tidy copy is. */
#include "../strelinga.h"

#include <inttypes.h>
#include <stdio.h>

enum { BYTES = 65536, WORDS = 8192 * STRELINGA_ROW_WORDS };

static uint8_t stream[BYTES + 1];
static uint8_t copy[2 * BYTES];
static uint32_t table[WORDS];

static int refused(uint32_t reply, uint64_t place) {
    printf("refused %" PRIu32 " at %" PRIu64 "\n", reply, place);
    return 1;
}

int main(void) {
    size_t bytes = fread(stream, 1, sizeof stream, stdin);
    uint64_t place, rows, from, length;

    if (bytes > BYTES) {
        printf("more than %d bytes\n", BYTES);
        return 2;
    }

    /* Ask for texts with the setting with which the list was read. Without a class book it is read with an empty one. */
    const uint32_t setting = STRELINGA_STRICT;

    uint32_t reply = strelinga_read(stream, bytes, NULL, 0, table, WORDS, setting, &place, &rows);
    if (reply != STRELINGA_DONE) {
        return refused(reply, place);
    }
    printf("accepted %" PRIu64 "\n", rows);

    for (uint64_t row = 0; row < rows; row++) {
        if (strelinga_row_question(stream, bytes, table, WORDS, row, setting) == STRELINGA_DONE) {
            strelinga_text_view(stream, bytes, table, WORDS, row, setting, &from, &length);
            printf("row %" PRIu64 ": ", row);
            fwrite(stream + from, 1, length, stdout);
            printf("\n");
        }
    }

    reply = strelinga_tidy(stream, bytes, NULL, 0, table, WORDS, copy, sizeof copy, setting, &place, &length);
    if (reply != STRELINGA_DONE) {
        return refused(reply, place);
    }
    printf("tidy copy: %" PRIu64 " of %zu bytes\n", length, bytes);
    return 0;
}

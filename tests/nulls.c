/* Calls each job of strelinga.h with null pointers beside counts of 0: each lent part by itself, every choice of several, and all at once. Holds the
   replies, the numbers handed out and every byte of what is lent against the rules. Then with numbers for the setting: 0 is strict, every other
   lenient. Then with a bad class book. Prints how many calls there were; ends with 1 at the first that is answered otherwise. */
#include <stdio.h>
#include <stdlib.h>
#include <string.h>
#include "../strelinga.h"

#define LIMIT 16777216
#define WORDS 40
#define ROOM 40
#define LITTER 0xA5

/* A header, the text 12E5 and an end. It is its own tidy copy. */
static const uint8_t list[] = {0, 1, 0, 0, 0, 1, 0, 0, 0, 1, 0, 0, 0, 0, 0, 0, 0, 6, 1, 0, 0, 0, 4, '1', '2', 'E', '5', 11};
static const uint32_t reading[] = {0, 0, 17, 1, 0, 0, 2, 0, 6, 17, 27, 1, 0, 0, 0, 0, 11, 27, 28, 0, 0, 0, 0, 0};

/* System class A with the member x, an Int32; and the same with a second entry that begins with 2. */
static const uint8_t book[] = {0, 1, 'A', 1, 1, 'x', 0, 8};
static const uint8_t bad_book[] = {0, 1, 'A', 1, 1, 'x', 0, 8, 2};

static uint8_t too_large[LIMIT + 1];
static uint32_t table[WORDS];
static uint8_t first[ROOM], second[ROOM];
static uint64_t handed[4];
static unsigned calls;

static void prepare(void) {
    memset(table, LITTER, sizeof table);
    memset(first, LITTER, sizeof first);
    memset(second, LITTER, sizeof second);
    memset(handed, LITTER, sizeof handed);
    calls++;
}

static void hold(int good, const char *job, unsigned nulls) {
    if (!good) {
        printf("%s, null pointers %u: answered or left otherwise\n", job, nulls);
        exit(1);
    }
}

/* The table: a null one is not touched, else it is the reading or all zero. */
static int table_is(int lent, int read) {
    for (size_t at = 0; at < WORDS; at++) {
        uint32_t word = read && at < sizeof reading / sizeof reading[0] ? reading[at] : 0;
        if (table[at] != (lent ? word : 0xA5A5A5A5u)) {
            return 0;
        }
    }
    return 1;
}

/* An output: the copy in front or not, and behind it what was there. */
static int output_is(const uint8_t *out, int written) {
    for (size_t at = 0; at < ROOM; at++) {
        if (out[at] != (written && at < sizeof list ? list[at] : LITTER)) {
            return 0;
        }
    }
    return 1;
}

static int handed_are(uint64_t a, uint64_t b, uint64_t c, uint64_t d) {
    return handed[0] == a && handed[1] == b && handed[2] == c && handed[3] == d;
}

#define UNTOUCHED 0xA5A5A5A5A5A5A5A5u
#define IS_NULL(bit) (nulls >> (bit) & 1)
#define LENT(bit, pointer) (IS_NULL(bit) ? NULL : (pointer))
#define COUNT(bit, count) (IS_NULL(bit) ? 0 : (count))

static void reads(unsigned nulls) {
    prepare();
    uint32_t reply = strelinga_read(LENT(0, list), COUNT(0, sizeof list), LENT(2, book), COUNT(2, sizeof book), LENT(1, table), COUNT(1, WORDS),
                                    STRELINGA_STRICT, &handed[0], &handed[1]);
    uint32_t right = IS_NULL(0) ? STRELINGA_CUT_SHORT : IS_NULL(1) ? STRELINGA_NO_ROOM : STRELINGA_DONE;
    hold(reply == right && handed_are(0, right ? 0 : 3, UNTOUCHED, UNTOUCHED) && table_is(!IS_NULL(1), !right), "read", nulls);
}

static void views(unsigned nulls, uint64_t row) {
    prepare();
    memset(table, 0, sizeof table);
    memcpy(table, reading, sizeof reading);
    uint32_t reply = strelinga_row_question(LENT(0, list), COUNT(0, sizeof list), LENT(1, table), COUNT(1, WORDS), row, STRELINGA_STRICT);
    uint32_t right = nulls || row != 1 ? STRELINGA_NO_SUCH_ROW : STRELINGA_DONE;
    hold(reply == right && table_is(1, 1), "row question", nulls);
    calls++;
    reply = strelinga_text_view(LENT(0, list), COUNT(0, sizeof list), LENT(1, table), COUNT(1, WORDS), row, STRELINGA_STRICT, &handed[0],
                                &handed[1]);
    hold(reply == right && handed_are(right ? 0 : 23, right ? 0 : 4, UNTOUCHED, UNTOUCHED) && table_is(1, 1), "text view", nulls);
}

static void tidies(unsigned nulls) {
    prepare();
    uint32_t reply = strelinga_tidy(LENT(0, list), COUNT(0, sizeof list), LENT(3, book), COUNT(3, sizeof book), LENT(1, table), COUNT(1, WORDS),
                                    LENT(2, first), COUNT(2, ROOM), STRELINGA_STRICT, &handed[0], &handed[1]);
    uint32_t right = IS_NULL(0) ? STRELINGA_CUT_SHORT : IS_NULL(1) ? STRELINGA_NO_ROOM : IS_NULL(2) ? STRELINGA_OUT_FULL : STRELINGA_DONE;
    uint64_t length = right == STRELINGA_DONE || right == STRELINGA_OUT_FULL ? sizeof list : 0;
    hold(reply == right && handed_are(0, length, UNTOUCHED, UNTOUCHED) && table_is(!IS_NULL(1), !right) && output_is(first, !right), "tidy", nulls);
}

static void compares(unsigned nulls) {
    prepare();
    uint32_t reply = strelinga_say_the_same(LENT(0, list), COUNT(0, sizeof list), LENT(5, book), COUNT(5, sizeof book), LENT(1, list),
                                            COUNT(1, sizeof list), LENT(6, book), COUNT(6, sizeof book), LENT(2, table), COUNT(2, WORDS),
                                            LENT(3, first), COUNT(3, ROOM), LENT(4, second), COUNT(4, ROOM), STRELINGA_STRICT,
                                            STRELINGA_STRICT, &handed[0], &handed[1], &handed[2], &handed[3]);
    uint32_t of_first = IS_NULL(0) ? STRELINGA_CUT_SHORT : IS_NULL(2) ? STRELINGA_NO_ROOM : IS_NULL(3) ? STRELINGA_OUT_FULL : STRELINGA_DONE;
    uint32_t of_second = IS_NULL(1) ? STRELINGA_CUT_SHORT : IS_NULL(4) ? STRELINGA_OUT_FULL : STRELINGA_DONE;
    uint32_t right = of_first ? of_first : of_second;
    uint64_t which = of_first ? 1 : of_second ? 2 : 0;
    uint64_t needed = right == STRELINGA_OUT_FULL ? sizeof list : 0;
    hold(reply == right && handed_are(!right, which, 0, needed) && table_is(!IS_NULL(2), !right) && output_is(first, !of_first) &&
             output_is(second, !right),
         "say the same", nulls);
}

/* A stream over the limit, beside a bad book, no table and no output. */
static void refuses_too_large(void) {
    prepare();
    uint32_t reply = strelinga_read(too_large, sizeof too_large, bad_book, sizeof bad_book, NULL, 0, STRELINGA_STRICT, &handed[0], &handed[1]);
    hold(reply == STRELINGA_TOO_LARGE && handed_are(0, 0, UNTOUCHED, UNTOUCHED), "read, too large", 2);
    prepare();
    reply = strelinga_tidy(too_large, sizeof too_large, bad_book, sizeof bad_book, NULL, 0, NULL, 0, STRELINGA_STRICT, &handed[0], &handed[1]);
    hold(reply == STRELINGA_TOO_LARGE && handed_are(0, 0, UNTOUCHED, UNTOUCHED), "tidy, too large", 6);
}

/* The same list with the text's length in two bytes: its reading, and a reply that depends on the setting. */
static const uint8_t padded[] = {0, 1, 0, 0, 0, 1, 0, 0, 0, 1, 0, 0, 0, 0, 0, 0, 0, 6, 1, 0, 0, 0, 0x84, 0, '1', '2', 'E', '5', 11};
static const uint32_t padded_reading[] = {0, 0, 17, 1, 0, 0, 2, 0, 6, 17, 28, 1, 0, 0, 0, 0, 11, 28, 29, 0, 0, 0, 0, 0};

static void settles(uint32_t setting) {
    int lenient = setting != 0;
    uint32_t right = lenient ? STRELINGA_DONE : STRELINGA_BAD_LENGTH;
    uint64_t place = lenient ? 0 : 17;
    prepare();
    uint32_t reply = strelinga_read(padded, sizeof padded, NULL, 0, table, WORDS, setting, &handed[0], &handed[1]);
    int rows = !memcmp(table, padded_reading, sizeof padded_reading);
    hold(reply == right && handed_are(place, lenient ? 3 : 0, UNTOUCHED, UNTOUCHED) && (lenient ? rows : table_is(1, 0)), "read, setting", setting);
    prepare();
    reply = strelinga_tidy(padded, sizeof padded, NULL, 0, table, WORDS, first, ROOM, setting, &handed[0], &handed[1]);
    hold(reply == right && handed_are(place, lenient ? sizeof list : 0, UNTOUCHED, UNTOUCHED) && output_is(first, lenient), "tidy, setting", setting);
    prepare();
    memcpy(table, padded_reading, sizeof padded_reading);
    right = lenient ? STRELINGA_DONE : STRELINGA_NO_SUCH_ROW;
    reply = strelinga_row_question(padded, sizeof padded, table, WORDS, 1, setting);
    hold(reply == right, "row question, setting", setting);
    calls++;
    reply = strelinga_text_view(padded, sizeof padded, table, WORDS, 1, setting, &handed[0], &handed[1]);
    hold(reply == right && handed_are(lenient ? 24 : 0, lenient ? 4 : 0, UNTOUCHED, UNTOUCHED), "text view, setting", setting);
}

/* Each list is read under its own setting. */
static void settles_both(uint32_t a_setting, uint32_t b_setting) {
    prepare();
    uint32_t reply = strelinga_say_the_same(padded, sizeof padded, NULL, 0, padded, sizeof padded, NULL, 0, table, WORDS, first, ROOM, second,
                                            ROOM, a_setting, b_setting, &handed[0], &handed[1], &handed[2], &handed[3]);
    uint64_t which = !a_setting ? 1 : !b_setting ? 2 : 0;
    uint32_t right = which ? STRELINGA_BAD_LENGTH : STRELINGA_DONE;
    hold(reply == right && handed_are(!which, which, which ? 17 : 0, 0) && output_is(first, which != 1) && output_is(second, !which),
         "say the same, settings", a_setting);
}

/* A bad entry at its place in the book, before the stream is looked at; of two books the first list's goes first. */
static void judges_books(uint32_t setting) {
    uint64_t place = sizeof book;
    prepare();
    uint32_t reply = strelinga_read(NULL, 0, bad_book, sizeof bad_book, table, WORDS, setting, &handed[0], &handed[1]);
    hold(reply == STRELINGA_BAD_BOOK && handed_are(place, 0, UNTOUCHED, UNTOUCHED) && table_is(1, 0), "read, bad book", setting);
    prepare();
    reply = strelinga_tidy(list, sizeof list, bad_book, sizeof bad_book, table, WORDS, first, ROOM, setting, &handed[0], &handed[1]);
    hold(reply == STRELINGA_BAD_BOOK && handed_are(place, 0, UNTOUCHED, UNTOUCHED) && table_is(1, 0) && output_is(first, 0), "tidy, bad book", setting);
    for (uint64_t which = 1; which <= 2; which++) {
        prepare();
        reply = strelinga_say_the_same(list, sizeof list, bad_book, which == 1 ? sizeof bad_book : sizeof book, list, sizeof list, bad_book,
                                       sizeof bad_book, table, WORDS, first, ROOM, second, ROOM, setting, setting, &handed[0], &handed[1],
                                       &handed[2], &handed[3]);
        hold(reply == STRELINGA_BAD_BOOK && handed_are(0, which, place, 0) && table_is(1, 0) && output_is(first, which == 2) &&
                 output_is(second, 0),
             "say the same, bad book", setting);
    }
}

int main(void) {
    static const uint64_t rows[] = {0, 1, 2, WORDS / 8, UINT64_MAX};
    for (unsigned nulls = 0; nulls < 8; nulls++) {
        reads(nulls);
    }
    for (unsigned nulls = 0; nulls < 4; nulls++) {
        for (size_t at = 0; at < sizeof rows / sizeof rows[0]; at++) {
            views(nulls, rows[at]);
        }
    }
    for (unsigned nulls = 0; nulls < 16; nulls++) {
        tidies(nulls);
    }
    for (unsigned nulls = 0; nulls < 128; nulls++) {
        compares(nulls);
    }
    refuses_too_large();
    static const uint32_t settings[] = {STRELINGA_STRICT, STRELINGA_LENIENT, 2, 256, 0x80000000u, UINT32_MAX};
    for (size_t a = 0; a < sizeof settings / sizeof settings[0]; a++) {
        settles(settings[a]);
        judges_books(settings[a]);
        for (size_t b = 0; b < sizeof settings / sizeof settings[0]; b++) {
            settles_both(settings[a], settings[b]);
        }
    }
    printf("%u calls\n", calls);
    return 0;
}

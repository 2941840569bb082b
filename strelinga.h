/* The four public jobs of Strelinga, for C: read a stream into a table of rows, say whether a row has text, show that text, and write the tidy
   copy; and over them the one that answers whether two lists say the same. Link the archive that `tests/library` makes for x86-64 and
   prints the path of. docs/EMBEDDING.md says what to lend and what is left in it.

   A stream is bytes and their count, so is a class book, a table is 32-bit words and their count, an output is bytes and their count. Any bytes and
   any sizes are taken, none at all too: beside a count of 0 the pointer may be null. A book of 0 bytes is an empty one, which is always good. Pointers to the numbers that are handed out (`place`, `rows`, ..) are never
   null. What is written must not overlap anything else that is lent. Nothing is kept after a call. `setting` says which length prefixes are taken:
   any number is a setting. */
#ifndef STRELINGA_H
#define STRELINGA_H

#include <stddef.h>
#include <stdint.h>

#ifdef __cplusplus
extern "C" {
#endif

/* Replies by number. */
enum strelinga_reply {
    STRELINGA_DONE = 0,
    STRELINGA_TOO_LARGE = 1,     /* over the stream limit of 16,777,216 bytes, place 0 */
    STRELINGA_CUT_SHORT = 2,     /* a field passes the end */
    STRELINGA_UNKNOWN_KIND = 3,  /* not 0 to 17, 21, 22 */
    STRELINGA_NOT_TAKEN = 4,     /* record kinds 2, 3, 21 and 22, array types 3, 4 and 5 */
    STRELINGA_WRONG_PLACE = 5,   /* a taken kind not allowed here */
    STRELINGA_BAD_VERSION = 6,   /* not 1, 0 */
    STRELINGA_BAD_LENGTH = 7,    /* prefix rule; lenient: a fifth byte over 7 */
    STRELINGA_BAD_TEXT = 8,      /* not UTF-8 */
    STRELINGA_BAD_COUNT = 9,     /* negative count, 0 in kind 14, wrong rank, product or run too large */
    STRELINGA_BAD_TYPE = 10,     /* type byte, array type over 5, primitive code */
    STRELINGA_BAD_VALUE = 11,    /* Boolean, Char, Decimal, DateTime */
    STRELINGA_BAD_ID = 12,       /* sign rule, or used before */
    STRELINGA_NO_LIBRARY = 13,   /* not defined earlier */
    STRELINGA_NO_CLASS = 14,     /* not defined earlier */
    STRELINGA_TOO_DEEP = 15,     /* a 65th open object */
    STRELINGA_NO_ROOM = 16,      /* no whole row left */
    STRELINGA_TRAILING = 17,     /* bytes after the end, place of the first */
    STRELINGA_NO_ROOT = 18,      /* RootId names no object, place 0 */
    STRELINGA_NO_OBJECT = 19,    /* lowest reference with no target */
    STRELINGA_OUT_FULL = 20,     /* tidy copy longer than the output or the stream limit; carries the needed length */
    STRELINGA_NO_SUCH_ROW = 21,  /* row question, text view: no text, or a padded one asked for in strict */
    STRELINGA_BAD_BOOK = 22      /* a bad entry of the class book; its place is counted in the book */
};

/* The words of a row, eight to a row. */
enum strelinga_word {
    STRELINGA_KIND = 0,   /* the record's first byte; 32 is the value of a class member, which has no record */
    STRELINGA_OFFSET = 1,
    STRELINGA_END = 2,    /* offset after its own bytes */
    STRELINGA_ID = 3,     /* ObjectId, LibraryId, IdRef or RootId as unsigned bits, else 0 */
    STRELINGA_OWNER = 4,  /* row number of the object whose slot is filled, plus 1, else 0 */
    STRELINGA_SLOT = 5,   /* first slot filled */
    STRELINGA_LINK = 6,   /* plus 1: the reference's target row, the kind 1 record's class row, the header's root row; else 0 */
    STRELINGA_COUNT = 7,  /* slots, members or run length, 1 for kind 10, else 0 */
    STRELINGA_ROW_WORDS = 8
};

/* Which prefixes the lengths of names, texts and Decimals may have: 0 is strict, every other number lenient. */
enum strelinga_setting {
    STRELINGA_STRICT = 0,  /* the shortest alone */
    STRELINGA_LENIENT = 1  /* any of at most 5 bytes whose fifth is at most 7: 84 00 is 4, as 04 is */
};

/* Reads a stream into a table of rows, with a class book, which is judged before the stream. Answers 0 or the number of the refusal. `place` gets the place of the refusal, else 0; `rows` gets how
   many rows there are, 0 after a refusal. Words after the last row are 0; after a refusal all are. An end word counts the prefix as it is written. */
uint32_t strelinga_read(const uint8_t *stream, size_t bytes, const uint8_t *book, size_t book_bytes, uint32_t *table, size_t words,
                        uint32_t setting, uint64_t *place, uint64_t *rows);

/* Whether a row has text: 0 where its kind is 6 and a whole string record starts at its offset and ends at its end word, else 21. Rows are
   numbered from 0. The setting is the question's own, whatever the table was read with: strict, a row of a padded text is 21. So ask with the
   setting with which the list was read. */
uint32_t strelinga_row_question(const uint8_t *stream, size_t bytes, const uint32_t *table, size_t words, uint64_t row, uint32_t setting);

/* The text of a row, a part of the stream: `from` gets its place and `length` how many bytes it has, both 0 where there is none. Answers as the
   row question does. */
uint32_t strelinga_text_view(const uint8_t *stream, size_t bytes, const uint32_t *table, size_t words, uint64_t row, uint32_t setting,
                             uint64_t *from, uint64_t *length);

/* Writes the tidy copy of a stream, read with a class book, to the front of the output. Answers 0 or the number of the refusal. `place` gets the place of the refusal,
   else 0; `length` gets how long the copy is or, with 20, would be, and 0 after any other refusal. On success the rest of the output is untouched
   and the table is the reading of the stream; after a refusal the table is all zero and the output unchanged. The copy has the shortest prefixes
   under either setting. */
uint32_t strelinga_tidy(const uint8_t *stream, size_t bytes, const uint8_t *book, size_t book_bytes, uint32_t *table, size_t words,
                        uint8_t *out, size_t room, uint32_t setting, uint64_t *place, uint64_t *length);

/* Whether the lists in `a` and `b` say the same. The tidy copies go to the fronts of `first` and `second`; the one table serves both readings.
   Answers 0 where both lists have their copies: `same` gets 1 where they say the same and 0 where not, `list`, `place` and `needed` get 0. Else
   answers the number of the refusal, as `strelinga_tidy` would for the list that `list` names, 1 or 2: `place` gets its place, `needed` with 20
   how long its copy would be, else 0, and `same` gets 0. A first list without a copy goes before the second, which is then not looked at and
   whose output is unchanged. The table holds what the last tidying leaves: the reading of `b`, or all zero after a refusal. Each list has a
   class book and a setting of its own. */
uint32_t strelinga_say_the_same(const uint8_t *a, size_t a_bytes, const uint8_t *a_book, size_t a_book_bytes, const uint8_t *b, size_t b_bytes,
                                const uint8_t *b_book, size_t b_book_bytes, uint32_t *table, size_t words, uint8_t *first, size_t first_room,
                                uint8_t *second, size_t second_room, uint32_t a_setting, uint32_t b_setting, uint64_t *same, uint64_t *list,
                                uint64_t *place, uint64_t *needed);

#ifdef __cplusplus
}
#endif

#endif

/* Auzuplens for C: the functions of libauzuplens.a (rust/archive makes it).
 *
 * No function asks anything of its arguments beyond what C itself does: each
 * pointer to bytes leads to as many as the length behind it says, a pointer is not
 * null even where that length is 0, and what is written, the bytes of `book` and
 * the numbers of `answer`, is no part of `text` nor of each other. Every text,
 * buffer and number has an answer. Nothing is kept between calls. A check keeps
 * all that it needs on the stack, for which a thread of 2 megabytes serves
 * (docs/BENCH.md). */
#ifndef AUZUPLENS_H
#define AUZUPLENS_H

#include <stddef.h>
#include <stdint.h>

#ifdef __cplusplus
extern "C" {
#endif

/* The answer to a text: so many numbers, a slot each. What an answer does not have
 * is 0: place, line and column of an accepted text, length and definitions of a
 * refused one. Line and column are those of the place, both from 1, columns in
 * bytes; CR LF ends a line, and so does CR or LF alone. */
#define AUZUPLENS_ANSWER 8

enum {
    AUZUPLENS_NUMBER = 0,      /* of the refusal, 1 to 19 or 22; 0: accepted */
    AUZUPLENS_PLACE = 1,       /* where the refusal stands in the text */
    AUZUPLENS_LINE = 2,
    AUZUPLENS_COLUMN = 3,
    AUZUPLENS_LENGTH = 4,      /* of the book */
    AUZUPLENS_DEFINITIONS = 5, /* how many the book has */
    AUZUPLENS_EDITION = 6,     /* always 0 for now */
    AUZUPLENS_PASSED = 7       /* always 0 for now */
};

/* Checks a text. `book` then holds the book with zeros behind it, or, after a
 * refusal, nothing but zeros; `answer`, which leads to AUZUPLENS_ANSWER numbers,
 * holds the answer. What they held before does not matter. */
void auzuplens_check(const uint8_t *text, size_t text_length,
                     uint8_t *book, size_t book_length, uint64_t *answer);

/* Reads a whole number with so many decimals at the base's decimals: the
 * reading, 0 if it is refused; and the refusal, 20 or 21, 0 if there is none. */
int64_t auzuplens_reading(int64_t value, uint64_t decimals, uint64_t base_decimals);
uint64_t auzuplens_reading_refusal(int64_t value, uint64_t decimals, uint64_t base_decimals);

/* What auzuplens_find gives where there is no such record. */
#define AUZUPLENS_NONE UINT64_MAX

/* Where the record with this number, counted from 0, begins in the book: the
 * byte of its kind. AUZUPLENS_NONE if there is no such record, or it or one before
 * it is cut off or of no kind. The zeros that a check leaves behind the book end
 * it, so the buffer's length serves as well as the book's. A call walks the book
 * from its front; to walk a book once, go on from a record that begins at `at`:
 *
 *     uint64_t further = auzuplens_find(book + at, book_length - at, 1);
 *
 * This is counted from `at`; behind the last record it is AUZUPLENS_NONE. */
uint64_t auzuplens_find(const uint8_t *book, size_t book_length, uint64_t record);

/* The part of the text that is the name of the record read from byte `beginning`
 * of the book, packed; the two functions below take it apart. It is the empty
 * part at the text's start if that is no byte of the book, as AUZUPLENS_NONE, if
 * what begins there is of no kind, cut off or without a name, or if the name
 * passes the text's end. A name of no bytes is the empty part at its own place. */
uint64_t auzuplens_show(const uint8_t *text, size_t text_length,
                        const uint8_t *book, size_t book_length, uint64_t beginning);

/* Where the part starts in the text. */
static inline size_t auzuplens_name_start(uint64_t part)
{
    return (size_t)(part >> 8);
}

/* How many bytes the part has. */
static inline size_t auzuplens_name_length(uint64_t part)
{
    return (size_t)(part & 0xFF);
}

#ifdef __cplusplus
}
#endif

#endif

/* The archive from C: document 01's text of 63 bytes, its book, records and names,
 * lines and columns, and readings of numbers. Prints what is not as it must be. */
#include <stdio.h>
#include <string.h>

#include "auzuplens.h"

static int wrong = 0;

static void expect(const char *what, unsigned long long found, unsigned long long expected)
{
    if (found != expected) {
        printf("%s: %llu, and not %llu\n", what, found, expected);
        wrong = 1;
    }
}

/* The name of the record with this number, packed: found, then shown. */
static uint64_t name_of(const uint8_t *text, size_t length, const uint8_t *book,
                        size_t book_length, uint64_t record)
{
    uint64_t beginning = auzuplens_find(book, book_length, record);
    return auzuplens_show(text, length, book, book_length, beginning);
}

/* Walks the records of a book once and holds their beginnings against these. */
static void walk(const uint8_t *book, size_t length, const uint64_t *expected, size_t count)
{
    size_t found = 0;
    uint64_t beginning = auzuplens_find(book, length, 0);
    while (beginning != AUZUPLENS_NONE && found < count) {
        expect("beginning of a record", beginning, expected[found++]);
        uint64_t further = auzuplens_find(book + beginning, length - (size_t)beginning, 1);
        beginning = further == AUZUPLENS_NONE ? further : beginning + further;
    }
    expect("records", found, count);
    expect("the end of the records", beginning, AUZUPLENS_NONE);
}

/* The records of the book of 35 bytes, and their names. */
static void records(const uint8_t *text, size_t length, const uint8_t *book)
{
    uint64_t part = name_of(text, length, book, 35, 1);
    expect("start of the name", auzuplens_name_start(part), 47);
    expect("length of the name", auzuplens_name_length(part), 1);
    expect("the same name", auzuplens_show(text, length, book, 35, 6), part);
    expect("name of a range", name_of(text, length, book, 35, 2), 0);
    expect("no record", auzuplens_find(book, 35, 3), AUZUPLENS_NONE);
    expect("its name", name_of(text, length, book, 35, 3), 0);
    expect("name of none", auzuplens_show(text, length, book, 35, AUZUPLENS_NONE), 0);
    expect("name from within a record", auzuplens_show(text, length, book, 35, 7), 0);
    expect("name past the text", auzuplens_show(text, 47, book, 35, 6), 0);
    const uint64_t beginnings[] = {0, 6, 17};
    walk(book, 35, beginnings, 3);
    walk(book, 34, beginnings, 2);
    walk(book, 0, beginnings, 0);
}

/* Checks the text on a buffer of this length and holds all eight numbers of the
 * answer, full of other bits before, against these. */
static void check(const char *what, const char *model, uint8_t *book, size_t book_length,
                  const uint64_t expected[AUZUPLENS_ANSWER])
{
    uint64_t answer[AUZUPLENS_ANSWER];
    memset(answer, 165, sizeof answer);
    auzuplens_check((const uint8_t *)model, strlen(model), book, book_length, answer);
    for (size_t slot = 0; slot < AUZUPLENS_ANSWER; slot++) {
        char word[80];
        snprintf(word, sizeof word, "%s, number %zu of the answer", what, slot);
        expect(word, answer[slot], expected[slot]);
    }
}

/* Refusals behind each sort of line end, and at the end of the text. */
static void lines(uint8_t *book, size_t book_length)
{
    const uint64_t none[] = {5, 0, 1, 1, 0, 0, 0, 0};
    const uint64_t line_feed[] = {7, 10, 2, 2, 0, 0, 0, 0};
    const uint64_t carriage[] = {7, 9, 2, 1, 0, 0, 0, 0};
    const uint64_t both[] = {7, 10, 2, 1, 0, 0, 0, 0};
    const uint64_t turned[] = {7, 10, 3, 1, 0, 0, 0, 0};
    const uint64_t comment[] = {7, 14, 2, 4, 0, 0, 0, 0};
    const uint64_t end[] = {5, 15, 2, 1, 0, 0, 0, 0};
    check("no text", "", book, book_length, none);
    check("behind an LF", "INTERLIS\n 2.3;", book, book_length, line_feed);
    check("behind a CR", "INTERLIS\r2.3;", book, book_length, carriage);
    check("behind a CR LF", "INTERLIS\r\n2.3;", book, book_length, both);
    check("behind an LF CR", "INTERLIS\n\r2.3;", book, book_length, turned);
    check("behind a comment", "INTERLIS/*\r*/ 2.3;", book, book_length, comment);
    check("at the end", "INTERLIS 2.4;\r\n", book, book_length, end);
}

int main(void)
{
    const char *model = "INTERLIS 2.4;MODEL M AT \"u\" VERSION \"1\"=DOMAIN T=-10..40;END M.";
    const uint8_t *text = (const uint8_t *)model;
    size_t length = strlen(model);
    uint8_t book[64];

    memset(book, 165, sizeof book);
    const uint64_t accepted[AUZUPLENS_ANSWER] = {
        [AUZUPLENS_LENGTH] = 35,
        [AUZUPLENS_DEFINITIONS] = 1,
    };
    check("accepted", model, book, 35, accepted);
    expect("first byte", book[0], 1);
    expect("last byte but seven", book[27], 40);
    expect("byte behind the buffer", book[35], 165);

    records(text, length, book);

    const uint64_t refused[AUZUPLENS_ANSWER] = {
        [AUZUPLENS_NUMBER] = 19,
        [AUZUPLENS_PLACE] = 47,
        [AUZUPLENS_LINE] = 1,
        [AUZUPLENS_COLUMN] = 48,
    };
    check("refused", model, book, 34, refused);
    expect("zero", book[0], 0);
    lines(book, sizeof book);

    expect("reading", (unsigned long long)auzuplens_reading(45, 2, 1), 5);
    expect("no refusal", auzuplens_reading_refusal(45, 2, 1), 0);
    int64_t power = 1;
    for (int i = 0; i < 17; i++)
        power *= 10;
    expect("reading that is refused", (unsigned long long)auzuplens_reading(power, 0, 1), 0);
    expect("its refusal", auzuplens_reading_refusal(power, 0, 1), 21);
    return wrong;
}

/*
 * Prints which nodes of the shape that the text on standard input begins with
 * lie on a sheet, or may do so: the rows of those whose boxes touch the sheet,
 * a line each. Row 0 is the shape itself. The sheet is the box around another
 * shape, which is the argument, so that its corners are read as the text is.
 * Where one of the two isn't WKT, or has a number that no box holds (30 and 31),
 * it says so on standard error and stops with status 1.
 *
 *     echo 'MULTIPOINT(1 2,30 4,10 10)' | sheet 'LINESTRING(0 0,10 10)'
 *
 * prints 0, 1 and 3: a box that shares no more than an edge or a corner with
 * the sheet touches it.
 */
#include <stdio.h>
#include <string.h>

#include "doorhollow.h"

/* As many rows as doorhollow_enough_rows says of the most bytes that are read. */
#define ROWS ((DOORHOLLOW_TEXT_LIMIT + 1) / 2)

/* One byte more than a text may have, so that a longer one is refused. */
static uint8_t text[DOORHOLLOW_TEXT_LIMIT + 1];
static uint32_t nodes[ROWS * DOORHOLLOW_NODE_WIDTH];
static uint32_t numbers[ROWS * DOORHOLLOW_NUMBER_WIDTH];
static int64_t table[ROWS * DOORHOLLOW_BOX_WIDTH];

static int fail(const char *what)
{
    fprintf(stderr, "sheet: %s\n", what);
    return 1;
}

/* Whether an answer is a refusal, which is told then. */
static int is_refused(const uint64_t *answer, const char *what)
{
    if (answer[DOORHOLLOW_NUMBER] == DOORHOLLOW_OK)
        return 0;
    fprintf(stderr, "sheet: %s is refused %lu at byte %lu\n", what,
            (unsigned long)answer[DOORHOLLOW_NUMBER],
            (unsigned long)answer[DOORHOLLOW_PLACE]);
    return 1;
}

/*
 * Reads the text's first bytes and fills the table with a box for each node.
 * There are that many nodes, or none after a refusal: a shape has one at least.
 */
static size_t fill(size_t length, const char *what)
{
    uint64_t answer[DOORHOLLOW_ANSWER_PLACES];
    size_t rows = doorhollow_enough_rows(length);
    size_t node_count, number_count;

    doorhollow_read(text, length, nodes, rows * DOORHOLLOW_NODE_WIDTH,
                    numbers, rows * DOORHOLLOW_NUMBER_WIDTH, answer);
    if (is_refused(answer, what))
        return 0;
    node_count = (size_t)answer[DOORHOLLOW_NODE_COUNT];
    number_count = (size_t)answer[DOORHOLLOW_NUMBER_COUNT];
    doorhollow_boxes(text, length, nodes, node_count * DOORHOLLOW_NODE_WIDTH,
                     numbers, number_count * DOORHOLLOW_NUMBER_WIDTH,
                     table, node_count * DOORHOLLOW_BOX_WIDTH, answer);
    return is_refused(answer, what) ? 0 : node_count;
}

/* Whether two boxes share a point. One that isn't there shares none. */
static int touch(const int64_t *a, const int64_t *b)
{
    return a[DOORHOLLOW_HAS_BOX] && b[DOORHOLLOW_HAS_BOX]
        && a[DOORHOLLOW_LOW_X] <= b[DOORHOLLOW_HIGH_X]
        && b[DOORHOLLOW_LOW_X] <= a[DOORHOLLOW_HIGH_X]
        && a[DOORHOLLOW_LOW_Y] <= b[DOORHOLLOW_HIGH_Y]
        && b[DOORHOLLOW_LOW_Y] <= a[DOORHOLLOW_HIGH_Y];
}

int main(int count, char **words)
{
    int64_t sheet[DOORHOLLOW_BOX_WIDTH];
    size_t length, rows, row;

    if (count != 2)
        return fail("a shape is wanted as the argument, whose box is the sheet");
    length = strlen(words[1]);
    if (length > sizeof text)
        length = sizeof text;
    memcpy(text, words[1], length);
    if (fill(length, "the sheet") == 0)
        return 1;
    memcpy(sheet, table, sizeof sheet);

    length = fread(text, 1, sizeof text, stdin);
    if (ferror(stdin))
        return fail("standard input can't be read");
    rows = fill(length, "the text");
    if (rows == 0)
        return 1;
    for (row = 0; row < rows; row++) {
        if (touch(table + row * DOORHOLLOW_BOX_WIDTH, sheet))
            printf("%lu\n", (unsigned long)row);
    }
    return 0;
}

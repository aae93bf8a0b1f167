/*
 * Prints the third part of the shape that the text on standard input begins
 * with: a line with the number texts of each coordinate. Of a line string the
 * third part is its third coordinate, of a polygon, a multi geometry or a
 * collection its third child; one without coordinates is printed as EMPTY.
 * Where there is no third part, and where the text isn't WKT, it says so on
 * standard error and stops with status 1.
 *
 *     echo 'MULTIPOINT(1 2,3 4,5 6)' | third_part      prints 5 6
 */
#include <stdio.h>

#include "doorhollow.h"

/* As many rows as doorhollow_enough_rows says of the most bytes that are read. */
#define ROWS ((DOORHOLLOW_TEXT_LIMIT + 1) / 2)
#define THIRD 2

/* One byte more than a text may have, so that a longer one is refused. */
static uint8_t text[DOORHOLLOW_TEXT_LIMIT + 1];
static uint32_t nodes[ROWS * DOORHOLLOW_NODE_WIDTH];
static uint32_t numbers[ROWS * DOORHOLLOW_NUMBER_WIDTH];

static uint32_t node(size_t row, size_t column)
{
    return nodes[row * DOORHOLLOW_NODE_WIDTH + column];
}

/* How many numbers a coordinate of the row has. */
static size_t width(size_t row)
{
    switch (node(row, DOORHOLLOW_DIMENSION)) {
    case DOORHOLLOW_XY:
        return 2;
    case DOORHOLLOW_XYZM:
        return 4;
    default:
        return 3;
    }
}

static int has_coordinates(size_t row)
{
    return node(row, DOORHOLLOW_KIND) <= DOORHOLLOW_LINESTRING;
}

/* Prints a coordinate, whose numbers begin at a number row. */
static void print_coordinate(size_t number, size_t count)
{
    size_t i;

    for (i = 0; i < count; i++) {
        const uint32_t *span = numbers + (number + i) * DOORHOLLOW_NUMBER_WIDTH;

        if (i > 0)
            putchar(' ');
        fwrite(text + span[DOORHOLLOW_START], 1, span[DOORHOLLOW_TEXT_LENGTH], stdout);
    }
    putchar('\n');
}

/*
 * Goes over one row and all that stand below it, from *row on, and over their
 * numbers, from *number on; both are left at what follows. A row's children
 * come right after it, so that the rows still to be gone over can be counted.
 */
static void pass(size_t *row, size_t *number, int print)
{
    size_t left = 1;
    size_t first = *number;

    while (left > 0) {
        size_t parts = node(*row, DOORHOLLOW_PARTS);

        left--;
        if (has_coordinates(*row)) {
            size_t i;

            for (i = 0; i < parts; i++) {
                if (print)
                    print_coordinate(*number, width(*row));
                *number += width(*row);
            }
        } else {
            left += parts;
        }
        (*row)++;
    }
    if (print && *number == first)
        puts("EMPTY");
}

static int fail(const char *what)
{
    fprintf(stderr, "third_part: %s\n", what);
    return 1;
}

int main(void)
{
    uint64_t answer[DOORHOLLOW_ANSWER_PLACES];
    size_t length = fread(text, 1, sizeof text, stdin);
    size_t rows = doorhollow_enough_rows(length);
    size_t row = 1;
    size_t number = 0;
    int part;

    if (ferror(stdin))
        return fail("standard input can't be read");
    doorhollow_read(text, length, nodes, rows * DOORHOLLOW_NODE_WIDTH,
                    numbers, rows * DOORHOLLOW_NUMBER_WIDTH, answer);
    if (answer[DOORHOLLOW_NUMBER] != DOORHOLLOW_OK) {
        fprintf(stderr, "third_part: refused %lu at byte %lu\n",
                (unsigned long)answer[DOORHOLLOW_NUMBER],
                (unsigned long)answer[DOORHOLLOW_PLACE]);
        return 1;
    }
    if (node(0, DOORHOLLOW_PARTS) <= THIRD)
        return fail("the shape has no third part");
    if (has_coordinates(0)) {
        print_coordinate(THIRD * width(0), width(0));
        return 0;
    }
    for (part = 0; part < THIRD; part++)
        pass(&row, &number, 0);
    pass(&row, &number, 1);
    return 0;
}

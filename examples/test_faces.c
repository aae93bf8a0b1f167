/*
 * Calls every entry of doorhollow.h, and compares answers and slices. It
 * compiles as C99 and as C++. It prints what is wrong and stops with status 1.
 */
#include <stdio.h>
#include <string.h>

#include "doorhollow.h"

static int failures = 0;

static void expect(int holds, const char *what)
{
    if (!holds) {
        fprintf(stderr, "test_faces: %s\n", what);
        failures++;
    }
}

static const uint8_t *bytes(const char *text)
{
    return (const uint8_t *)text;
}

static int is(const uint64_t *answer, uint64_t a, uint64_t b, uint64_t c, uint64_t d)
{
    return answer[0] == a && answer[1] == b && answer[2] == c && answer[3] == d;
}

static int same(const uint32_t *rows, const uint32_t *expected, size_t count)
{
    return memcmp(rows, expected, count * sizeof *rows) == 0;
}

static int is_zero(const void *at, size_t count)
{
    const uint8_t *b = (const uint8_t *)at;

    while (count > 0) {
        if (*b++ != 0)
            return 0;
        count--;
    }
    return 1;
}

/* `MULTIPOINT((1 2),3 4)`: its rows, its canonical text, the strict check. */
static void test_store(void)
{
    static const uint32_t node_rows[9] = {4, 0, 2, 1, 0, 1, 1, 0, 1};
    static const uint32_t number_rows[8] = {12, 1, 14, 1, 17, 1, 19, 1};
    const char *text = "MULTIPOINT((1 2),3 4)";
    uint32_t nodes[12], numbers[11];
    uint8_t out[24];
    uint64_t answer[DOORHOLLOW_ANSWER_PLACES];

    memset(nodes, 255, sizeof nodes);
    memset(numbers, 255, sizeof numbers);
    memset(out, 255, sizeof out);
    memset(answer, 255, sizeof answer);
    doorhollow_read(bytes(text), strlen(text), nodes, 12, numbers, 11, answer);
    expect(is(answer, DOORHOLLOW_OK, 0, 3, 4), "read: the answer");
    expect(same(nodes, node_rows, 9) && is_zero(nodes + 9, 3 * sizeof *nodes), "read: the nodes");
    expect(same(numbers, number_rows, 8) && is_zero(numbers + 8, 3 * sizeof *numbers), "read: the numbers");

    doorhollow_write(bytes(text), strlen(text), nodes, 9, numbers, 8, out, sizeof out, answer);
    expect(is(answer, DOORHOLLOW_OK, 0, 23, 0), "write: the answer");
    expect(memcmp(out, "MULTIPOINT((1 2),(3 4))", 24) == 0, "write: the text and a zero behind it");
    doorhollow_write(bytes(text), strlen(text), nodes, 9, numbers, 8, out, 22, answer);
    expect(is(answer, DOORHOLLOW_NO_ROOM, 0, 0, 0), "write: no room");
    expect(is_zero(out, 22) && out[22] == ')', "write: all of the room is zero, and no more");
    doorhollow_write(bytes(text), strlen(text), nodes, 10, numbers, 8, out, sizeof out, answer);
    expect(is(answer, DOORHOLLOW_ILL_FORMED_STORE, 0, 0, 0), "write: an ill-formed store");
    expect(is_zero(out, sizeof out), "write: all of the room is zero after an ill-formed store");

    doorhollow_strict(bytes(text), strlen(text), nodes, 9, numbers, 8, answer);
    expect(is(answer, DOORHOLLOW_OK, 0, 0, 0), "strict: nothing fails");
    doorhollow_strict(bytes(text), strlen(text), nodes, 9, numbers, 7, answer);
    expect(is(answer, DOORHOLLOW_ILL_FORMED_STORE, 0, 0, 0), "strict: an ill-formed store");
}

static void test_refusals(void)
{
    const char *text = "POINT(1 x)";
    uint32_t nodes[6], numbers[5];
    uint64_t answer[DOORHOLLOW_ANSWER_PLACES];
    static uint8_t longer[DOORHOLLOW_TEXT_LIMIT + 1];

    memset(nodes, 255, sizeof nodes);
    memset(numbers, 255, sizeof numbers);
    doorhollow_read(bytes(text), strlen(text), nodes, 6, numbers, 5, answer);
    expect(is(answer, DOORHOLLOW_NO_Y, 8, 0, 0), "read: no Y");
    expect(is_zero(nodes, sizeof nodes) && is_zero(numbers, sizeof numbers), "read: zero after a refusal");
    doorhollow_read(bytes("POINT(1 2)"), 10, nodes, 2, numbers, 5, answer);
    expect(is(answer, DOORHOLLOW_NO_NODE_ROW, 5, 0, 0), "read: no node row");
    doorhollow_read(bytes("POINT(1 2)"), 10, nodes, 6, numbers, 3, answer);
    expect(is(answer, DOORHOLLOW_NO_NUMBER_ROW, 8, 0, 0), "read: no number row");
    doorhollow_read(bytes("POINT(1 2)\xFF"), 11, nodes, 6, numbers, 5, answer);
    expect(is(answer, DOORHOLLOW_ILL_FORMED_UTF8, 10, 0, 0), "read: ill-formed UTF-8");
    doorhollow_read(bytes("GEOMETRYCOLLECTION(\xE4\xBA\xAC(1 2))"), 29, nodes, 6, numbers, 5, answer);
    expect(is(answer, DOORHOLLOW_NOT_CLOSED, 22, 0, 0), "read: a name that isn't ASCII");
    doorhollow_read(bytes(""), 0, nodes, 0, numbers, 0, answer);
    expect(is(answer, DOORHOLLOW_NO_ROOT, 0, 0, 0), "read: nothing at all");
    memset(longer, ' ', sizeof longer);
    doorhollow_read(longer, sizeof longer, nodes, 6, numbers, 5, answer);
    expect(is(answer, DOORHOLLOW_TEXT_TOO_LONG, DOORHOLLOW_TEXT_LIMIT, 0, 0), "read: too long");
    doorhollow_read(longer, sizeof longer - 1, nodes, 6, numbers, 5, answer);
    expect(is(answer, DOORHOLLOW_NO_ROOT, DOORHOLLOW_TEXT_LIMIT, 0, 0), "read: blanks only");
}

/* A number that goes wrong: the refusal, its place, and what was expected there. */
static void test_number(const char *text, uint64_t number, uint64_t place, uint32_t expected)
{
    uint32_t nodes[6], numbers[8];
    uint64_t answer[DOORHOLLOW_ANSWER_PLACES];

    doorhollow_read(bytes(text), strlen(text), nodes, 6, numbers, 8, answer);
    expect(is(answer, number, place, 0, 0), text);
    expect(doorhollow_expected(bytes(text), strlen(text), (uint32_t)answer[0], (size_t)answer[1]) == expected, text);
}

static void test_numbers(void)
{
    test_number("POINT(1 x)", DOORHOLLOW_NO_Y, 8, DOORHOLLOW_NO_EXPECTATION);
    test_number("POINT(1 +)", DOORHOLLOW_NOTHING_AFTER_PLUS, 8, DOORHOLLOW_EXPECTED_NUMBER_OR_WORD);
    test_number("POINT(1 2 +)", DOORHOLLOW_NOTHING_AFTER_PLUS, 10, DOORHOLLOW_EXPECTED_NUMBER_OR_WORD);
    test_number("POINT(1 2 ++)", DOORHOLLOW_NUMBER_GOES_WRONG, 12, DOORHOLLOW_EXPECTED_NUMBER_OR_WORD);
    test_number("POINT(1 2 +q)", DOORHOLLOW_NUMBER_GOES_WRONG, 11, DOORHOLLOW_EXPECTED_NUMBER_OR_WORD);
    test_number("POINT(1 2 +infi)", DOORHOLLOW_NUMBER_GOES_WRONG, 15, DOORHOLLOW_EXPECTED_REST_OF_WORD);
    test_number("POINT(1 2 4x)", DOORHOLLOW_NUMBER_GOES_WRONG, 11, DOORHOLLOW_EXPECTED_NOTHING_MORE);
    test_number("POINT(1 2 1e)", DOORHOLLOW_NUMBER_GOES_WRONG, 12, DOORHOLLOW_EXPECTED_DIGIT_OR_SIGN);
    test_number("POINT(1 2 1e+)", DOORHOLLOW_NUMBER_GOES_WRONG, 13, DOORHOLLOW_EXPECTED_A_DIGIT);
    test_number("POINT(1 2 .)", DOORHOLLOW_NUMBER_GOES_WRONG, 11, DOORHOLLOW_EXPECTED_A_DIGIT);
    test_number("POINT(1 2 --1)", DOORHOLLOW_NUMBER_GOES_WRONG, 11, DOORHOLLOW_EXPECTED_NUMBER_OR_WORD);
    test_number("POINT(1 2 -infx)", DOORHOLLOW_NUMBER_GOES_WRONG, 14, DOORHOLLOW_EXPECTED_NOTHING_MORE);
    expect(doorhollow_expected(bytes(""), 0, DOORHOLLOW_NUMBER_GOES_WRONG, 9) == DOORHOLLOW_EXPECTED_NUMBER_OR_WORD, "expected: any place may be asked for");
    expect(doorhollow_expected(bytes("4x"), 2, DOORHOLLOW_OK, 1) == DOORHOLLOW_NO_EXPECTATION, "expected: of no refusal");
}

/* How many rows are enough, and a text of 27 bytes that is lent so many. */
static void test_rooms(void)
{
    const char *text = "MULTIPOINT(1 2,3 4,5 6,7 8)";
    uint32_t nodes[13 * DOORHOLLOW_NODE_WIDTH], numbers[13 * DOORHOLLOW_NUMBER_WIDTH];
    uint64_t answer[DOORHOLLOW_ANSWER_PLACES];

    expect(doorhollow_enough_rows(0) == 0 && doorhollow_enough_rows(27) == 13, "enough_rows: half of them");
    expect(doorhollow_enough_rows(DOORHOLLOW_TEXT_LIMIT) == 2097152, "enough_rows: of the longest text");
    doorhollow_read(bytes(text), strlen(text), nodes, 13 * DOORHOLLOW_NODE_WIDTH, numbers, 13 * DOORHOLLOW_NUMBER_WIDTH, answer);
    expect(is(answer, DOORHOLLOW_OK, 0, 5, 8), "read: with enough rows");
}

/* A tree is kept as bytes, read back from them, written again as the same bytes, and its numbers lie in them. */
static void test_stored(void)
{
    static const uint8_t kept[] = {1, 0, 5, 1, 0, 1, 0, 2, 2, 0, 4, 1, 0, 0, 1, 3, 0, 1, '1', 3, 0, 1, '2'};
    const char *text = "POINT(1 +2)";
    uint32_t nodes[3], numbers[4];
    uint64_t answer[DOORHOLLOW_ANSWER_PLACES];
    uint8_t out[sizeof kept + 1], wrong[sizeof kept];

    doorhollow_read(bytes(text), strlen(text), nodes, 3, numbers, 4, answer);
    doorhollow_write_stored_1(bytes(text), strlen(text), nodes, 3, numbers, 4, out, sizeof out, answer);
    expect(is(answer, DOORHOLLOW_OK, 0, sizeof kept, 0), "write_stored: a point");
    expect(memcmp(out, kept, sizeof kept) == 0 && out[sizeof kept] == 0, "write_stored: its bytes, then zero");
    doorhollow_write_stored_1(bytes(text), strlen(text), nodes, 3, numbers, 4, out, sizeof kept - 1, answer);
    expect(is(answer, DOORHOLLOW_NO_ROOM, 0, 0, 0) && out[0] == 0, "write_stored: no room");
    doorhollow_write_stored_1(bytes(text), strlen(text), nodes, 3, numbers, 2, out, sizeof out, answer);
    expect(is(answer, DOORHOLLOW_ILL_FORMED_STORE, 0, 0, 0), "write_stored: no store");
    doorhollow_read_stored_1(kept, sizeof kept, nodes, 3, numbers, 4, answer);
    expect(is(answer, DOORHOLLOW_OK, 0, 1, 2), "read_stored: a point");
    expect(numbers[0] == 18 && numbers[1] == 1 && numbers[2] == 22 && numbers[3] == 1, "read_stored: spans in the bytes");
    doorhollow_write(kept, sizeof kept, nodes, 3, numbers, 4, out, sizeof out, answer);
    expect(is(answer, DOORHOLLOW_OK, 0, 10, 0) && memcmp(out, "POINT(1 2)", 10) == 0, "read_stored: its canonical text");
    doorhollow_read_stored_1(kept, sizeof kept, nodes, 2, numbers, 4, answer);
    expect(is(answer, DOORHOLLOW_NO_NODE_ROW, 8, 0, 0) && numbers[0] == 0, "read_stored: no node row");
    doorhollow_read_stored_1(kept, sizeof kept, nodes, 3, numbers, 3, answer);
    expect(is(answer, DOORHOLLOW_NO_NUMBER_ROW, 19, 0, 0), "read_stored: no number row");
    doorhollow_read_stored_1(kept, sizeof kept - 1, nodes, 3, numbers, 4, answer);
    expect(is(answer, DOORHOLLOW_FAULTY_FIELD, 19, 0, 0), "read_stored: a field is cut");
    memcpy(wrong, kept, sizeof kept);
    wrong[3] = 2;
    doorhollow_read_stored_1(wrong, sizeof wrong, nodes, 3, numbers, 4, answer);
    expect(is(answer, DOORHOLLOW_UNKNOWN_VERSION, 3, 0, 0), "read_stored: another version");
    wrong[3] = 1;
    wrong[18] = 'x';
    doorhollow_read_stored_1(wrong, sizeof wrong, nodes, 0, numbers, 0, answer);
    expect(is(answer, DOORHOLLOW_ILL_FORMED_STORE, 0, 0, 0), "read_stored: no tree, before any row is asked for");
}

/* The same tree in version 2, and each version's entry on the other's bytes. */
static void test_stored_2(void)
{
    static const uint8_t kept[] = {1, 0, 9, 2, 0, 0, 0, 1, 0, 0, 0, 2, 2, 0, 6, 1, 0, 0, 0, 0, 1, 3, 0, 1, '1', 3, 0, 1, '2'};
    static const uint8_t other[] = {1, 0, 5, 1, 0, 1, 0, 2, 2, 0, 4, 1, 0, 0, 1, 3, 0, 1, '1', 3, 0, 1, '2'};
    static const uint8_t headless[] = {1, 255, 255, 2};
    const char *text = "POINT(1 +2)";
    uint32_t nodes[3], numbers[4];
    uint64_t answer[DOORHOLLOW_ANSWER_PLACES];
    uint8_t out[sizeof kept + 1];

    doorhollow_read(bytes(text), strlen(text), nodes, 3, numbers, 4, answer);
    doorhollow_write_stored_2(bytes(text), strlen(text), nodes, 3, numbers, 4, out, sizeof out, answer);
    expect(is(answer, DOORHOLLOW_OK, 0, sizeof kept, 0), "write_stored_2: a point");
    expect(memcmp(out, kept, sizeof kept) == 0 && out[sizeof kept] == 0, "write_stored_2: its bytes, then zero");
    doorhollow_write_stored_2(bytes(text), strlen(text), nodes, 3, numbers, 4, out, sizeof kept - 1, answer);
    expect(is(answer, DOORHOLLOW_NO_ROOM, 0, 0, 0) && is_zero(out, sizeof kept - 1), "write_stored_2: no room");
    doorhollow_read_stored_2(kept, sizeof kept, nodes, 3, numbers, 4, answer);
    expect(is(answer, DOORHOLLOW_OK, 0, 1, 2), "read_stored_2: a point");
    expect(numbers[0] == 24 && numbers[1] == 1 && numbers[2] == 28 && numbers[3] == 1, "read_stored_2: spans in the bytes");
    doorhollow_read_stored_2(kept, sizeof kept, nodes, 2, numbers, 4, answer);
    expect(is(answer, DOORHOLLOW_NO_NODE_ROW, 12, 0, 0), "read_stored_2: no node row");
    doorhollow_read_stored_1(kept, sizeof kept, nodes, 3, numbers, 4, answer);
    expect(is(answer, DOORHOLLOW_UNKNOWN_VERSION, 3, 0, 0) && is_zero(numbers, sizeof numbers), "read_stored_1: version 2");
    doorhollow_read_stored_2(other, sizeof other, nodes, 3, numbers, 4, answer);
    expect(is(answer, DOORHOLLOW_UNKNOWN_VERSION, 3, 0, 0), "read_stored_2: version 1");
    doorhollow_read_stored_1(headless, sizeof headless, nodes, 3, numbers, 4, answer);
    expect(is(answer, DOORHOLLOW_UNKNOWN_VERSION, 3, 0, 0), "read_stored_1: version 2, whatever its length");
    doorhollow_read_stored_2(headless, sizeof headless, nodes, 3, numbers, 4, answer);
    expect(is(answer, DOORHOLLOW_FAULTY_FIELD, 0, 0, 0), "read_stored_2: a head of another length");
}

/* A point as it is kept in each version. */
static const uint8_t point_1[] = {1, 0, 5, 1, 0, 1, 0, 2, 2, 0, 4, 1, 0, 0, 1, 3, 0, 1, '1', 3, 0, 1, '2'};
static const uint8_t point_2[] = {1, 0, 9, 2, 0, 0, 0, 1, 0, 0, 0, 2, 2, 0, 6, 1, 0, 0, 0, 0, 1, 3, 0, 1, '1', 3, 0, 1, '2'};

static int is_moved(const uint64_t *answer, uint64_t length)
{
    return is(answer, DOORHOLLOW_OK, 0, length, 1) && answer[DOORHOLLOW_MOVED_NUMBER_COUNT] == 2;
}

static int is_not_moved(const uint64_t *answer, uint64_t number, uint64_t place)
{
    return is(answer, number, place, 0, 0) && answer[DOORHOLLOW_MOVED_NUMBER_COUNT] == 0;
}

/* A tree is moved to version 2 and back. Its numbers lie in the bytes that were read. */
static void test_moves(void)
{
    static const uint32_t node_row[3] = {1, 0, 1};
    static const uint32_t spans_1[4] = {18, 1, 22, 1};
    static const uint32_t spans_2[4] = {24, 1, 28, 1};
    uint32_t nodes[5], numbers[5];
    uint64_t answer[DOORHOLLOW_MOVE_PLACES];
    uint8_t out[sizeof point_2 + 1];

    memset(nodes, 255, sizeof nodes);
    memset(numbers, 255, sizeof numbers);
    memset(out, 255, sizeof out);
    doorhollow_move_stored_1_to_2(point_1, sizeof point_1, nodes, 5, numbers, 5, out, sizeof out, answer);
    expect(is_moved(answer, sizeof point_2), "move_stored_1_to_2: a point");
    expect(memcmp(out, point_2, sizeof point_2) == 0 && out[sizeof point_2] == 0, "move_stored_1_to_2: its bytes, then zero");
    expect(same(nodes, node_row, 3) && is_zero(nodes + 3, 2 * sizeof *nodes), "move_stored_1_to_2: the nodes");
    expect(same(numbers, spans_1, 4) && numbers[4] == 0, "move_stored_1_to_2: spans in the bytes");

    memset(nodes, 255, sizeof nodes);
    memset(numbers, 255, sizeof numbers);
    memset(out, 255, sizeof out);
    doorhollow_move_stored_2_to_1(point_2, sizeof point_2, nodes, 5, numbers, 5, out, sizeof out, answer);
    expect(is_moved(answer, sizeof point_1), "move_stored_2_to_1: a point");
    expect(memcmp(out, point_1, sizeof point_1) == 0, "move_stored_2_to_1: its bytes");
    expect(is_zero(out + sizeof point_1, sizeof out - sizeof point_1), "move_stored_2_to_1: zero behind them");
    expect(same(nodes, node_row, 3) && is_zero(nodes + 3, 2 * sizeof *nodes), "move_stored_2_to_1: the nodes");
    expect(same(numbers, spans_2, 4) && numbers[4] == 0, "move_stored_2_to_1: spans in the bytes");
}

/* After a refusal all that was lent is zero, and nothing behind it is touched. */
static void test_move_refusals(void)
{
    uint32_t nodes[4], numbers[5];
    uint64_t answer[DOORHOLLOW_MOVE_PLACES];
    uint8_t out[sizeof point_2];

    memset(nodes, 255, sizeof nodes);
    memset(numbers, 255, sizeof numbers);
    memset(out, 255, sizeof out);
    doorhollow_move_stored_1_to_2(point_1, sizeof point_1, nodes, 3, numbers, 4, out, sizeof point_2 - 1, answer);
    expect(is_not_moved(answer, DOORHOLLOW_NO_ROOM, 0), "move_stored_1_to_2: no room");
    expect(is_zero(nodes, 3 * sizeof *nodes) && is_zero(numbers, 4 * sizeof *numbers), "move_stored_1_to_2: no rows after a refusal");
    expect(is_zero(out, sizeof point_2 - 1), "move_stored_1_to_2: no bytes after a refusal");
    expect(nodes[3] == UINT32_MAX && numbers[4] == UINT32_MAX && out[sizeof point_2 - 1] == 255, "move_stored_1_to_2: no more than was lent");

    memset(out, 255, sizeof out);
    doorhollow_move_stored_2_to_1(point_1, sizeof point_1, nodes, 3, numbers, 4, out, sizeof point_1, answer);
    expect(is_not_moved(answer, DOORHOLLOW_UNKNOWN_VERSION, 3), "move_stored_2_to_1: version 1");
    expect(is_zero(out, sizeof point_1) && out[sizeof point_1] == 255, "move_stored_2_to_1: no bytes after a refusal by the reader");
    doorhollow_move_stored_1_to_2(point_2, sizeof point_2, nodes, 3, numbers, 4, out, sizeof out, answer);
    expect(is_not_moved(answer, DOORHOLLOW_UNKNOWN_VERSION, 3), "move_stored_1_to_2: version 2");
    doorhollow_move_stored_2_to_1(point_2, sizeof point_2, nodes, 2, numbers, 4, out, 0, answer);
    expect(is_not_moved(answer, DOORHOLLOW_NO_NODE_ROW, 12), "move_stored_2_to_1: no node row, before no room");
    doorhollow_move_stored_2_to_1(point_2, sizeof point_2, nodes, 3, numbers, 3, out, 0, answer);
    expect(is_not_moved(answer, DOORHOLLOW_NO_NUMBER_ROW, 25), "move_stored_2_to_1: no number row, before no room");
}

#define MOST_NODES 65535 /* that version 1 counts */

/* Stored bytes of version 2: a multi line string of so many empty line strings. Answers how many bytes they are. */
static size_t store_lines(uint8_t *stored, uint32_t lines)
{
    static const uint8_t front[] = {1, 0, 9, 2, 0, 0, 0, 0, 0, 0, 0, 0, 2, 0, 6, 5, 0, 0, 0, 0, 0};
    static const uint8_t line[] = {2, 0, 6, 2, 0, 0, 0, 0, 0};
    uint32_t i;

    memcpy(stored, front, sizeof front);
    for (i = 0; i < 4; i++) {
        stored[7 - i] = (uint8_t)((lines + 1) >> (8 * i));
        stored[20 - i] = (uint8_t)(lines >> (8 * i));
    }
    for (i = 0; i < lines; i++)
        memcpy(stored + sizeof front + i * sizeof line, line, sizeof line);
    return sizeof front + lines * sizeof line;
}

/* The most nodes go back to version 1 and up again; one more doesn't fit, whatever the room. */
static void test_large_moves(void)
{
    static uint8_t stored[12 + 9 * (MOST_NODES + 1)], back[sizeof stored], again[sizeof stored];
    static uint32_t nodes[3 * (MOST_NODES + 1)];
    size_t length = store_lines(stored, MOST_NODES - 1);
    uint32_t numbers[1];
    uint64_t answer[DOORHOLLOW_MOVE_PLACES];

    doorhollow_move_stored_2_to_1(stored, length, nodes, 3 * MOST_NODES, numbers, 0, back, sizeof back, answer);
    expect(is(answer, DOORHOLLOW_OK, 0, 8 + 7 * MOST_NODES, MOST_NODES), "move_stored_2_to_1: the most nodes");
    doorhollow_move_stored_1_to_2(back, (size_t)answer[DOORHOLLOW_MOVED_LENGTH], nodes, 3 * MOST_NODES, numbers, 0, again, length, answer);
    expect(is(answer, DOORHOLLOW_OK, 0, length, MOST_NODES), "move_stored_1_to_2: the most nodes");
    expect(memcmp(again, stored, length) == 0, "move_stored_1_to_2: the bytes that were moved back");

    length = store_lines(stored, MOST_NODES);
    doorhollow_move_stored_2_to_1(stored, length, nodes, 3 * (MOST_NODES + 1), numbers, 0, back, sizeof back, answer);
    expect(is_not_moved(answer, DOORHOLLOW_DOES_NOT_FIT, 0), "move_stored_2_to_1: a node too many");
    expect(is_zero(nodes, sizeof nodes) && is_zero(back, sizeof back), "move_stored_2_to_1: nothing is left of them");
    doorhollow_move_stored_2_to_1(stored, length, nodes, 3 * (MOST_NODES + 1), numbers, 0, back, 0, answer);
    expect(is_not_moved(answer, DOORHOLLOW_DOES_NOT_FIT, 0), "move_stored_2_to_1: a node too many, before no room");
}

/* The token from a place on, and the place to ask from next. */
static void test_token(size_t from, size_t next, uint64_t sort, uint64_t place, uint64_t start, uint64_t length)
{
    const char *text = "POINT (+1,4x)";
    uint64_t answer[DOORHOLLOW_ANSWER_PLACES];

    expect(doorhollow_token(bytes(text), strlen(text), from, answer) == next, "token: where the next one is asked for");
    expect(is(answer, sort, place, start, length), "token: sort, place, start, length");
}

static void test_tokens(void)
{
    test_token(0, 6, DOORHOLLOW_WORD, 0, 0, 5);
    test_token(5, 7, DOORHOLLOW_PAREN_OPEN, 6, 0, 0);
    test_token(7, 9, DOORHOLLOW_NUMBER_TOKEN, 7, 8, 1);
    test_token(9, 10, DOORHOLLOW_COMMA, 9, 0, 0);
    test_token(10, 12, DOORHOLLOW_BAD_NUMBER, 10, 0, 0);
    test_token(12, 13, DOORHOLLOW_PAREN_CLOSE, 12, 0, 0);
    test_token(13, 13, DOORHOLLOW_NO_TOKEN, 13, 0, 0);
    test_token(99, 13, DOORHOLLOW_NO_TOKEN, 13, 0, 0);
}

static void test_strict(void)
{
    const char *text = "POLYGON((0 0,1 0,1 1,0 1))";
    uint32_t nodes[6], numbers[16];
    uint64_t answer[DOORHOLLOW_ANSWER_PLACES];

    doorhollow_read(bytes(text), strlen(text), nodes, 6, numbers, 16, answer);
    expect(is(answer, DOORHOLLOW_OK, 0, 2, 8), "read: a polygon");
    doorhollow_strict(bytes(text), strlen(text), nodes, 6, numbers, 16, answer);
    expect(answer[DOORHOLLOW_LETTER] == 'C' && answer[DOORHOLLOW_ROW] == 1, "strict: a ring that isn't closed");
}

/* The boxes of a collection: of a point, of nothing, and of a collection whose sides are rounded outward. */
static void test_boxes(void)
{
    static const int64_t boxes[5 * DOORHOLLOW_BOX_WIDTH] = {
        1, -1, 15000000, -20000000, 30000001, /* all of them */
        1, 15000000, 15000000, -20000000, -20000000,
        0, 0, 0, 0, 0,
        1, -1, 0, 30000000, 30000001,
        1, -1, 0, 30000000, 30000001,
    };
    const char *text = "GEOMETRYCOLLECTION(POINT(1.5 -2),LINESTRING EMPTY,GEOMETRYCOLLECTION(POINT Z(-0.00000001 3.00000009 +inf)))";
    uint32_t nodes[15], numbers[10];
    int64_t table[27];
    uint64_t answer[DOORHOLLOW_ANSWER_PLACES];

    doorhollow_read(bytes(text), strlen(text), nodes, 15, numbers, 10, answer);
    expect(is(answer, DOORHOLLOW_OK, 0, 5, 5), "read: a collection");
    memset(table, 255, sizeof table);
    doorhollow_boxes(bytes(text), strlen(text), nodes, 15, numbers, 10, table, 27, answer);
    expect(is(answer, DOORHOLLOW_OK, 0, 0, 0), "boxes: the answer");
    expect(memcmp(table, boxes, sizeof boxes) == 0, "boxes: the rows");
    expect(is_zero(table + 25, 2 * sizeof *table), "boxes: zero behind the rows");
    expect(table[DOORHOLLOW_HIGH_X] * 2 == 3 * DOORHOLLOW_UNITS_IN_ONE, "boxes: units");

    memset(table, 255, sizeof table);
    doorhollow_boxes(bytes(text), strlen(text), nodes, 15, numbers, 10, table, 24, answer);
    expect(is(answer, DOORHOLLOW_NO_ROOM, 0, 0, 0), "boxes: a row too few");
    expect(is_zero(table, 24 * sizeof *table) && table[24] == -1, "boxes: all of the table is zero, and no more");
    memset(table, 255, sizeof table);
    doorhollow_boxes(bytes(text), strlen(text), nodes, 15, numbers, 8, table, 24, answer);
    expect(is(answer, DOORHOLLOW_ILL_FORMED_STORE, 0, 0, 0), "boxes: an ill-formed store, before the room");
    expect(is_zero(table, 24 * sizeof *table), "boxes: all of the table is zero after an ill-formed store");
}

/* A line string whose numbers have a box or are refused, and where. */
static void test_box(const char *text, uint64_t number, uint64_t place)
{
    uint32_t nodes[3], numbers[12];
    int64_t table[5];
    uint64_t answer[DOORHOLLOW_ANSWER_PLACES];

    doorhollow_read(bytes(text), strlen(text), nodes, 3, numbers, 12, answer);
    expect(answer[DOORHOLLOW_NUMBER] == DOORHOLLOW_OK, text);
    memset(table, 255, sizeof table);
    doorhollow_boxes(bytes(text), strlen(text), nodes, 3, numbers, (size_t)answer[DOORHOLLOW_NUMBER_COUNT] * 2, table, 5, answer);
    expect(is(answer, number, place, 0, 0), text);
    expect(number == DOORHOLLOW_OK ? table[DOORHOLLOW_HAS_BOX] == 1 : is_zero(table, sizeof table), text);
}

static void test_box_refusals(void)
{
    test_box("LINESTRING(1 2,10000000000 -1e10)", DOORHOLLOW_OK, 0);
    test_box("LINESTRING(1 2,3 10000000000.00000001)", DOORHOLLOW_NUMBER_TOO_LARGE, 17);
    test_box("LINESTRING(1e-9999 0e9999)", DOORHOLLOW_OK, 0);
    test_box("LINESTRING(1 0e-10000)", DOORHOLLOW_NUMBER_TOO_LARGE, 13);
    test_box("LINESTRING(1 2,3 -nan,1e99 4)", DOORHOLLOW_NO_FINITE_NUMBER, 17);
    test_box("LINESTRING(1 2,1e99 -nan)", DOORHOLLOW_NUMBER_TOO_LARGE, 15);
    test_box("LINESTRING(1 +Infinity)", DOORHOLLOW_NO_FINITE_NUMBER, 14);
    test_box("LINESTRING ZM(1 2 1e99 +nan)", DOORHOLLOW_OK, 0);
}

static void test_infer_type(void)
{
    uint64_t answer[DOORHOLLOW_ANSWER_PLACES];

    doorhollow_infer_type(bytes("multipoint zm ("), 15, answer);
    expect(is(answer, DOORHOLLOW_OK, 0, DOORHOLLOW_MULTIPOINT, DOORHOLLOW_XYZM), "infer_type: MULTIPOINT ZM");
    doorhollow_infer_type(bytes("POINTEMPTY"), 10, answer);
    expect(is(answer, DOORHOLLOW_EMPTY_WITHOUT_SPACE, 0, 0, 0), "infer_type: no space");
    doorhollow_infer_type(bytes("POINT EMPTY\xE4\xBA\xAC"), 14, answer);
    expect(is(answer, DOORHOLLOW_NON_ASCII, 11, 0, 0), "infer_type: not ASCII");
}

int main(void)
{
    test_store();
    test_refusals();
    test_numbers();
    test_rooms();
    test_stored();
    test_stored_2();
    test_moves();
    test_move_refusals();
    test_large_moves();
    test_tokens();
    test_strict();
    test_boxes();
    test_box_refusals();
    test_infer_type();
    return failures > 0;
}

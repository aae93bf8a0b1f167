/*
 * Moves the stored tree on standard input to the other version, and writes it to
 * standard output: bytes of version 1 as version 2, and bytes of version 2 as
 * version 1. Where they are no stored tree, or one that doesn't fit version 1
 * (27), it says so on standard error, writes nothing and stops with status 1.
 *
 *     move <shelf.1 >shelf.2
 */
#include <stdio.h>
#include <stdlib.h>

#include "doorhollow.h"

/* Where stored bytes have their version. */
#define VERSION 3

/* The fewest bytes that a node and a number have, in either version. */
#define NODE_BYTES 7
#define NUMBER_BYTES 3

/* One byte more than a stored tree may have, so that a longer one is refused. */
static uint8_t bytes[DOORHOLLOW_STORED_2_LIMIT + 1];

/* What a move is lent. */
struct lent {
    uint32_t *nodes;
    size_t node_places;
    uint32_t *numbers;
    size_t number_places;
    uint8_t *out;
    size_t room;
};

static int fail(const char *what)
{
    fprintf(stderr, "move: %s\n", what);
    return 1;
}

/*
 * Rows and room that are enough for any tree of so many bytes, either way.
 * Whether there is memory for them. One place more is asked for, as what is lent
 * isn't NULL, also where it has no places.
 */
static int lend(struct lent *lent, size_t byte_count)
{
    size_t node_rows = byte_count / NODE_BYTES;
    size_t number_rows = byte_count / NUMBER_BYTES;

    lent->node_places = node_rows * DOORHOLLOW_NODE_WIDTH;
    lent->number_places = number_rows * DOORHOLLOW_NUMBER_WIDTH;
    lent->room = byte_count + 4 + node_rows * 2;
    lent->nodes = malloc((lent->node_places + 1) * sizeof *lent->nodes);
    lent->numbers = malloc((lent->number_places + 1) * sizeof *lent->numbers);
    lent->out = malloc(lent->room);
    return lent->nodes != NULL && lent->numbers != NULL && lent->out != NULL;
}

static void give_back(struct lent *lent)
{
    free(lent->nodes);
    free(lent->numbers);
    free(lent->out);
}

/* Moves the first bytes. Those of no known version are refused either way. */
static void move(size_t byte_count, const struct lent *lent, uint64_t *answer)
{
    if (bytes[VERSION] == 2)
        doorhollow_move_stored_2_to_1(bytes, byte_count, lent->nodes, lent->node_places,
                                      lent->numbers, lent->number_places,
                                      lent->out, lent->room, answer);
    else
        doorhollow_move_stored_1_to_2(bytes, byte_count, lent->nodes, lent->node_places,
                                      lent->numbers, lent->number_places,
                                      lent->out, lent->room, answer);
}

/* Writes what was moved, or tells the refusal. The status. */
static int tell(const struct lent *lent, const uint64_t *answer)
{
    size_t length = (size_t)answer[DOORHOLLOW_MOVED_LENGTH];

    if (answer[DOORHOLLOW_NUMBER] != DOORHOLLOW_OK) {
        fprintf(stderr, "move: refused %lu at byte %lu\n",
                (unsigned long)answer[DOORHOLLOW_NUMBER],
                (unsigned long)answer[DOORHOLLOW_PLACE]);
        return 1;
    }
    if (fwrite(lent->out, 1, length, stdout) != length || fflush(stdout) != 0)
        return fail("standard output can't be written");
    return 0;
}

int main(void)
{
    uint64_t answer[DOORHOLLOW_MOVE_PLACES];
    size_t byte_count = fread(bytes, 1, sizeof bytes, stdin);
    struct lent lent;
    int status;

    if (ferror(stdin))
        return fail("standard input can't be read");
    if (!lend(&lent, byte_count))
        return fail("there is no memory for so many bytes");
    move(byte_count, &lent, answer);
    status = tell(&lent, answer);
    give_back(&lent);
    return status;
}

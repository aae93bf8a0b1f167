/*
 * Calls every entry of doorhollow.h on the text on standard input, each twice: on
 * the thread that the program starts with, whose stack `ulimit -s` says, and on a
 * thread with a stack of 256 KiB that was filled with one byte before. Prints a
 * line for each entry: its name, the number that it answers, and how far down from
 * its caller that stack was written to, in bytes. An entry for which the text has
 * nothing, as it is refused or doesn't fit a stored form, has no line.
 */
#define _GNU_SOURCE
#include <pthread.h>
#include <stdint.h>
#include <stdio.h>
#include <stdlib.h>
#include <string.h>
#include <sys/mman.h>

#include "../include/doorhollow.h"

#define STACK_BYTES (256 * 1024)
#define GUARD_BYTES (64 * 1024)
#define PAINT 0xA5

/* What the entries are lent. */
struct lent {
    uint8_t *text;
    size_t text_length;
    uint32_t *nodes;
    size_t node_places;
    uint32_t *numbers;
    size_t number_places;
    uint8_t *out;
    size_t room;
    uint8_t *stored;
    size_t stored_length;
    int64_t *table;
    size_t table_places;
    uint64_t answer[DOORHOLLOW_MOVE_PLACES]; /* the most that an entry fills */
};

typedef void call_entry(struct lent *);

static void stop(const char *why)
{
    fprintf(stderr, "stack: %s\n", why);
    exit(2);
}

static void *allocated(size_t count, size_t size)
{
    void *places = calloc(count + 1, size);

    if (places == NULL)
        stop("there is no memory");
    return places;
}

/* ---- the entries ---- */

static void call_read(struct lent *lent)
{
    doorhollow_read(lent->text, lent->text_length, lent->nodes, lent->node_places, lent->numbers,
                    lent->number_places, lent->answer);
}

static void call_infer_type(struct lent *lent)
{
    doorhollow_infer_type(lent->text, lent->text_length, lent->answer);
}

static void call_write(struct lent *lent)
{
    doorhollow_write(lent->text, lent->text_length, lent->nodes, lent->node_places, lent->numbers,
                     lent->number_places, lent->out, lent->room, lent->answer);
}

static void call_strict(struct lent *lent)
{
    doorhollow_strict(lent->text, lent->text_length, lent->nodes, lent->node_places,
                      lent->numbers, lent->number_places, lent->answer);
}

static void call_boxes(struct lent *lent)
{
    doorhollow_boxes(lent->text, lent->text_length, lent->nodes, lent->node_places, lent->numbers,
                     lent->number_places, lent->table, lent->table_places, lent->answer);
}

static void call_write_stored_1(struct lent *lent)
{
    doorhollow_write_stored_1(lent->text, lent->text_length, lent->nodes, lent->node_places,
                              lent->numbers, lent->number_places, lent->out, lent->room,
                              lent->answer);
}

static void call_write_stored_2(struct lent *lent)
{
    doorhollow_write_stored_2(lent->text, lent->text_length, lent->nodes, lent->node_places,
                              lent->numbers, lent->number_places, lent->out, lent->room,
                              lent->answer);
}

static void call_read_stored_1(struct lent *lent)
{
    doorhollow_read_stored_1(lent->stored, lent->stored_length, lent->nodes, lent->node_places,
                             lent->numbers, lent->number_places, lent->answer);
}

static void call_read_stored_2(struct lent *lent)
{
    doorhollow_read_stored_2(lent->stored, lent->stored_length, lent->nodes, lent->node_places,
                             lent->numbers, lent->number_places, lent->answer);
}

static void call_move_stored_1_to_2(struct lent *lent)
{
    doorhollow_move_stored_1_to_2(lent->stored, lent->stored_length, lent->nodes,
                                  lent->node_places, lent->numbers, lent->number_places,
                                  lent->out, lent->room, lent->answer);
}

static void call_move_stored_2_to_1(struct lent *lent)
{
    doorhollow_move_stored_2_to_1(lent->stored, lent->stored_length, lent->nodes,
                                  lent->node_places, lent->numbers, lent->number_places,
                                  lent->out, lent->room, lent->answer);
}

/* ---- the painted stack ---- */

static uint8_t *stack;

/* A call for the thread, and where the thread's own frame stands. */
struct errand {
    call_entry *call;
    struct lent *lent;
    uint8_t *caller;
};

static void *run_errand(void *given)
{
    struct errand *errand = given;
    volatile uint8_t here = 0;

    errand->caller = (uint8_t *)(uintptr_t)&here;
    errand->call(errand->lent);
    return NULL;
}

/* Below the stack nothing may be touched. */
static void make_stack(void)
{
    uint8_t *all = mmap(NULL, GUARD_BYTES + STACK_BYTES, PROT_READ | PROT_WRITE,
                        MAP_PRIVATE | MAP_ANONYMOUS, -1, 0);

    if (all == MAP_FAILED || mprotect(all, GUARD_BYTES, PROT_NONE) != 0)
        stop("there is no memory for a stack");
    stack = all + GUARD_BYTES;
}

/* How far down from its caller a call on the painted stack writes. */
static size_t stack_taken(call_entry *call, struct lent *lent)
{
    struct errand errand = {call, lent, NULL};
    pthread_attr_t attributes;
    pthread_t thread;
    uint8_t *lowest = stack;

    memset(stack, PAINT, STACK_BYTES);
    if (pthread_attr_init(&attributes) != 0 ||
        pthread_attr_setstack(&attributes, stack, STACK_BYTES) != 0 ||
        pthread_create(&thread, &attributes, run_errand, &errand) != 0 ||
        pthread_join(thread, NULL) != 0)
        stop("a thread doesn't run");
    pthread_attr_destroy(&attributes);
    while (*lowest == PAINT)
        lowest++;
    return (size_t)(errand.caller - lowest);
}

/* Calls on both stacks, prints the line, and answers whether it was accepted. */
static int told(const char *name, call_entry *call, struct lent *lent)
{
    size_t taken;

    call(lent);
    taken = stack_taken(call, lent);
    printf("%s %lu %lu\n", name, (unsigned long)lent->answer[DOORHOLLOW_NUMBER],
           (unsigned long)taken);
    return lent->answer[DOORHOLLOW_NUMBER] == DOORHOLLOW_OK;
}

/* ---- the text ---- */

static void read_text(struct lent *lent)
{
    lent->text = allocated(DOORHOLLOW_TEXT_LIMIT, 1);
    lent->text_length = fread(lent->text, 1, DOORHOLLOW_TEXT_LIMIT, stdin);
}

/* Rows for any text of this length. */
static void lend_rows(struct lent *lent)
{
    size_t rows = doorhollow_enough_rows(lent->text_length);

    lent->node_places = rows * DOORHOLLOW_NODE_WIDTH;
    lent->number_places = rows * DOORHOLLOW_NUMBER_WIDTH;
    lent->nodes = allocated(lent->node_places, sizeof *lent->nodes);
    lent->numbers = allocated(lent->number_places, sizeof *lent->numbers);
}

/*
 * Only the used rows are a store. A stored form has 12 bytes, 9 for each node, and
 * 3 for each number with those of its text; a canonical text has fewer than twice
 * the text's bytes.
 */
static void lend_used_rows(struct lent *lent)
{
    size_t nodes = (size_t)lent->answer[DOORHOLLOW_NODE_COUNT];
    size_t numbers = (size_t)lent->answer[DOORHOLLOW_NUMBER_COUNT];

    lent->node_places = nodes * DOORHOLLOW_NODE_WIDTH;
    lent->number_places = numbers * DOORHOLLOW_NUMBER_WIDTH;
    lent->table_places = nodes * DOORHOLLOW_BOX_WIDTH;
    lent->table = allocated(lent->table_places, sizeof *lent->table);
    lent->room = 12 + 9 * nodes + 3 * numbers + 2 * lent->text_length;
    lent->out = allocated(lent->room, 1);
    lent->stored = allocated(lent->room, 1);
}

/* The bytes that were written are read or moved next, with rows of as many places. */
static void keep_written(struct lent *lent)
{
    lent->stored_length = (size_t)lent->answer[DOORHOLLOW_LENGTH];
    memcpy(lent->stored, lent->out, lent->stored_length);
}

/* The reading or the move goes into rows and a room of its own: the others are still needed. */
static void tell_of_stored(const char *name, call_entry *call, const struct lent *lent)
{
    struct lent other = *lent;

    keep_written(&other);
    other.nodes = allocated(lent->node_places, sizeof *other.nodes);
    other.numbers = allocated(lent->number_places, sizeof *other.numbers);
    other.out = allocated(lent->room, 1);
    told(name, call, &other);
    free(other.nodes);
    free(other.numbers);
    free(other.out);
}

static void tell_of_version_1(const struct lent *lent)
{
    tell_of_stored("read_stored_1", call_read_stored_1, lent);
    tell_of_stored("move_stored_1_to_2", call_move_stored_1_to_2, lent);
}

static void tell_of_version_2(const struct lent *lent)
{
    tell_of_stored("read_stored_2", call_read_stored_2, lent);
    tell_of_stored("move_stored_2_to_1", call_move_stored_2_to_1, lent);
}

/*
 * A tree that doesn't fit version 1 isn't moved back to it; and what reads version 1
 * is handed it as version 2, which it refuses.
 */
static void tell_stored(struct lent *lent)
{
    int fits = told("write_stored_1", call_write_stored_1, lent);

    if (fits)
        tell_of_version_1(lent);
    if (!told("write_stored_2", call_write_stored_2, lent))
        return;
    tell_of_version_2(lent);
    if (!fits)
        tell_of_version_1(lent);
}

int main(void)
{
    static struct lent lent;

    make_stack();
    read_text(&lent);
    lend_rows(&lent);
    told("infer_type", call_infer_type, &lent);
    if (!told("read", call_read, &lent))
        return 0;
    lend_used_rows(&lent);
    told("write", call_write, &lent);
    told("strict", call_strict, &lent);
    told("boxes", call_boxes, &lent);
    tell_stored(&lent);
    return 0;
}

/*
 * Answers records on standard input, a line each, by calls of the entries in
 * doorhollow.h. tools/replay-native builds it and runs it.
 *
 * A record is a u32 (little-endian, as every number of it) with the count of the
 * bytes that follow it, and those bytes: a letter, the letter's fields as u32
 * each, its rows as u32 each, and what is left, a text or stored bytes.
 *
 *   t, p  the tokens from a place on (p looks twice before it takes)
 *   r     reading            w  writing
 *   s     the strict check   i  infer_type
 *   S     stored writing     L  stored reading; their first field is the version
 *   m     a move of stored bytes, whose first two fields are versions: the one
 *         that is read and the one that is written
 *   b     the boxes
 *
 * A record that is cut, too large, of another letter or of a version that there
 * is not is answered `bad record`, and the next one is read. The lines are those
 * of the programs replay, replay_stored and replay_store, byte for byte; these
 * have less room, so that they call more records too large.
 */
#include <stdint.h>
#include <stdio.h>
#include <stdlib.h>
#include <string.h>

#include "doorhollow.h"

/* What a program answers, and how large a record may be for it. */
struct program {
    const char *name;
    const char *letters;
    size_t record_limit; /* bytes that follow a record's count */
    size_t text_limit;   /* bytes of a text, or stored bytes */
    size_t slice_limit;  /* places of a slice, or of a table */
    size_t output_limit; /* bytes of an output */
};

#define LARGEST_RECORD 70000000
#define MOST_LENT ((size_t)1 << 27)

/* This one, and those that it can answer as. */
static const struct program programs[] = {
    {"replay-native", "tprwsiSLmb", LARGEST_RECORD, LARGEST_RECORD, MOST_LENT, MOST_LENT},
    {"replay", "tprwsi", 1048572, 131072, 98304, 262144},
    {"replay_stored", "SLm", 1048572, 131072, 98304, 262144},
    {"replay_store", "b", 1048572, 131072, 98304, 262144},
};

#define PROGRAM_COUNT (sizeof programs / sizeof programs[0])

static const struct program *self = &programs[0];

/* ---- standard output ---- */

#define OUT_BYTES 65536

/* The most digits that a number has. */
#define MOST_DIGITS 20

static char out[OUT_BYTES];
static size_t out_count;

static void stop(const char *why)
{
    fprintf(stderr, "replay-native: %s\n", why);
    exit(2);
}

static void flush_out(void)
{
    if (fwrite(out, 1, out_count, stdout) != out_count || fflush(stdout) != 0)
        stop("standard output can't be written");
    out_count = 0;
}

/* The same behind the lines that were put. */
static void stop_after_lines(const char *why)
{
    flush_out();
    stop(why);
}

/* Sees to it that so many bytes have room in the buffer. */
static void make_room(size_t count)
{
    if (OUT_BYTES - out_count < count)
        flush_out();
}

/* Puts a short text. */
static void put(const char *text)
{
    size_t count = strlen(text);

    make_room(count);
    memcpy(out + out_count, text, count);
    out_count += count;
}

static void put_number(uint64_t number)
{
    char digits[MOST_DIGITS];
    size_t first = sizeof digits;

    do {
        digits[--first] = (char)('0' + number % 10);
        number /= 10;
    } while (number > 0);
    make_room(sizeof digits - first);
    memcpy(out + out_count, digits + first, sizeof digits - first);
    out_count += sizeof digits - first;
}

static void put_spaced(uint64_t number)
{
    put(" ");
    put_number(number);
}

static void put_spaced_signed(int64_t number)
{
    put(number < 0 ? " -" : " ");
    put_number(number < 0 ? 0 - (uint64_t)number : (uint64_t)number);
}

static void put_hex(const uint8_t *bytes, size_t count)
{
    static const char digits[] = "0123456789abcdef";
    size_t i;

    for (i = 0; i < count; i++) {
        make_room(2);
        out[out_count++] = digits[bytes[i] / 16];
        out[out_count++] = digits[bytes[i] % 16];
    }
}

/* The first numbers of an answer, a space between. */
static void put_answer(const uint64_t *answer, size_t count)
{
    size_t i;

    put_number(answer[0]);
    for (i = 1; i < count; i++)
        put_spaced(answer[i]);
}

/* How many places aren't zero, and the line's end. */
static void put_left_over(uint64_t count)
{
    put(" ;");
    put_spaced(count);
    put("\n");
}

/* ---- the parts of a record ---- */

#define U32_BYTES 4

/* Where the fields stand behind the letter. */
#define FIRST 1
#define SECOND (FIRST + U32_BYTES)
#define THIRD (SECOND + U32_BYTES)

struct span {
    const uint8_t *bytes;
    size_t length;
};

static uint32_t u32_at(const uint8_t *bytes)
{
    return bytes[0] | (uint32_t)bytes[1] << 8 | (uint32_t)bytes[2] << 16 | (uint32_t)bytes[3] << 24;
}

/* The number that stands at a place, 0 where it isn't there whole. */
static uint32_t field(struct span span, size_t at)
{
    if (span.length < U32_BYTES || span.length - U32_BYTES < at)
        return 0;
    return u32_at(span.bytes + at);
}

/* What stands from a place on: nothing where it lies past the end. */
static struct span behind(struct span span, size_t at)
{
    if (span.length < at)
        at = span.length;
    span.bytes += at;
    span.length -= at;
    return span;
}

/* Whether a text that isn't too long stands from a place on. */
static int has_text(struct span span, size_t at)
{
    return at <= span.length && span.length - at <= self->text_limit;
}

/* ---- what is lent ---- */

/* A pointer that may be lent, also for a count of 0. */
static void *allocated(size_t count, size_t size)
{
    void *places = malloc(count > 0 ? count * size : 1);

    if (places == NULL)
        stop_after_lines("there is no memory for what a record asks for");
    return places;
}

/* The same, full of ones. */
static void *full_of_ones(size_t count, size_t size)
{
    void *places = allocated(count, size);

    memset(places, 0xFF, count * size);
    return places;
}

static uint32_t *loaded(const uint8_t *bytes, size_t count)
{
    uint32_t *places = allocated(count, sizeof *places);
    size_t i;

    for (i = 0; i < count; i++)
        places[i] = u32_at(bytes + i * U32_BYTES);
    return places;
}

/* The two slices of a record, and the text that goes with them. */
struct slices {
    uint32_t *nodes;
    size_t node_places;
    uint32_t *numbers;
    size_t number_places;
    struct span text;
};

static const size_t after_lengths = 2 * U32_BYTES;

/* The lengths of the slices, which `from` begins with. Whether they fit. */
static int find_lengths(struct slices *slices, struct span from)
{
    slices->node_places = field(from, 0);
    slices->number_places = field(from, U32_BYTES);
    return slices->node_places <= self->slice_limit && slices->number_places <= self->slice_limit;
}

/* The text that stands from a place on. Whether it is there and isn't too long. */
static int find_text(struct slices *slices, struct span from, size_t at)
{
    slices->text = behind(from, at);
    return has_text(from, at);
}

/*
 * The slices of a record that asks for them to be filled, and whose text stands
 * at a place behind their lengths. Whether it is a good one.
 */
static int lend_slices(struct slices *slices, struct span from, size_t text_at)
{
    if (!find_lengths(slices, from) || !find_text(slices, from, text_at))
        return 0;
    slices->nodes = full_of_ones(slices->node_places, sizeof *slices->nodes);
    slices->numbers = full_of_ones(slices->number_places, sizeof *slices->numbers);
    return 1;
}

/* The slices of a record that brings their rows. Whether it is a good one. */
static int load_slices(struct slices *slices, struct span from)
{
    const uint8_t *rows;
    size_t row_bytes;

    if (!find_lengths(slices, from))
        return 0;
    row_bytes = (slices->node_places + slices->number_places) * U32_BYTES;
    if (!find_text(slices, from, after_lengths + row_bytes))
        return 0;
    rows = from.bytes + after_lengths;
    slices->nodes = loaded(rows, slices->node_places);
    rows += slices->node_places * U32_BYTES;
    slices->numbers = loaded(rows, slices->number_places);
    return 1;
}

static void free_slices(struct slices *slices)
{
    free(slices->nodes);
    free(slices->numbers);
}

/* ---- t and p ---- */

static void put_token(const uint64_t *token)
{
    static const char *const names[] = {"none@", "bad@", ",@", ")@", "(@", "number@", "word@"};
    uint64_t sort = token[DOORHOLLOW_TOKEN_SORT];

    if (sort > DOORHOLLOW_WORD)
        stop_after_lines("the library tells of a token of no known sort");
    put(names[sort]);
    put_number(token[DOORHOLLOW_TOKEN_PLACE]);
    if (sort != DOORHOLLOW_NUMBER_TOKEN && sort != DOORHOLLOW_WORD)
        return;
    put(":");
    put_number(token[DOORHOLLOW_TOKEN_START]);
    put("+");
    put_number(token[DOORHOLLOW_TOKEN_LENGTH]);
}

typedef uint64_t token_answer[DOORHOLLOW_ANSWER_PLACES];

static int differ(const uint64_t *a, const uint64_t *b)
{
    return memcmp(a, b, sizeof(token_answer)) != 0;
}

/*
 * Takes the token at a place, with two looks before where they are asked for,
 * and puts it: with ` !` behind it if a look saw something else. Answers the
 * place to go on from.
 */
static size_t take_token(struct span text, size_t at, int looks)
{
    token_answer first, second, taken;
    size_t next;

    if (looks) {
        doorhollow_token(text.bytes, text.length, at, first);
        doorhollow_token(text.bytes, text.length, at, second);
    }
    next = doorhollow_token(text.bytes, text.length, at, taken);
    put_token(taken);
    if (looks && (differ(first, taken) || differ(second, taken)))
        put(" !");
    return next;
}

static int answer_tokens(struct span record, int looks)
{
    struct span text = behind(record, THIRD);
    size_t at = field(record, FIRST);
    uint32_t left = field(record, SECOND);

    if (!has_text(record, THIRD))
        return 0;
    for (; left > 0; left--) {
        at = take_token(text, at, looks);
        if (left > 1)
            put(" ");
    }
    put("\n");
    return 1;
}

/* ---- r and L ---- */

typedef void read_entry(const uint8_t *, size_t, uint32_t *, size_t, uint32_t *, size_t,
                        uint64_t *);

/* How many places so many rows take: all of a slice that has no room for them. */
static size_t places_of(uint64_t rows, size_t width, size_t places)
{
    return rows <= places / width ? (size_t)rows * width : places;
}

/* The used places of a slice, each after a space, or nothing after a space. */
static void put_rows(const uint32_t *slice, size_t used)
{
    size_t i;

    put(used > 0 ? " ;" : " ; ");
    for (i = 0; i < used; i++)
        put_spaced(slice[i]);
}

/* How many places from one on aren't zero. */
static size_t places_left(const uint32_t *slice, size_t from, size_t places)
{
    size_t count = 0;

    for (; from < places; from++)
        count += slice[from] != 0;
    return count;
}

static size_t used_nodes(const struct slices *slices, uint64_t rows)
{
    return places_of(rows, DOORHOLLOW_NODE_WIDTH, slices->node_places);
}

static size_t used_numbers(const struct slices *slices, uint64_t rows)
{
    return places_of(rows, DOORHOLLOW_NUMBER_WIDTH, slices->number_places);
}

/*
 * So many rows of both slices, and the line's end. What is left over in something
 * else that was lent is counted with what is left over in them.
 */
static void put_slices(const struct slices *slices, uint64_t node_rows, uint64_t number_rows,
                       size_t left_elsewhere)
{
    size_t nodes = used_nodes(slices, node_rows);
    size_t numbers = used_numbers(slices, number_rows);

    put_rows(slices->nodes, nodes);
    put_rows(slices->numbers, numbers);
    put_left_over(left_elsewhere + places_left(slices->nodes, nodes, slices->node_places) +
                  places_left(slices->numbers, numbers, slices->number_places));
}

static int answer_reading(read_entry *read, struct span fields)
{
    struct slices slices;
    uint64_t answer[DOORHOLLOW_ANSWER_PLACES];

    if (!lend_slices(&slices, fields, after_lengths))
        return 0;
    read(slices.text.bytes, slices.text.length, slices.nodes, slices.node_places, slices.numbers,
         slices.number_places, answer);
    put_answer(answer, DOORHOLLOW_ANSWER_PLACES);
    put_slices(&slices, answer[DOORHOLLOW_NODE_COUNT], answer[DOORHOLLOW_NUMBER_COUNT], 0);
    free_slices(&slices);
    return 1;
}

/* ---- w and S ---- */

typedef void write_entry(const uint8_t *, size_t, const uint32_t *, size_t, const uint32_t *,
                         size_t, uint8_t *, size_t, uint64_t *);

/* How many bytes from one on aren't zero. */
static size_t bytes_left(const uint8_t *bytes, size_t from, size_t room)
{
    size_t count = 0;

    for (; from < room; from++)
        count += bytes[from] != 0;
    return count;
}

/* The bytes that were written, or nothing. How many behind them aren't zero. */
static size_t put_output(const uint8_t *output, uint64_t length, size_t room)
{
    size_t used = places_of(length, 1, room);

    put(" ; ");
    put_hex(output, used);
    return bytes_left(output, used, room);
}

static int answer_writing(write_entry *write, struct span fields)
{
    size_t room = field(fields, 0);
    struct slices slices;
    uint8_t *output;
    uint64_t answer[DOORHOLLOW_ANSWER_PLACES];

    if (room > self->output_limit || !load_slices(&slices, behind(fields, U32_BYTES)))
        return 0;
    output = full_of_ones(room, sizeof *output);
    write(slices.text.bytes, slices.text.length, slices.nodes, slices.node_places, slices.numbers,
          slices.number_places, output, room, answer);
    put_answer(answer, DOORHOLLOW_LENGTH + 1);
    put_left_over(put_output(output, answer[DOORHOLLOW_LENGTH], room));
    free(output);
    free_slices(&slices);
    return 1;
}

/* ---- the versions of S, L and m ---- */

typedef void move_entry(const uint8_t *, size_t, uint32_t *, size_t, uint32_t *, size_t,
                        uint8_t *, size_t, uint64_t *);

struct version {
    read_entry *read;
    write_entry *write;
    move_entry *move; /* from this one to the other */
};

/* The stored form of the version that a record names at a place, or NULL. */
static const struct version *version_at(struct span record, size_t at)
{
    static const struct version versions[] = {
        {doorhollow_read_stored_1, doorhollow_write_stored_1, doorhollow_move_stored_1_to_2},
        {doorhollow_read_stored_2, doorhollow_write_stored_2, doorhollow_move_stored_2_to_1},
    };
    uint32_t number = field(record, at);

    if (number < 1 || number > sizeof versions / sizeof versions[0])
        return NULL;
    return &versions[number - 1];
}

static int answer_stored_reading(struct span record)
{
    const struct version *version = version_at(record, FIRST);

    return version != NULL && answer_reading(version->read, behind(record, SECOND));
}

static int answer_stored_writing(struct span record)
{
    const struct version *version = version_at(record, FIRST);

    return version != NULL && answer_writing(version->write, behind(record, SECOND));
}

/* ---- m ---- */

/* What a move is lent, and its answer. */
struct move {
    struct slices slices; /* their text is the stored bytes */
    uint8_t *output;
    size_t room;
    uint64_t answer[DOORHOLLOW_MOVE_PLACES];
};

/* Takes over the number and the place of an answer. Whether it is a refusal. */
static int is_refused(struct move *move, const uint64_t *answer)
{
    move->answer[DOORHOLLOW_NUMBER] = answer[DOORHOLLOW_NUMBER];
    move->answer[DOORHOLLOW_PLACE] = answer[DOORHOLLOW_PLACE];
    return answer[DOORHOLLOW_NUMBER] != DOORHOLLOW_OK;
}

static void clear_slices(struct slices *slices)
{
    memset(slices->nodes, 0, slices->node_places * sizeof *slices->nodes);
    memset(slices->numbers, 0, slices->number_places * sizeof *slices->numbers);
}

/*
 * A record may name one version twice. The program answers it, but the header has
 * no entry for it, as such a move changes nothing: so the version's reader and its
 * writer are called here. Where one of them refuses, it clears what it fills
 * itself, and what the other one fills is cleared here, as a move leaves nothing.
 */
static void move_to_same(const struct version *version, struct move *move)
{
    struct slices *slices = &move->slices;
    struct span stored = slices->text;
    uint64_t read[DOORHOLLOW_ANSWER_PLACES];
    uint64_t written[DOORHOLLOW_ANSWER_PLACES];

    memset(move->answer, 0, sizeof move->answer);
    version->read(stored.bytes, stored.length, slices->nodes, slices->node_places,
                  slices->numbers, slices->number_places, read);
    if (is_refused(move, read)) {
        memset(move->output, 0, move->room);
        return;
    }
    version->write(stored.bytes, stored.length, slices->nodes,
                   used_nodes(slices, read[DOORHOLLOW_NODE_COUNT]), slices->numbers,
                   used_numbers(slices, read[DOORHOLLOW_NUMBER_COUNT]), move->output, move->room,
                   written);
    if (is_refused(move, written)) {
        clear_slices(slices);
        return;
    }
    move->answer[DOORHOLLOW_MOVED_LENGTH] = written[DOORHOLLOW_LENGTH];
    move->answer[DOORHOLLOW_MOVED_NODE_COUNT] = read[DOORHOLLOW_NODE_COUNT];
    move->answer[DOORHOLLOW_MOVED_NUMBER_COUNT] = read[DOORHOLLOW_NUMBER_COUNT];
}

static void move_to_other(const struct version *version, struct move *move)
{
    struct slices *slices = &move->slices;

    version->move(slices->text.bytes, slices->text.length, slices->nodes, slices->node_places,
                  slices->numbers, slices->number_places, move->output, move->room,
                  move->answer);
}

static void put_moved(const struct move *move)
{
    size_t left;

    put_answer(move->answer, DOORHOLLOW_MOVE_PLACES);
    left = put_output(move->output, move->answer[DOORHOLLOW_MOVED_LENGTH], move->room);
    put_slices(&move->slices, move->answer[DOORHOLLOW_MOVED_NODE_COUNT],
               move->answer[DOORHOLLOW_MOVED_NUMBER_COUNT], left);
}

static int answer_move(struct span record)
{
    const struct version *from = version_at(record, FIRST);
    const struct version *to = version_at(record, SECOND);
    struct span fields = behind(record, THIRD);
    struct move move;

    move.room = field(fields, after_lengths);
    if (from == NULL || to == NULL || move.room > self->output_limit ||
        !lend_slices(&move.slices, fields, after_lengths + U32_BYTES))
        return 0;
    move.output = full_of_ones(move.room, sizeof *move.output);
    if (from == to)
        move_to_same(from, &move);
    else
        move_to_other(from, &move);
    put_moved(&move);
    free(move.output);
    free_slices(&move.slices);
    return 1;
}

/* ---- s and i ---- */

static int answer_check(struct span fields)
{
    struct slices slices;
    uint64_t answer[DOORHOLLOW_ANSWER_PLACES];

    if (!load_slices(&slices, fields))
        return 0;
    doorhollow_strict(slices.text.bytes, slices.text.length, slices.nodes, slices.node_places,
                      slices.numbers, slices.number_places, answer);
    put_answer(answer, DOORHOLLOW_ROW + 1);
    put("\n");
    free_slices(&slices);
    return 1;
}

static int answer_inferred(struct span text)
{
    uint64_t answer[DOORHOLLOW_ANSWER_PLACES];

    if (!has_text(text, 0))
        return 0;
    doorhollow_infer_type(text.bytes, text.length, answer);
    put_answer(answer, DOORHOLLOW_ANSWER_PLACES);
    put("\n");
    return 1;
}

/* ---- b ---- */

/* How many places of the table are told: those of the nodes' rows, of a refusal none. */
static size_t places_told(uint64_t number, size_t node_places, size_t places)
{
    size_t rows = node_places / DOORHOLLOW_NODE_WIDTH;
    size_t room = places / DOORHOLLOW_BOX_WIDTH;

    if (number != DOORHOLLOW_OK)
        return 0;
    return (rows < room ? rows : room) * DOORHOLLOW_BOX_WIDTH;
}

static void put_boxes(const uint64_t *answer, const int64_t *table, size_t used, size_t places)
{
    size_t count = 0;
    size_t i;

    put_answer(answer, DOORHOLLOW_PLACE + 1);
    put(used > 0 ? " ;" : " ; ");
    for (i = 0; i < used; i++)
        put_spaced_signed(table[i]);
    for (i = used; i < places; i++)
        count += table[i] != 0;
    put_left_over(count);
}

static int answer_boxes(struct span fields)
{
    size_t places = field(fields, 0);
    struct slices slices;
    int64_t *table;
    uint64_t answer[DOORHOLLOW_ANSWER_PLACES];

    if (places > self->slice_limit || !load_slices(&slices, behind(fields, U32_BYTES)))
        return 0;
    table = full_of_ones(places, sizeof *table);
    doorhollow_boxes(slices.text.bytes, slices.text.length, slices.nodes, slices.node_places,
                     slices.numbers, slices.number_places, table, places, answer);
    put_boxes(answer, table, places_told(answer[DOORHOLLOW_NUMBER], slices.node_places, places),
              places);
    free(table);
    free_slices(&slices);
    return 1;
}

/* ---- records ---- */

/* Puts the line of a record. Whether it is a good one; of a bad one nothing is put. */
static int answer_letter(struct span record)
{
    struct span fields = behind(record, FIRST);

    switch (record.bytes[0]) {
    case 't':
        return answer_tokens(record, 0);
    case 'p':
        return answer_tokens(record, 1);
    case 'r':
        return answer_reading(doorhollow_read, fields);
    case 'w':
        return answer_writing(doorhollow_write, fields);
    case 's':
        return answer_check(fields);
    case 'i':
        return answer_inferred(fields);
    case 'S':
        return answer_stored_writing(record);
    case 'L':
        return answer_stored_reading(record);
    case 'm':
        return answer_move(record);
    case 'b':
        return answer_boxes(fields);
    default:
        return 0;
    }
}

/* Whether a record begins with a letter of the program. */
static int has_letter(struct span record)
{
    size_t count = strlen(self->letters);

    return record.length > 0 && memchr(self->letters, record.bytes[0], count) != NULL;
}

static void answer_record(struct span record)
{
    if (!has_letter(record) || !answer_letter(record))
        put("bad record\n");
}

/* ---- standard input ---- */

/* A buffer for so many bytes, which stays until a longer one is asked for. */
static uint8_t *buffer_for(size_t count)
{
    static uint8_t *buffer;
    static size_t room;

    if (buffer == NULL || room < count) {
        free(buffer);
        buffer = allocated(count, 1);
        room = count;
    }
    return buffer;
}

#define PASSED_AT_ONCE 65536

/* Passes over so many bytes of the input. Whether they were there. */
static int pass_over(size_t count)
{
    uint8_t *buffer = buffer_for(PASSED_AT_ONCE);

    while (count > 0) {
        size_t asked = count < PASSED_AT_ONCE ? count : PASSED_AT_ONCE;

        if (fread(buffer, 1, asked, stdin) < asked)
            return 0;
        count -= asked;
    }
    return 1;
}

/* Answers the next record. Whether there may be another one behind it. */
static int answer_next(void)
{
    uint8_t count_bytes[U32_BYTES];
    size_t got = fread(count_bytes, 1, U32_BYTES, stdin);
    struct span record;
    uint8_t *buffer;

    if (got == 0)
        return 0;
    record.length = got < U32_BYTES ? 0 : u32_at(count_bytes);
    if (got < U32_BYTES || record.length > self->record_limit) {
        put("bad record\n");
        return got == U32_BYTES && pass_over(record.length);
    }
    buffer = buffer_for(record.length);
    if (fread(buffer, 1, record.length, stdin) < record.length) {
        put("bad record\n");
        return 0;
    }
    record.bytes = buffer;
    answer_record(record);
    return 1;
}

/* Answers as the program of this name does. Whether there is one. */
static int choose(const char *name)
{
    size_t i;

    for (i = 0; i < PROGRAM_COUNT; i++) {
        if (strcmp(programs[i].name, name) == 0) {
            self = &programs[i];
            return 1;
        }
    }
    return 0;
}

int main(int argc, char **argv)
{
    int is_usual = argc == 1;
    int is_chosen = argc == 3 && strcmp(argv[1], "--as") == 0 && choose(argv[2]);

    if (!is_usual && !is_chosen)
        stop("usage: tools/replay-native [--as replay | --as replay_stored | --as replay_store]");
    setvbuf(stdin, NULL, _IOFBF, OUT_BYTES);
    while (answer_next())
        continue;
    flush_out();
    if (ferror(stdin))
        stop("standard input can't be read");
    return 0;
}

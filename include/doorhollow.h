/*
 * Doorhollow: a reader and canonical writer of well-known text (WKT).
 *
 * The functions stand in libwkt_c.a, which `tools/library` proves and
 * writes. Nothing is allocated and nothing is kept: a call looks at what it is
 * lent, fills what it is lent, and is done. Any number of threads may call, as
 * long as none of them writes to what another one's call was lent.
 *
 * A slice goes as a pointer to its first element and the count of its elements.
 * What the caller owes, and nothing tests:
 *   - the pointer isn't NULL, also where the count is 0, and that many
 *     elements lie behind it;
 *   - what a call writes to overlaps nothing else that the same call is lent.
 * All else is tested: any bytes may be given as text, and any rows as a store.
 *
 * An answer goes into four places that the caller lends, that of a move into
 * five. The first is the number: DOORHOLLOW_OK, or that of a refusal. What else
 * an entry answers is said at the entry. After a refusal everything after the
 * place is 0.
 */
#ifndef DOORHOLLOW_H
#define DOORHOLLOW_H

#include <stddef.h>
#include <stdint.h>

#ifdef __cplusplus
extern "C" {
#endif

/* The most bytes that a text may have, and the most collections that may be open. */
#define DOORHOLLOW_TEXT_LIMIT 4194304
#define DOORHOLLOW_DEPTH_LIMIT 32

/* The most bytes that a stored tree may have, of version 1 and of version 2. */
#define DOORHOLLOW_STORED_1_LIMIT 1048576
#define DOORHOLLOW_STORED_2_LIMIT 67108864

/* The places of an answer, and how many there are. */
#define DOORHOLLOW_ANSWER_PLACES 4
#define DOORHOLLOW_NUMBER 0      /* every entry */
#define DOORHOLLOW_PLACE 1       /* readers, writers, infer_type, boxes */
#define DOORHOLLOW_NODE_COUNT 2  /* readers */
#define DOORHOLLOW_NUMBER_COUNT 3
#define DOORHOLLOW_LENGTH 2      /* writers */
#define DOORHOLLOW_LETTER 1      /* strict */
#define DOORHOLLOW_ROW 2
#define DOORHOLLOW_INFERRED_KIND 2 /* infer_type */
#define DOORHOLLOW_INFERRED_DIMENSION 3
#define DOORHOLLOW_TOKEN_SORT 0  /* token, in the place of a number */
#define DOORHOLLOW_TOKEN_PLACE 1
#define DOORHOLLOW_TOKEN_START 2
#define DOORHOLLOW_TOKEN_LENGTH 3

/* Those of a move's answer; the first two are DOORHOLLOW_NUMBER and DOORHOLLOW_PLACE. */
#define DOORHOLLOW_MOVE_PLACES 5
#define DOORHOLLOW_MOVED_LENGTH 2
#define DOORHOLLOW_MOVED_NODE_COUNT 3
#define DOORHOLLOW_MOVED_NUMBER_COUNT 4

/*
 * A node is a row of three: kind, dimension, parts. A row's children follow it.
 * The parts of a point or a line string are its coordinates, of any other kind
 * its children. A number is a row of two: start and length of its text.
 */
#define DOORHOLLOW_NODE_WIDTH 3
#define DOORHOLLOW_KIND 0
#define DOORHOLLOW_DIMENSION 1
#define DOORHOLLOW_PARTS 2
#define DOORHOLLOW_NUMBER_WIDTH 2
#define DOORHOLLOW_START 0
#define DOORHOLLOW_TEXT_LENGTH 1

/*
 * A box is a row of five: 1, lowest X, highest X, lowest Y, highest Y; or five
 * zeros, for a node without coordinates.
 *
 * Its sides are whole numbers of units, and a unit is a ten-millionth of the 1
 * that the text counts in: an X of `1.5` is 15000000 units. Where that is a
 * degree, a unit is about a centimetre on the ground. Sides are worked out from
 * the digits, without doubles. A low side is rounded down and a high side up:
 * `0.00000005` has the low side 0 and the high side 1, `-0.00000005` -1 and 0.
 * So all coordinates lie in the box, and each side is less than a unit away from
 * one of them. No side's size is over 10^17, so that sums and differences of two
 * sides fit an int64_t.
 */
#define DOORHOLLOW_BOX_WIDTH 5
#define DOORHOLLOW_HAS_BOX 0
#define DOORHOLLOW_LOW_X 1
#define DOORHOLLOW_HIGH_X 2
#define DOORHOLLOW_LOW_Y 3
#define DOORHOLLOW_HIGH_Y 4
#define DOORHOLLOW_UNITS_IN_ONE ((int64_t)10000000)

/* Kinds. */
#define DOORHOLLOW_POINT 1
#define DOORHOLLOW_LINESTRING 2
#define DOORHOLLOW_POLYGON 3
#define DOORHOLLOW_MULTIPOINT 4
#define DOORHOLLOW_MULTILINESTRING 5
#define DOORHOLLOW_MULTIPOLYGON 6
#define DOORHOLLOW_GEOMETRYCOLLECTION 7

/* Sorts of tokens. */
#define DOORHOLLOW_NO_TOKEN 0 /* NUL, or the end of the text */
#define DOORHOLLOW_BAD_NUMBER 1
#define DOORHOLLOW_COMMA 2
#define DOORHOLLOW_PAREN_CLOSE 3
#define DOORHOLLOW_PAREN_OPEN 4
#define DOORHOLLOW_NUMBER_TOKEN 5
#define DOORHOLLOW_WORD 6

/* Dimensions. A coordinate has 2, 3, 3 or 4 numbers. */
#define DOORHOLLOW_XY 0
#define DOORHOLLOW_XYZ 1
#define DOORHOLLOW_XYM 2
#define DOORHOLLOW_XYZM 3

/* The refusals. Beside each stands its message, for 7 to 21, 28 and 29 that of the Rust crate wkt; 19 names the prefix after it. */
#define DOORHOLLOW_OK 0
/* tools/refusals: from here on */
#define DOORHOLLOW_TEXT_TOO_LONG 1 /* More bytes than may be read; the place is the limit */
#define DOORHOLLOW_ILL_FORMED_UTF8 2 /* The text is not well-formed UTF-8 */
#define DOORHOLLOW_NO_NODE_ROW 3 /* No room for another node */
#define DOORHOLLOW_NO_NUMBER_ROW 4 /* No room for another number */
#define DOORHOLLOW_TOO_DEEP 5 /* More than 32 collections are open */
/* 6 is no longer given. */
#define DOORHOLLOW_NON_ASCII_ROOT 7 /* Encountered non-ascii word */
#define DOORHOLLOW_NO_ROOT 8 /* Invalid WKT format */
#define DOORHOLLOW_UNKNOWN_NAME 9 /* Invalid type encountered */
#define DOORHOLLOW_NO_HEADER 10 /* End of stream */
#define DOORHOLLOW_UNKNOWN_HEADER 11 /* Unexpected word before open paren */
#define DOORHOLLOW_NOT_OPENED 12 /* Missing open parenthesis for type */
#define DOORHOLLOW_NOT_CLOSED 13 /* Missing closing parenthesis for type */
#define DOORHOLLOW_NO_X 14 /* Expected a number for the X coordinate */
#define DOORHOLLOW_NO_Y 15 /* Expected a number for the Y coordinate */
#define DOORHOLLOW_NO_Z 16 /* Expected a number for the Z coordinate */
#define DOORHOLLOW_NO_M 17 /* Expected a number for the M coordinate */
#define DOORHOLLOW_NO_CHILD 18 /* Expected a word in GEOMETRYCOLLECTION */
#define DOORHOLLOW_UNSUPPORTED_NAME 19 /* Unsupported WKT prefix */
#define DOORHOLLOW_EMPTY_WITHOUT_SPACE 20 /* Invalid WKT; no whitespace between geometry type and EMPTY. */
#define DOORHOLLOW_NEITHER_PAREN_NOR_EMPTY 21 /* Invalid WKT; no '(' character and not EMPTY */
#define DOORHOLLOW_ILL_FORMED_STORE 22 /* The rows are not a well-formed store */
#define DOORHOLLOW_NO_ROOM 23 /* What is written is longer than the room */
#define DOORHOLLOW_NON_ASCII 24 /* The part that names the type is not ASCII */
#define DOORHOLLOW_FAULTY_FIELD 25 /* A field is cut, missing, extra or of wrong tag or length */
#define DOORHOLLOW_UNKNOWN_VERSION 26 /* The stored bytes are of another version */
#define DOORHOLLOW_DOES_NOT_FIT 27 /* A count, a number's text or the whole is too large for the stored form */
#define DOORHOLLOW_NOTHING_AFTER_PLUS 28 /* Unable to parse input number as the desired output type */
#define DOORHOLLOW_NUMBER_GOES_WRONG 29 /* Unable to parse input number as the desired output type */
#define DOORHOLLOW_NO_FINITE_NUMBER 30 /* An X or Y is inf or nan, which has no place in a box */
#define DOORHOLLOW_NUMBER_TOO_LARGE 31 /* An X or Y has an exponent beyond 9,999 or is over 10,000,000,000 */

/* What was expected where a number goes wrong: the answers of doorhollow_expected. */
#define DOORHOLLOW_NO_EXPECTATION 0
#define DOORHOLLOW_EXPECTED_NOTHING_MORE 1 /* nothing more was expected */
#define DOORHOLLOW_EXPECTED_A_DIGIT 2 /* a digit was expected */
#define DOORHOLLOW_EXPECTED_DIGIT_OR_SIGN 3 /* a digit or a sign was expected after e */
#define DOORHOLLOW_EXPECTED_NUMBER_OR_WORD 4 /* a digit, a point, inf, infinity or nan was expected after the sign */
#define DOORHOLLOW_EXPECTED_REST_OF_WORD 5 /* inf, infinity or nan was expected after the sign */
/* tools/refusals: up to here */

/*
 * How many rows are enough for a text of so many bytes: half as many. Lend
 * doorhollow_read that many node rows and that many number rows, and it never
 * answers 3 or 4. That is proved.
 */
size_t doorhollow_enough_rows(size_t text_length);

/*
 * Reads the geometry that a text begins with into rows of both slices. The
 * room is node_places / 3 node rows and number_places / 2 number rows;
 * doorhollow_enough_rows says how many are enough.
 *
 * answer: number, place, count of node rows, count of number rows.
 * Every place of both slices after the used rows is 0, and after a refusal
 * every place. Refusals 1 to 5, 7 to 18, 28 and 29.
 *
 * 28 and 29 are those of a number. Of `+5` the plus is dropped: where nothing
 * is left then, 28 is answered with the place of that plus. Else 29, with the
 * place of the first byte at which no number's text can go on, or of the
 * token's end where more was needed: 9 in `POINT(1 4x)`, 10 in `POINT(1 1e)`.
 */
void doorhollow_read(const uint8_t *text, size_t text_length,
                     uint32_t *nodes, size_t node_places,
                     uint32_t *numbers, size_t number_places,
                     uint64_t answer[DOORHOLLOW_ANSWER_PLACES]);

/*
 * What was expected where a text was refused: number and place are those of the
 * answer. For 28 and 29 one of DOORHOLLOW_EXPECTED_.., whose words stand beside
 * it; for any other number DOORHOLLOW_NO_EXPECTATION. Of `POINT(1 1e)`, refused
 * 29 at 10, it is DOORHOLLOW_EXPECTED_DIGIT_OR_SIGN.
 */
uint32_t doorhollow_expected(const uint8_t *text, size_t text_length,
                             uint32_t number, size_t place);

/*
 * Writes the canonical text of a store, which is lent with its used rows only:
 * node_places is 3 times the count of the nodes, number_places 2 times that of
 * the numbers. No NUL is put behind the text.
 *
 * answer: number, place, count of bytes written, 0.
 * Every byte of the room after the text is 0, and after a refusal every byte.
 * Refusals 22 and 23, with place 0.
 */
void doorhollow_write(const uint8_t *text, size_t text_length,
                      const uint32_t *nodes, size_t node_places,
                      const uint32_t *numbers, size_t number_places,
                      uint8_t *out, size_t room,
                      uint64_t answer[DOORHOLLOW_ANSWER_PLACES]);

/*
 * Writes a store, lent as for doorhollow_write, as stored bytes of version 1:
 * fields of a one-byte tag, a two-byte length (the higher byte first) and the
 * content. Tag 1 once, first: version 1, node count, number count (two bytes
 * each); tag 2 for each node: kind, dimension, parts (1, 1 and 2 bytes); tag 3
 * for each number: its text. So there are 8 bytes, 7 for each node, and 3 for
 * each number with those of its text. One tree has one stored form.
 *
 * answer: number, place, count of bytes written, 0.
 * Every byte of the room after them is 0, and after a refusal every byte.
 * Refusals 22, then 27 (a count or a number's text over 65,535, or more than
 * DOORHOLLOW_STORED_1_LIMIT bytes in all), then 23, with place 0.
 */
void doorhollow_write_stored_1(const uint8_t *text, size_t text_length,
                               const uint32_t *nodes, size_t node_places,
                               const uint32_t *numbers, size_t number_places,
                               uint8_t *out, size_t room,
                               uint64_t answer[DOORHOLLOW_ANSWER_PLACES]);

/*
 * Reads stored bytes of version 1 into rows, as doorhollow_read does with a
 * text. The numbers' texts lie in the stored bytes: lend those as the text of
 * the store from then on. byte_count / 7 node rows and byte_count / 3 number
 * rows are enough; bytes 4 to 7 tell how many there are.
 *
 * answer: number, place, count of node rows, count of number rows.
 * Every place of both slices after the used rows is 0, and after a refusal
 * every place. Refusals 1, 26, 25, 22, then 3 and 4, with the places that the
 * list above has.
 */
void doorhollow_read_stored_1(const uint8_t *bytes, size_t byte_count,
                              uint32_t *nodes, size_t node_places,
                              uint32_t *numbers, size_t number_places,
                              uint64_t answer[DOORHOLLOW_ANSWER_PLACES]);

/*
 * The same of version 2, whose counts and parts have four bytes each, so that
 * there are 12 bytes, 9 for each node, and 3 for each number with those of its
 * text. The length of a field still has two.
 *
 * Refusals 22, then 27 (a count over 4,294,967,295, a number's text over 65,535
 * bytes, or more than DOORHOLLOW_STORED_2_LIMIT bytes in all), then 23, with
 * place 0.
 */
void doorhollow_write_stored_2(const uint8_t *text, size_t text_length,
                               const uint32_t *nodes, size_t node_places,
                               const uint32_t *numbers, size_t number_places,
                               uint8_t *out, size_t room,
                               uint64_t answer[DOORHOLLOW_ANSWER_PLACES]);

/*
 * Reads stored bytes of version 2, as doorhollow_read_stored_1 reads those of
 * version 1. byte_count / 9 node rows and byte_count / 3 number rows are
 * enough; bytes 4 to 7 tell how many nodes there are, and 8 to 11 how many
 * numbers.
 *
 * Byte 3 of stored bytes is their version. Each of the two entries knows its
 * own only: on bytes of the other version it answers 26 at 3.
 */
void doorhollow_read_stored_2(const uint8_t *bytes, size_t byte_count,
                              uint32_t *nodes, size_t node_places,
                              uint32_t *numbers, size_t number_places,
                              uint64_t answer[DOORHOLLOW_ANSWER_PLACES]);

/*
 * Moves stored bytes of version 1 to version 2, with no text at hand: they are
 * read into the two slices, as by doorhollow_read_stored_1, and written from
 * there, as by doorhollow_write_stored_2. The slices are left as that reader
 * leaves them, the numbers' texts lying in the bytes that were read.
 *
 * answer: number, place, count of bytes written, count of node rows, count of
 * number rows; DOORHOLLOW_MOVE_PLACES in all.
 * Every place of both slices after the used rows is 0, and every byte of the
 * room after those written; after a refusal every place and every byte.
 * Refusals: first those of the reader, with their places; then 27, then 23,
 * with place 0.
 *
 * The bytes written are byte_count, and 4, and 2 for each node; so never more
 * than byte_count + 4 + byte_count / 7 * 2. With that room and rows enough for
 * the reader, all that the reader takes is moved, and 27 isn't answered.
 */
void doorhollow_move_stored_1_to_2(const uint8_t *bytes, size_t byte_count,
                                   uint32_t *nodes, size_t node_places,
                                   uint32_t *numbers, size_t number_places,
                                   uint8_t *out, size_t room,
                                   uint64_t answer[DOORHOLLOW_MOVE_PLACES]);

/*
 * Moves stored bytes of version 2 to version 1, in the same way. 27 is answered
 * where a count or a node's parts are over 65,535, or where there would be more
 * than DOORHOLLOW_STORED_1_LIMIT bytes in all; and for nothing else.
 *
 * The bytes written are byte_count, less 4, less 2 for each node.
 *
 * What the one moves, the other moves back to the bytes that it was moved from.
 */
void doorhollow_move_stored_2_to_1(const uint8_t *bytes, size_t byte_count,
                                   uint32_t *nodes, size_t node_places,
                                   uint32_t *numbers, size_t number_places,
                                   uint8_t *out, size_t room,
                                   uint64_t answer[DOORHOLLOW_MOVE_PLACES]);

/*
 * Checks a store, lent as for doorhollow_write, by the strict rules: A, a line
 * string that isn't empty has 2 coordinates or more; B, a ring that isn't empty
 * has 4 or more; C, it ends with the number texts that it starts with; D, a
 * collection's children have its dimension.
 *
 * answer: number, letter, node row, 0. Letter and row are those of the first
 * rule that fails in the order of the rows, the letter as an ASCII byte; both
 * are 0 where none fails. Refusal 22.
 */
void doorhollow_strict(const uint8_t *text, size_t text_length,
                       const uint32_t *nodes, size_t node_places,
                       const uint32_t *numbers, size_t number_places,
                       uint64_t answer[DOORHOLLOW_ANSWER_PLACES]);

/*
 * Fills a table with a box for each node of a store, which is lent as for
 * doorhollow_write: row i of the table is the box around all coordinates of node
 * row i and of the nodes below it. The room is table_places / 5 rows, and there
 * have to be as many as nodes. Z and M may be any numbers.
 *
 * answer: number, place, 0, 0.
 * Every place of the table after the used rows is 0, and after a refusal every
 * place. Refusals 22, then 23 (fewer rows than nodes), with place 0; then that of
 * the first X or Y, in the order of the numbers, which no box holds, with the
 * place where its text starts: 30 where it is inf or nan, 31 where its exponent
 * is beyond 9,999 either way or its size over 10^17 units.
 *
 * Two boxes touch where each low side isn't above the other one's high side;
 * examples/sheet.c goes over the rows in that way.
 */
void doorhollow_boxes(const uint8_t *text, size_t text_length,
                      const uint32_t *nodes, size_t node_places,
                      const uint32_t *numbers, size_t number_places,
                      int64_t *table, size_t table_places,
                      uint64_t answer[DOORHOLLOW_ANSWER_PLACES]);

/*
 * The kind and the dimension that the front of a text names.
 *
 * answer: number, place, kind, dimension. Refusals 1, 2, 19 to 21 and 24.
 */
void doorhollow_infer_type(const uint8_t *text, size_t text_length,
                           uint64_t answer[DOORHOLLOW_ANSWER_PLACES]);

/*
 * The token that stands at `from` or behind the blanks there, as the reader sees
 * it. Any place may be asked for; behind the text there is no token.
 *
 * answer: sort, place, start, length. A number's text starts behind a `+` that
 * is dropped, so that its start may be behind its place; start and length are 0
 * for every sort but a number and a word. There is no refusal.
 * Returns the place to ask from for the next token.
 */
size_t doorhollow_token(const uint8_t *text, size_t text_length, size_t from,
                        uint64_t answer[DOORHOLLOW_ANSWER_PLACES]);

#ifdef __cplusplus
}
#endif

#endif

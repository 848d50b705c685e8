/*
 * The piece table of two genomes: the functions of the static library that `bash archive capi` writes to
 * target/staticlib/libcapi.a. Link it behind your own objects: cc -Iinclude program.o target/staticlib/libcapi.a
 *
 * Every function returns 0, or the number of a refusal (below). None allocates memory, keeps a pointer or ends the
 * program. What holds of all:
 *
 * - A pointer followed by a length is a buffer of that many elements. With length 0 it may be null.
 * - Any other pointer must point to one number, or to the array that it names. It may not be null.
 * - Each must be aligned as its type is: to 4 bytes for uint32_t, to 8 for size_t and uint64_t. Bytes may lie anywhere.
 * - What a function writes to may hold anything before the call, and may not overlap with anything else that the same
 *   call is lent. What a comment does not name is kept: on success `place` keeps its value, on a refusal everything but
 *   `place` does, with three exceptions: see notchergrey_refine, notchergrey_chain and notchergrey_report.
 * - `place` becomes the offset in the script of the command that is refused, the script's length if bytes ran out where
 *   a command was due, the first extra byte for NOTCHERGREY_TAIL, and 0 for the refusals from 11 to 18 and for 22.
 *   notchergrey_write is lent no script to read: there it becomes the record that is refused, counted from 1, or the
 *   mark, counted on from the matches, or 0 if none is at fault. With n matches in the list, a place above n is mark
 *   place - n.
 * - A thread with a stack of 512 kB may call any of them, and one with 256 kB any but notchergrey_report. Measured on
 *   x86-64, whatever the input: notchergrey_report takes at most 275 kB, notchergrey_summary 170 kB, notchergrey_refine
 *   and notchergrey_chain 110 kB, the others next to nothing. With less the program ends with a segmentation fault:
 *   each page of the stack is touched in turn, so that the page that guards its end is met and nothing behind it is
 *   overwritten.
 *
 * A script is bytes, which notchergrey_write makes of a list of matches and marks. Its numbers have four bytes, least
 * byte first:
 *   4C p q                   the letter counts of sequences A and B, 1 to 1,000,000,000 each; first command, once
 *   44 left-A left-B length  a direct match, from left-A on of A and from left-B on of B, counted from 0
 *   52 left-A left-B length  a reversed match
 *   4D side position         a mark: the side is one byte, 0 for A and 1 for B; the position there lies between letters
 *                            and is counted from 0
 *   45                       the end
 * Matches are numbered from 1 in the order of the script. Marks may stand between them in any order, and have no such
 * number. A mark is where a marker must sit: at an end of pieces, never inside of one. See notchergrey_refine.
 */
#ifndef NOTCHERGREY_H
#define NOTCHERGREY_H

#include <stddef.h>
#include <stdint.h>

#ifdef __cplusplus
extern "C" {
#endif

/* Why a script, a list or a call is refused. Reading goes from left to right, and the first fault counts. */
enum notchergrey_refusal {
    NOTCHERGREY_HEADLESS = 1,             /* the script is empty, or its first byte isn't 4C */
    NOTCHERGREY_UNKNOWN_COMMAND = 2,      /* a later command byte isn't 4C, 44, 52, 4D or 45 */
    NOTCHERGREY_CUT_SHORT = 3,            /* operands incomplete, or bytes run out before 45 */
    NOTCHERGREY_SECOND_LENGTHS = 4,       /* 4C again */
    NOTCHERGREY_LENGTH_OUT_OF_RANGE = 5,  /* p or q is 0 or above 1,000,000,000 */
    NOTCHERGREY_TOO_MANY_MATCHES = 6,     /* there is a match 2,049 */
    NOTCHERGREY_EMPTY_MATCH = 7,          /* a match of length 0 */
    NOTCHERGREY_BEYOND_A = 8,             /* left-A + length is above p */
    NOTCHERGREY_BEYOND_B = 9,             /* left-B + length is above q */
    NOTCHERGREY_TAIL = 10,                /* bytes after 45 */
    NOTCHERGREY_WORK_TOO_SHORT = 11,      /* the work buffer has under four numbers for each row of the table */
    NOTCHERGREY_TOO_MANY_PIECES = 12,     /* every resolved refinement has more pieces than the table has rows */
    NOTCHERGREY_NO_SUCH_MATCH = 13,       /* the match number is 0 or above the count of matches */
    NOTCHERGREY_OFF_THE_MATCH = 14,       /* the position, or one of many, is outside the match on its side */
    NOTCHERGREY_MALFORMED_RECORDS = 15,   /* records_len is no multiple of 4, marks_len odd, or a direction above 1 */
    NOTCHERGREY_BUFFER_TOO_SHORT = 16,    /* the script, the records, the marks or the text do not fit */
    NOTCHERGREY_PRICE_TOO_HIGH = 17,      /* the gap price is above 1,000 */
    NOTCHERGREY_CHAIN_TOO_SHORT = 18,     /* the chain or score buffer has no number for each row of the table */
    NOTCHERGREY_TOO_MANY_MARKS = 19,      /* there is a mark 513 */
    NOTCHERGREY_NO_SUCH_SIDE = 20,        /* the side of a mark is above 1 */
    NOTCHERGREY_MARK_BEYOND = 21,         /* the position of a mark is above p on A, or above q on B */
    NOTCHERGREY_COUNTS_DIFFER = 22        /* the positions and the numbers lent for them are not equally many */
};

/* A row of a table: match number, left-A, left-B, length, direction (0 direct, 1 reversed). */
#define NOTCHERGREY_ROW_NUMBERS 5
/* The numbers of work that refining needs for each row that the table has room for. */
#define NOTCHERGREY_WORK_NUMBERS 4
/* A match in a list: left-A, left-B, length, direction (0 direct, 1 reversed). */
#define NOTCHERGREY_RECORD_NUMBERS 4
/* A mark in a list: side (0 A, 1 B), position. */
#define NOTCHERGREY_MARK_NUMBERS 2
/* The classes of lengths that a summary counts. */
#define NOTCHERGREY_CLASSES 30
/* The bytes of a script without matches and marks, and those that each match and each mark adds. */
#define NOTCHERGREY_SHORTEST_SCRIPT 10
#define NOTCHERGREY_MATCH_BYTES 13
#define NOTCHERGREY_MARK_BYTES 6
/* No gap price is higher. */
#define NOTCHERGREY_MOST_PRICE 1000
/* No script and no list has more matches, nor more marks. */
#define NOTCHERGREY_MOST_MATCHES 2048
#define NOTCHERGREY_MOST_MARKS 512
/* No longer script is admitted, and the first 29,707 bytes of a longer one decide how it is refused. */
#define NOTCHERGREY_LONGEST_SCRIPT 29706

/*
 * Reads a script. Returns 0 and sets p, q, the count of matches and the count of marks, or refuses with 1 to 10 or 19
 * to 21. Each function below that reads a script begins so: these are what is called the script's refusals.
 */
uint32_t notchergrey_read(const uint8_t *script, size_t script_len, size_t *place, uint32_t *p, uint32_t *q,
                          size_t *count, size_t *mark_count);

/*
 * One match of a script, by its number from 1. Returns 0 and sets its left ends, its length and `reversed` (0 or 1), or
 * refuses with the script's refusals or 13.
 */
uint32_t notchergrey_match(const uint8_t *script, size_t script_len, uint32_t number, size_t *place, uint32_t *left_a,
                           uint32_t *left_b, uint32_t *length, uint32_t *reversed);

/*
 * Writes the script of a list: p, q, the matches as records of four numbers, which are left-A, left-B, length and
 * direction (0 direct, 1 reversed), and the marks with two numbers each, which are side (0 A, 1 B) and position. In the
 * script the marks stand behind the matches. Returns 0, writes the script to the start of its buffer and sets `length`
 * to its length: NOTCHERGREY_SHORTEST_SCRIPT bytes, NOTCHERGREY_MATCH_BYTES for each record and NOTCHERGREY_MARK_BYTES
 * for each mark. The bytes behind it are kept. Everything is judged before the first byte is written. Refuses, in this
 * order, with 5; with 15 if records_len is no multiple of four or marks_len is odd; with 6; with 19; then record by
 * record with 15 for its direction, 7, 8 or 9; then mark by mark with 20 or 21; and last of all with 16 if the buffer
 * is too short. `place` becomes the record, counted from 1, where a record is at fault, the count of records and the
 * mark, counted from 1, together where a mark is, and else 0.
 */
uint32_t notchergrey_write(uint32_t p, uint32_t q, const uint32_t *records, size_t records_len, const uint32_t *marks,
                           size_t marks_len, uint8_t *script, size_t script_len, size_t *place, size_t *length);

/*
 * Reads a script back into its list. Returns 0, sets p, q, the count of matches and the count of marks, and writes the
 * records of the matches, 4 * count numbers, and the marks, 2 * mark_count numbers, each to the start of its buffer, in
 * the order of the script; the numbers behind them are kept. Refuses with the script's refusals, or with 16 if either
 * buffer is too short; notchergrey_read tells the counts beforehand. It undoes notchergrey_write: a script that was
 * written gives back the list that it was written from. It is undone by it where the script has all its matches before
 * its marks: the script of such a list is this script, byte for byte. Where a mark stands before a match, the script
 * that is written says the same with the marks behind.
 */
uint32_t notchergrey_read_records(const uint8_t *script, size_t script_len, uint32_t *records, size_t records_len,
                                  uint32_t *marks, size_t marks_len, size_t *place, uint32_t *p, uint32_t *q,
                                  size_t *count, size_t *mark_count);

/*
 * Makes the piece table of a script. The table has room for table_len / 5 rows; work needs four numbers for each of
 * them. Returns 0, writes the rows to the table's start, by match number and then by left-A, and sets `rows` to their
 * count; the numbers behind them are kept, and all of work is zero. A mark that some match spans on the mark's side,
 * both ends of the match included, is an end of pieces, so that no piece has it inside: the table is the least of those
 * that are so. A mark that no match spans there changes nothing, and neither does one that stands twice. Refuses with
 * the script's refusals, 11 or 12. On 12 all of work is zero too, and the table is kept: lend a larger one.
 */
uint32_t notchergrey_refine(const uint8_t *script, size_t script_len, uint32_t *table, size_t table_len,
                            uint32_t *work, size_t work_len, size_t *place, size_t *rows);

/*
 * Finds the backbone of a script: the best run of direct pieces that are in the same order on both genomes. A piece may
 * follow another if its left end is at or past the other's right end, on A and on B. The score of such a chain is the
 * sum of its lengths, less `price` times the letters skipped on A and on B between neighbours. No chain scores more;
 * among equals it is the one whose list of row numbers comes first. The table has room for table_len / 5 rows; work
 * needs four numbers for each of them, chain and scores one. Returns 0, leaves table and work as notchergrey_refine
 * does, writes the row numbers, from 1, to the start of chain, and sets `score`, `rows` to the count of the table's
 * rows and `length` to that of the chain's; the numbers behind the chain are kept, and all of scores is zero. With no
 * direct piece score and length are 0. Refuses with the script's refusals, 11, 17, 18 or 12, in this order. On 12 all
 * of work and of scores is zero, and the table and the chain are kept.
 */
uint32_t notchergrey_chain(const uint8_t *script, size_t script_len, uint32_t price, uint32_t *table, size_t table_len,
                           uint32_t *work, size_t work_len, uint32_t *chain, size_t chain_len, uint32_t *scores,
                           size_t scores_len, size_t *place, uint64_t *score, size_t *rows, size_t *length);

/*
 * Carries a position of A, between letters and counted from 0, to B over one match, by its number from 1; both ends of
 * the match can be carried. Returns 0 and sets `carried`, or refuses with the script's refusals, 13 or 14.
 */
uint32_t notchergrey_carry_from_a(const uint8_t *script, size_t script_len, uint32_t number, uint32_t position,
                                  size_t *place, uint32_t *carried);

/*
 * The same from B to A.
 */
uint32_t notchergrey_carry_from_b(const uint8_t *script, size_t script_len, uint32_t number, uint32_t position,
                                  size_t *place, uint32_t *carried);

/*
 * Carries many positions of A to B over one match, each as notchergrey_carry_from_a does. The script is read once for
 * all of them, however many they are. They may stand in any order, and the same one twice. Returns 0 and sets each
 * carried[k] to what positions[k] is carried to, which is all of `carried`. Refuses with the script's refusals, 13, 22
 * if carried_len is not positions_len, or 14 if one of the positions is outside the match, in this order; then none is
 * carried. Without positions, both lengths 0, it cannot refuse with 22 or 14. Nothing is carried in place: `carried`
 * and `positions` may not overlap.
 */
uint32_t notchergrey_carry_all_from_a(const uint8_t *script, size_t script_len, uint32_t number,
                                      const uint32_t *positions, size_t positions_len, uint32_t *carried,
                                      size_t carried_len, size_t *place);

/*
 * The same from B to A.
 */
uint32_t notchergrey_carry_all_from_b(const uint8_t *script, size_t script_len, uint32_t number,
                                      const uint32_t *positions, size_t positions_len, uint32_t *carried,
                                      size_t carried_len, size_t *place);

/*
 * Where the rows of one match stand in a table: from table[start] up to, not including, table[end]. It is the first
 * run of rows with that number; without one both are 0. Always returns 0. Hand over the finished rows alone, table_len
 * = 5 * rows: whatever stands behind them would be read as rows too. Up to four numbers that form no row are ignored.
 */
uint32_t notchergrey_rows_of(const uint32_t *table, size_t table_len, uint32_t number, size_t *start, size_t *end);

/*
 * Sums a table up: its pieces, the distinct ones among them, the letters that they cover on A in covers[0] and on B in
 * covers[1], and in classes[c] the pieces whose length is at least 2^c and below 2^(c+1). Rows are one piece if they
 * have the same left-A, left-B, length and direction, whatever their match numbers: a stretch and its mirror image are
 * two. Directions are compared as numbers, also those above 1. A letter is covered if it lies in at least one row's
 * stretch; in how many makes no difference. The stretch of a row is `length` letters from left-A on of A and from
 * left-B on of B, whatever its direction. The sum of left end and length does not wrap at 2^32, and a row of length 0
 * covers nothing. `covers` must point to two numbers and `classes` to thirty; all are set. Always returns 0. Hand over
 * the finished rows alone, as for notchergrey_rows_of. Of tables that notchergrey_refine made it took 0.005 s for
 * 100,000 rows and 0.26 s for 1,000,000 where it was measured; of rows that touch no other one, in an order not by
 * their left ends, 0.05 s and 2.2 s. From some 100,000 rows on its time grows with their square.
 */
uint32_t notchergrey_summary(const uint32_t *table, size_t table_len, size_t *pieces, size_t *distinct,
                             uint64_t covers[2], size_t classes[NOTCHERGREY_CLASSES]);

/*
 * The text that the program notchergrey prints for this script, with its table of 3,000 rows; a refused script has a
 * text too, the line that says so. Returns 0, writes the text to the buffer's start, with no zero byte behind it, and
 * sets `length` to its length; the bytes behind it are kept. If the buffer is too short it returns
 * NOTCHERGREY_BUFFER_TOO_SHORT, keeps the buffer and sets `length` to the length that is needed.
 */
uint32_t notchergrey_report(const uint8_t *script, size_t script_len, uint8_t *text, size_t text_len, size_t *length);

#ifdef __cplusplus
}
#endif

#endif

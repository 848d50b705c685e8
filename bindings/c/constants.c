/*
 * Holds the numbers of include/notchergrey.h to the library. Each refusal is provoked, by a script or a call made for
 * it, through every door that can give it, and what comes back is compared with the constant by its name; each size is
 * tried at its edge. Prints the name and number of each constant that held, one in a line, and ends with 1 at the first
 * that does not.
 */
#include "notchergrey.h"

#include <inttypes.h>
#include <stdio.h>
#include <stdlib.h>
#include <string.h>

/* What a script is made of, in bytes, and its limits. Nothing here is taken from the header. */
#define LENGTHS_BYTES 9
#define MATCH_BYTES 13
#define MARK_BYTES 6
#define MOST_MATCHES 2048
#define MOST_MARKS 512
#define MOST_LETTERS UINT32_C(1000000000)

static uint8_t script[LENGTHS_BYTES + (MOST_MATCHES + 1) * MATCH_BYTES + (MOST_MARKS + 1) * MARK_BYTES + 1];
static size_t script_len;

/* Room for the two matches of two_matches as records and as a script. */
#define MATCHES 2
#define RECORDS_LEN (MATCHES * NOTCHERGREY_RECORD_NUMBERS)
#define WRITTEN_LEN (NOTCHERGREY_SHORTEST_SCRIPT + MATCHES * NOTCHERGREY_MATCH_BYTES)
static uint32_t records[(MOST_MATCHES + 1) * NOTCHERGREY_RECORD_NUMBERS];
static uint8_t written[sizeof script];

/* Room for the two marks of two_marks. */
#define MARKS 2
#define MARKS_LEN (MARKS * NOTCHERGREY_MARK_NUMBERS)
static uint32_t marks[(MOST_MARKS + 1) * NOTCHERGREY_MARK_NUMBERS];

/* Room for the eight rows of two_matches. */
#define ROWS 8
#define TABLE_LEN (ROWS * NOTCHERGREY_ROW_NUMBERS)
#define WORK_LEN (ROWS * NOTCHERGREY_WORK_NUMBERS)
static uint32_t table[TABLE_LEN], work[WORK_LEN], chain[ROWS], scores[ROWS];

/* Three positions that both matches of two_matches span on both sides, and room for one number more. */
#define POSITIONS 3
static const uint32_t on_match[POSITIONS] = {4, 3, 4};
static uint32_t carried[POSITIONS + 1];

/* A refusal that a call must give. */
struct refusal {
    const char *name;
    uint32_t number;
    size_t place;
};
#define REFUSAL(name, place) ((struct refusal){#name, name, place})

/* What `place` holds before a call, so that one that sets no place is seen. */
#define NOWHERE SIZE_MAX

static void put(uint8_t byte)
{
    script[script_len++] = byte;
}

static void put_number(uint32_t number)
{
    for (int bits = 0; bits < 32; bits += 8)
        put((uint8_t)(number >> bits & 255));
}

/* Begins a script. */
static void lengths(uint32_t p, uint32_t q)
{
    script_len = 0;
    put('L');
    put_number(p);
    put_number(q);
}

static void match(char command, uint32_t left_a, uint32_t left_b, uint32_t length)
{
    put((uint8_t)command);
    put_number(left_a);
    put_number(left_b);
    put_number(length);
}

static void two_matches(void)
{
    lengths(10, 10);
    match('D', 0, 0, 6);
    match('R', 2, 3, 5);
}

static void many_matches(int count)
{
    lengths(MOST_LETTERS, MOST_LETTERS);
    for (int at = 0; at < count; at++)
        match('D', 0, 0, 1);
}

static void mark(uint8_t side, uint32_t position)
{
    put('M');
    put(side);
    put_number(position);
}

static void two_marks(void)
{
    mark(0, 1);
    mark(1, 7);
}

static void many_marks(int count)
{
    for (int at = 0; at < count; at++)
        mark(1, MOST_LETTERS);
}

static void record(size_t number, uint32_t left_a, uint32_t left_b, uint32_t length, uint32_t direction)
{
    uint32_t *const first = &records[(number - 1) * NOTCHERGREY_RECORD_NUMBERS];
    first[0] = left_a;
    first[1] = left_b;
    first[2] = length;
    first[3] = direction;
}

static void two_records(void)
{
    record(1, 0, 0, 6, 0);
    record(2, 2, 3, 5, 1);
}

static void many_records(size_t count)
{
    for (size_t number = 1; number <= count; number++)
        record(number, 0, 0, 1, 0);
}

static void listed_mark(size_t number, uint32_t side, uint32_t position)
{
    uint32_t *const first = &marks[(number - 1) * NOTCHERGREY_MARK_NUMBERS];
    first[0] = side;
    first[1] = position;
}

static void two_listed_marks(void)
{
    listed_mark(1, 0, 1);
    listed_mark(2, 1, 7);
}

static void many_listed_marks(size_t count)
{
    for (size_t number = 1; number <= count; number++)
        listed_mark(number, 1, MOST_LETTERS);
}

static void ensure(int holds, const char *name, const char *what)
{
    if (!holds) {
        fprintf(stderr, "constants: %s does not hold: %s\n", name, what);
        exit(1);
    }
}

static void held(const char *name, uint32_t number)
{
    printf("%s %" PRIu32 "\n", name, number);
}
#define HELD(name) held(#name, name)

static void ensure_refused(struct refusal wanted, uint32_t number, size_t place, const char *door)
{
    ensure(number == wanted.number && place == wanted.place, wanted.name, door);
}

static void refused_by_read(struct refusal wanted)
{
    size_t place = NOWHERE, count, mark_count;
    uint32_t p, q;
    const uint32_t number = notchergrey_read(script, script_len, &place, &p, &q, &count, &mark_count);
    ensure_refused(wanted, number, place, "notchergrey_read");
}

static void refused_by_match(struct refusal wanted, uint32_t of)
{
    size_t place = NOWHERE;
    uint32_t left_a, left_b, length, reversed;
    const uint32_t number = notchergrey_match(script, script_len, of, &place, &left_a, &left_b, &length, &reversed);
    ensure_refused(wanted, number, place, "notchergrey_match");
}

static void refused_by_refine(struct refusal wanted, size_t table_len, size_t work_len)
{
    size_t place = NOWHERE, rows;
    const uint32_t number = notchergrey_refine(script, script_len, table, table_len, work, work_len, &place, &rows);
    ensure_refused(wanted, number, place, "notchergrey_refine");
}

static void refused_by_chain(struct refusal wanted, uint32_t price, size_t table_len, size_t work_len, size_t chain_len,
                             size_t scores_len)
{
    size_t place = NOWHERE, rows, length;
    uint64_t score;
    const uint32_t number = notchergrey_chain(script, script_len, price, table, table_len, work, work_len, chain,
                                              chain_len, scores, scores_len, &place, &score, &rows, &length);
    ensure_refused(wanted, number, place, "notchergrey_chain");
}

static void refused_by_carry(struct refusal wanted, uint32_t of, uint32_t position)
{
    size_t place = NOWHERE;
    uint32_t carried;
    uint32_t number = notchergrey_carry_from_a(script, script_len, of, position, &place, &carried);
    ensure_refused(wanted, number, place, "notchergrey_carry_from_a");
    place = NOWHERE;
    number = notchergrey_carry_from_b(script, script_len, of, position, &place, &carried);
    ensure_refused(wanted, number, place, "notchergrey_carry_from_b");
}

/* What `carried` holds before a call, so that what is written to it is seen. */
static void put_rubbish(void)
{
    for (uint32_t at = 0; at <= POSITIONS; at++)
        carried[at] = 7 + at;
}

static void ensure_kept(struct refusal wanted)
{
    for (uint32_t at = 0; at <= POSITIONS; at++)
        ensure(carried[at] == 7 + at, wanted.name, "the numbers lent for positions are kept");
}

static void refused_by_carry_all(struct refusal wanted, uint32_t of, const uint32_t *positions, size_t positions_len,
                                 size_t carried_len)
{
    size_t place = NOWHERE;
    put_rubbish();
    uint32_t number = notchergrey_carry_all_from_a(script, script_len, of, positions, positions_len, carried,
                                                   carried_len, &place);
    ensure_refused(wanted, number, place, "notchergrey_carry_all_from_a");
    place = NOWHERE;
    number = notchergrey_carry_all_from_b(script, script_len, of, positions, positions_len, carried, carried_len,
                                          &place);
    ensure_refused(wanted, number, place, "notchergrey_carry_all_from_b");
    ensure_kept(wanted);
}

static void refused_by_read_records(struct refusal wanted, size_t records_len, size_t marks_len)
{
    size_t place = NOWHERE, count, mark_count;
    uint32_t p, q;
    const uint32_t number = notchergrey_read_records(script, script_len, records, records_len, marks, marks_len, &place,
                                                     &p, &q, &count, &mark_count);
    ensure_refused(wanted, number, place, "notchergrey_read_records");
}

static void refused_by_write(struct refusal wanted, uint32_t p, uint32_t q, size_t records_len, size_t marks_len,
                             size_t written_len)
{
    size_t place = NOWHERE, length;
    const uint32_t number = notchergrey_write(p, q, records, records_len, marks, marks_len, written, written_len,
                                              &place, &length);
    ensure_refused(wanted, number, place, "notchergrey_write");
}

/* Two records and two marks of sequences of ten letters. */
static void refused_list(struct refusal wanted)
{
    refused_by_write(wanted, 10, 10, RECORDS_LEN, MARKS_LEN, sizeof written);
}

/* Every door that reads a script refuses this one alike. */
static void refused_script(struct refusal wanted)
{
    refused_by_read(wanted);
    refused_by_read_records(wanted, RECORDS_LEN, MARKS_LEN);
    refused_by_match(wanted, 1);
    refused_by_refine(wanted, TABLE_LEN, WORK_LEN);
    refused_by_chain(wanted, 0, TABLE_LEN, WORK_LEN, ROWS, ROWS);
    refused_by_carry(wanted, 1, 0);
    refused_by_carry_all(wanted, 1, on_match, POSITIONS, POSITIONS);
    refused_by_carry_all(wanted, 1, NULL, 0, POSITIONS);
    held(wanted.name, wanted.number);
}

static void hold_refusals_of_scripts(void)
{
    const size_t first = LENGTHS_BYTES, second = first + MATCH_BYTES, third = second + MATCH_BYTES;

    script_len = 0;
    refused_script(REFUSAL(NOTCHERGREY_HEADLESS, 0));

    two_matches();
    put('X');
    refused_script(REFUSAL(NOTCHERGREY_UNKNOWN_COMMAND, third));

    two_matches();
    refused_script(REFUSAL(NOTCHERGREY_CUT_SHORT, third));

    two_matches();
    put('L');
    refused_script(REFUSAL(NOTCHERGREY_SECOND_LENGTHS, third));

    lengths(10, MOST_LETTERS + 1);
    refused_script(REFUSAL(NOTCHERGREY_LENGTH_OUT_OF_RANGE, 0));

    many_matches(MOST_MATCHES + 1);
    refused_script(REFUSAL(NOTCHERGREY_TOO_MANY_MATCHES, first + MOST_MATCHES * MATCH_BYTES));

    two_matches();
    match('D', 0, 0, 0);
    refused_script(REFUSAL(NOTCHERGREY_EMPTY_MATCH, third));

    lengths(10, 20);
    match('D', 5, 5, 6);
    refused_script(REFUSAL(NOTCHERGREY_BEYOND_A, first));

    lengths(20, 10);
    match('D', 5, 5, 6);
    refused_script(REFUSAL(NOTCHERGREY_BEYOND_B, first));

    two_matches();
    put('E');
    put('E');
    refused_script(REFUSAL(NOTCHERGREY_TAIL, third + 1));

    lengths(10, MOST_LETTERS);
    many_marks(MOST_MARKS);
    put('M');
    refused_script(REFUSAL(NOTCHERGREY_TOO_MANY_MARKS, first + MOST_MARKS * MARK_BYTES));

    two_matches();
    mark(2, 0);
    refused_script(REFUSAL(NOTCHERGREY_NO_SUCH_SIDE, third));

    lengths(10, 20);
    mark(1, 20);
    mark(0, 11);
    refused_script(REFUSAL(NOTCHERGREY_MARK_BEYOND, first + MARK_BYTES));
}

/* With the numbers that the two sizes say, neither more nor less. */
static void hold_refining(void)
{
    size_t place = NOWHERE, rows = 0;
    two_matches();
    put('E');
    const uint32_t number = notchergrey_refine(script, script_len, table, TABLE_LEN, work, WORK_LEN, &place, &rows);
    ensure(number == 0 && rows == ROWS, "NOTCHERGREY_ROW_NUMBERS or NOTCHERGREY_WORK_NUMBERS", "eight rows");

    refused_by_refine(REFUSAL(NOTCHERGREY_WORK_TOO_SHORT, 0), TABLE_LEN, WORK_LEN - 1);
    HELD(NOTCHERGREY_WORK_TOO_SHORT);
    HELD(NOTCHERGREY_WORK_NUMBERS);

    refused_by_refine(REFUSAL(NOTCHERGREY_TOO_MANY_PIECES, 0), TABLE_LEN - 1, WORK_LEN);
    HELD(NOTCHERGREY_TOO_MANY_PIECES);
    HELD(NOTCHERGREY_ROW_NUMBERS);
}

/* With the highest price, and as many numbers as the rows of the table are: then with one number fewer of each. */
static void hold_chaining(void)
{
    const uint32_t most = NOTCHERGREY_MOST_PRICE;
    size_t place = NOWHERE, rows = 0, length = 0;
    uint64_t score = 0;
    two_matches();
    put('E');
    const uint32_t number = notchergrey_chain(script, script_len, most, table, TABLE_LEN, work, WORK_LEN, chain, ROWS,
                                              scores, ROWS, &place, &score, &rows, &length);
    ensure(number == 0 && score == 6 && rows == ROWS && length == 4, "NOTCHERGREY_MOST_PRICE", "four rows of eight");

    refused_by_chain(REFUSAL(NOTCHERGREY_PRICE_TOO_HIGH, 0), most + 1, TABLE_LEN, WORK_LEN, ROWS, ROWS);
    refused_by_chain(REFUSAL(NOTCHERGREY_PRICE_TOO_HIGH, 0), UINT32_MAX, TABLE_LEN, WORK_LEN, ROWS, ROWS);
    HELD(NOTCHERGREY_PRICE_TOO_HIGH);
    HELD(NOTCHERGREY_MOST_PRICE);

    refused_by_chain(REFUSAL(NOTCHERGREY_CHAIN_TOO_SHORT, 0), most, TABLE_LEN, WORK_LEN, ROWS - 1, ROWS);
    refused_by_chain(REFUSAL(NOTCHERGREY_CHAIN_TOO_SHORT, 0), most, TABLE_LEN, WORK_LEN, ROWS, ROWS - 1);
    HELD(NOTCHERGREY_CHAIN_TOO_SHORT);

    refused_by_chain(REFUSAL(NOTCHERGREY_WORK_TOO_SHORT, 0), most, TABLE_LEN, WORK_LEN - 1, ROWS, ROWS);
    refused_by_chain(REFUSAL(NOTCHERGREY_TOO_MANY_PIECES, 0), most, TABLE_LEN - 1, WORK_LEN, ROWS, ROWS);
}

static void hold_refusals_of_carrying(void)
{
    const uint32_t none[] = {0, 3};
    two_matches();
    put('E');
    for (int at = 0; at < 2; at++) {
        refused_by_match(REFUSAL(NOTCHERGREY_NO_SUCH_MATCH, 0), none[at]);
        refused_by_carry(REFUSAL(NOTCHERGREY_NO_SUCH_MATCH, 0), none[at], 3);
        refused_by_carry_all(REFUSAL(NOTCHERGREY_NO_SUCH_MATCH, 0), none[at], on_match, POSITIONS, POSITIONS);
        refused_by_carry_all(REFUSAL(NOTCHERGREY_NO_SUCH_MATCH, 0), none[at], NULL, 0, 0);
        refused_by_carry_all(REFUSAL(NOTCHERGREY_NO_SUCH_MATCH, 0), none[at], NULL, 0, 1);
    }
    HELD(NOTCHERGREY_NO_SUCH_MATCH);

    refused_by_carry(REFUSAL(NOTCHERGREY_OFF_THE_MATCH, 0), 2, 9);
    for (int at = 0; at < POSITIONS; at++) {
        uint32_t one_off[POSITIONS] = {4, 3, 4};
        one_off[at] = 9;
        refused_by_carry_all(REFUSAL(NOTCHERGREY_OFF_THE_MATCH, 0), 2, one_off, POSITIONS, POSITIONS);
    }
    HELD(NOTCHERGREY_OFF_THE_MATCH);
}

/* One number fewer than there are positions and one more, with one of them off the match; and then as many. */
static void hold_carrying_many(void)
{
    const uint32_t one_off[POSITIONS] = {4, 3, 9};
    const uint32_t wanted_on_b[POSITIONS] = {7, 6, 7}, wanted_on_a[POSITIONS] = {1, 0, 1};
    const char *const name = "NOTCHERGREY_COUNTS_DIFFER";
    size_t place = NOWHERE;
    two_matches();
    put('E');
    refused_by_carry_all(REFUSAL(NOTCHERGREY_COUNTS_DIFFER, 0), 2, one_off, POSITIONS, POSITIONS - 1);
    refused_by_carry_all(REFUSAL(NOTCHERGREY_COUNTS_DIFFER, 0), 2, one_off, POSITIONS, POSITIONS + 1);
    refused_by_carry_all(REFUSAL(NOTCHERGREY_COUNTS_DIFFER, 0), 2, NULL, 0, 1);
    refused_by_carry_all(REFUSAL(NOTCHERGREY_COUNTS_DIFFER, 0), 2, on_match, POSITIONS, 0);

    lengths(10, 10);
    match('D', 0, 3, 6);
    put('E');
    ensure(notchergrey_carry_all_from_a(script, script_len, 1, NULL, 0, NULL, 0, &place) == 0 &&
               notchergrey_carry_all_from_b(script, script_len, 1, NULL, 0, NULL, 0, &place) == 0 && place == NOWHERE,
           name, "no positions and no numbers");
    put_rubbish();
    ensure(notchergrey_carry_all_from_a(script, script_len, 1, on_match, POSITIONS, carried, POSITIONS, &place) == 0 &&
               place == NOWHERE && memcmp(carried, wanted_on_b, sizeof wanted_on_b) == 0 &&
               carried[POSITIONS] == 7 + POSITIONS,
           name, "as many numbers as positions, from A");
    put_rubbish();
    ensure(notchergrey_carry_all_from_b(script, script_len, 1, on_match, POSITIONS, carried, POSITIONS, &place) == 0 &&
               place == NOWHERE && memcmp(carried, wanted_on_a, sizeof wanted_on_a) == 0 &&
               carried[POSITIONS] == 7 + POSITIONS,
           name, "as many numbers as positions, from B");
    HELD(NOTCHERGREY_COUNTS_DIFFER);
}

/* Those that scripts have too are the same numbers; what differs is the place. */
static void hold_refusals_of_records(void)
{
    two_records();
    two_listed_marks();
    refused_by_write(REFUSAL(NOTCHERGREY_LENGTH_OUT_OF_RANGE, 0), 10, MOST_LETTERS + 1, RECORDS_LEN, MARKS_LEN,
                     WRITTEN_LEN);
    refused_by_write(REFUSAL(NOTCHERGREY_MALFORMED_RECORDS, 0), 10, 10, RECORDS_LEN - 1, MARKS_LEN, WRITTEN_LEN);
    refused_by_write(REFUSAL(NOTCHERGREY_MALFORMED_RECORDS, 0), 10, 10, RECORDS_LEN, MARKS_LEN - 1, WRITTEN_LEN);

    record(2, 2, 3, 5, 2);
    refused_list(REFUSAL(NOTCHERGREY_MALFORMED_RECORDS, 2));
    HELD(NOTCHERGREY_MALFORMED_RECORDS);

    record(2, 2, 3, 0, 1);
    refused_list(REFUSAL(NOTCHERGREY_EMPTY_MATCH, 2));

    record(2, 6, 3, 5, 1);
    refused_list(REFUSAL(NOTCHERGREY_BEYOND_A, 2));

    record(2, 2, 6, 5, 1);
    refused_list(REFUSAL(NOTCHERGREY_BEYOND_B, 2));

    two_records();
    listed_mark(2, 2, 7);
    refused_list(REFUSAL(NOTCHERGREY_NO_SUCH_SIDE, MATCHES + 2));

    listed_mark(2, 1, 11);
    refused_list(REFUSAL(NOTCHERGREY_MARK_BEYOND, MATCHES + 2));
}

/* Writes this list, of the sequences of `script`, to just as many bytes as the sizes say: they are that script. */
static void ensure_written(uint32_t letters, size_t matches, size_t mark_count, const char *name)
{
    const size_t records_len = matches * NOTCHERGREY_RECORD_NUMBERS, marks_len = mark_count * NOTCHERGREY_MARK_NUMBERS;
    const size_t written_len = NOTCHERGREY_SHORTEST_SCRIPT + matches * NOTCHERGREY_MATCH_BYTES +
                               mark_count * NOTCHERGREY_MARK_BYTES;
    size_t place = NOWHERE, length = 0;
    ensure(notchergrey_write(letters, letters, records, records_len, marks, marks_len, written, written_len, &place,
                             &length) == 0 &&
               length == written_len,
           name, "as many bytes as the script has");
    ensure(length == script_len && memcmp(written, script, length) == 0, name, "the bytes of the script");
    refused_by_write(REFUSAL(NOTCHERGREY_BUFFER_TOO_SHORT, 0), letters, letters, records_len, marks_len,
                     written_len - 1);
}

static void hold_writing(void)
{
    lengths(10, 10);
    put('E');
    ensure_written(10, 0, 0, "NOTCHERGREY_SHORTEST_SCRIPT");
    HELD(NOTCHERGREY_SHORTEST_SCRIPT);

    two_matches();
    put('E');
    two_records();
    ensure_written(10, MATCHES, 0, "NOTCHERGREY_MATCH_BYTES");
    HELD(NOTCHERGREY_MATCH_BYTES);

    two_matches();
    two_marks();
    put('E');
    two_listed_marks();
    ensure_written(10, MATCHES, MARKS, "NOTCHERGREY_MARK_BYTES");
    HELD(NOTCHERGREY_MARK_BYTES);

    many_matches(MOST_MATCHES);
    many_marks(MOST_MARKS);
    put('E');
    many_records(MOST_MATCHES + 1);
    many_listed_marks(MOST_MARKS + 1);
    ensure(NOTCHERGREY_MOST_MATCHES == MOST_MATCHES, "NOTCHERGREY_MOST_MATCHES", "2,048 matches");
    ensure(NOTCHERGREY_MOST_MARKS == MOST_MARKS, "NOTCHERGREY_MOST_MARKS", "512 marks");
    ensure_written(MOST_LETTERS, NOTCHERGREY_MOST_MATCHES, NOTCHERGREY_MOST_MARKS, "NOTCHERGREY_MOST_MATCHES");
    const size_t too_many_records = (NOTCHERGREY_MOST_MATCHES + 1) * NOTCHERGREY_RECORD_NUMBERS;
    const size_t too_many_marks = (NOTCHERGREY_MOST_MARKS + 1) * NOTCHERGREY_MARK_NUMBERS;
    refused_by_write(REFUSAL(NOTCHERGREY_TOO_MANY_MATCHES, 0), MOST_LETTERS, MOST_LETTERS, too_many_records,
                     too_many_marks, sizeof written);
    HELD(NOTCHERGREY_MOST_MATCHES);
    refused_by_write(REFUSAL(NOTCHERGREY_TOO_MANY_MARKS, 0), MOST_LETTERS, MOST_LETTERS, RECORDS_LEN, too_many_marks,
                     sizeof written);
    HELD(NOTCHERGREY_MOST_MARKS);
}

/* One number fewer than the records have, one fewer than the marks have, and then as many as they have. */
static void hold_reading_records(void)
{
    static const uint32_t wanted[] = {0, 0, 6, 0, 2, 3, 5, 1}, wanted_marks[] = {0, 1, 1, 7};
    size_t place = NOWHERE, count = 0, mark_count = 0;
    uint32_t p, q;
    two_matches();
    two_marks();
    put('E');
    refused_by_read_records(REFUSAL(NOTCHERGREY_BUFFER_TOO_SHORT, 0), RECORDS_LEN - 1, MARKS_LEN);
    refused_by_read_records(REFUSAL(NOTCHERGREY_BUFFER_TOO_SHORT, 0), RECORDS_LEN, MARKS_LEN - 1);
    ensure(notchergrey_read_records(script, script_len, records, RECORDS_LEN, marks, MARKS_LEN, &place, &p, &q, &count,
                                    &mark_count) == 0 &&
               count == MATCHES && sizeof wanted == RECORDS_LEN * sizeof *records &&
               memcmp(records, wanted, sizeof wanted) == 0,
           "NOTCHERGREY_RECORD_NUMBERS", "two records");
    HELD(NOTCHERGREY_RECORD_NUMBERS);
    ensure(mark_count == MARKS && sizeof wanted_marks == MARKS_LEN * sizeof *marks &&
               memcmp(marks, wanted_marks, sizeof wanted_marks) == 0,
           "NOTCHERGREY_MARK_NUMBERS", "two marks");
    HELD(NOTCHERGREY_MARK_NUMBERS);
}

/* One byte fewer than the text has, and then as many as it has. */
static void hold_reporting(void)
{
    static const char wanted[] = "refused 1 0\n";
    const size_t wanted_len = sizeof wanted - 1;
    uint8_t text[sizeof wanted];
    size_t length = 0;
    script_len = 0;
    ensure(notchergrey_report(script, script_len, text, wanted_len - 1, &length) == NOTCHERGREY_BUFFER_TOO_SHORT &&
               length == wanted_len,
           "NOTCHERGREY_BUFFER_TOO_SHORT", "a byte too few");
    ensure(notchergrey_report(script, script_len, text, wanted_len, &length) == 0 && length == wanted_len &&
               memcmp(text, wanted, wanted_len) == 0,
           "NOTCHERGREY_BUFFER_TOO_SHORT", "as many bytes as the text has");
    HELD(NOTCHERGREY_BUFFER_TOO_SHORT);
}

/*
 * Lengths from 2^29 on, below 2^30, are in the last class, and none is written behind it. The covers of A, where the
 * last row goes beyond 2^32, are apart from those of B, and none is written behind them.
 */
static void hold_classes(void)
{
    const uint32_t rows[] = {1, 0, 0, 536870912, 0, 2, 0, 0, 1073741823, 0, 3, UINT32_MAX, 0, 1073741824, 0};
    enum { SIDES = 2, BEHIND = 64 };
    const uint64_t wanted_covers[SIDES] = {2147483647, 1073741824};
    size_t pieces, distinct, classes[NOTCHERGREY_CLASSES + BEHIND];
    uint64_t covers[SIDES + BEHIND];
    for (size_t at = 0; at < NOTCHERGREY_CLASSES + BEHIND; at++)
        classes[at] = 7;
    for (size_t at = 0; at < SIDES + BEHIND; at++)
        covers[at] = 7;
    notchergrey_summary(rows, sizeof rows / sizeof *rows, &pieces, &distinct, covers, classes);
    for (size_t at = 0; at < NOTCHERGREY_CLASSES + BEHIND; at++) {
        const size_t wanted = at >= NOTCHERGREY_CLASSES ? 7 : at == NOTCHERGREY_CLASSES - 1 ? 2 : 0;
        ensure(classes[at] == wanted, "NOTCHERGREY_CLASSES", "the last class");
    }
    for (size_t at = 0; at < SIDES + BEHIND; at++) {
        const uint64_t wanted = at >= SIDES ? 7 : wanted_covers[at];
        ensure(covers[at] == wanted, "NOTCHERGREY_CLASSES", "the covers beside the classes");
    }
    HELD(NOTCHERGREY_CLASSES);
}

/* It passes, no other script is longer, and a byte more is enough to see that one is. */
static void hold_longest_script(void)
{
    size_t place = NOWHERE, count = 0, mark_count = 0;
    uint32_t p, q;
    many_matches(MOST_MATCHES);
    many_marks(MOST_MARKS);
    put('E');
    ensure(notchergrey_read(script, script_len, &place, &p, &q, &count, &mark_count) == 0 && count == MOST_MATCHES &&
               mark_count == MOST_MARKS && script_len == NOTCHERGREY_LONGEST_SCRIPT,
           "NOTCHERGREY_LONGEST_SCRIPT", "2,048 matches and 512 marks");

    many_matches(MOST_MATCHES);
    many_marks(MOST_MARKS + 1);
    put('E');
    refused_by_read(REFUSAL(NOTCHERGREY_TOO_MANY_MARKS, NOTCHERGREY_LONGEST_SCRIPT - 1));
    script_len = NOTCHERGREY_LONGEST_SCRIPT + 1;
    refused_by_read(REFUSAL(NOTCHERGREY_TOO_MANY_MARKS, NOTCHERGREY_LONGEST_SCRIPT - 1));

    many_matches(MOST_MATCHES);
    many_marks(MOST_MARKS);
    match('D', 0, 0, 1);
    put('E');
    refused_by_read(REFUSAL(NOTCHERGREY_TOO_MANY_MATCHES, NOTCHERGREY_LONGEST_SCRIPT - 1));
    script_len = NOTCHERGREY_LONGEST_SCRIPT + 1;
    refused_by_read(REFUSAL(NOTCHERGREY_TOO_MANY_MATCHES, NOTCHERGREY_LONGEST_SCRIPT - 1));
    HELD(NOTCHERGREY_LONGEST_SCRIPT);
}

int main(void)
{
    hold_refusals_of_scripts();
    hold_refining();
    hold_chaining();
    hold_refusals_of_carrying();
    hold_carrying_many();
    hold_refusals_of_records();
    hold_writing();
    hold_reading_records();
    hold_reporting();
    hold_classes();
    hold_longest_script();
    return 0;
}

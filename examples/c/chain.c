/*
 * Prints the backbone of a script: the best run of direct pieces that are in the same order on both genomes, at a gap
 * price. From the repository's root, after `bash archive capi`:
 *
 *     cc -std=c99 -Iinclude examples/c/chain.c target/staticlib/libcapi.a -o chain
 *     ./chain 1 examples/two-matches.script
 *
 * The first line has the score, the count of the table's rows and the length of the chain. Each line behind it is a row
 * of the chain: its number in the table, left-A, left-B and length. bindings/rust/examples/chain.rs prints the same.
 *
 * What is wrong is said on standard error, with what to do, and nothing is written then.
 */
#include "notchergrey.h"

#include <errno.h>
#include <inttypes.h>
#include <stdio.h>
#include <stdlib.h>
#include <string.h>

/* The rows that there is room for at first, and at most: some 44 MB. */
#define FIRST_ROWS 3000
#define MOST_ROWS 1000000

static const char usage[] =
    "usage: chain PRICE [SCRIPT]\n"
    "Prints the backbone of a script. Without a file it reads standard input. PRICE is what a letter costs that the\n"
    "backbone skips, from 0 to 1000; at 0 nothing is lost by skipping.\n"
    "Exit status: 1 if the script is refused or cannot be read, or nothing can be written, 2 for a wrong call.\n";

/* One byte more than any admitted script has is enough to refuse a longer one. */
static uint8_t script[NOTCHERGREY_LONGEST_SCRIPT + 1];

/* Four buffers in one piece of memory, for so many rows. */
struct room {
    size_t rows;
    uint32_t *table, *work, *chain, *scores;
};

/* What the call returned and set. */
struct answer {
    uint32_t refused;
    size_t place, rows, length;
    uint64_t score;
};

/* Digits alone are a price, and only up to the highest one. Returns 0 for any other word. */
static int read_price(const char *word, uint32_t *price)
{
    const size_t digits = strspn(word, "0123456789");
    if (digits == 0 || word[digits] != '\0')
        return 0;
    const unsigned long number = strtoul(word, NULL, 10);
    *price = (uint32_t)number;
    return number <= NOTCHERGREY_MOST_PRICE;
}

/* Parts memory, which is the caller's to free, into the four buffers. Returns 0 if there is none. */
static int make_room(struct room *room, size_t rows)
{
    const size_t numbers = NOTCHERGREY_ROW_NUMBERS + NOTCHERGREY_WORK_NUMBERS + 2;
    room->table = malloc(rows * numbers * sizeof *room->table);
    if (room->table == NULL)
        return 0;
    room->rows = rows;
    room->work = room->table + rows * NOTCHERGREY_ROW_NUMBERS;
    room->chain = room->work + rows * NOTCHERGREY_WORK_NUMBERS;
    room->scores = room->chain + rows;
    return 1;
}

static struct answer find_backbone(size_t script_len, uint32_t price, const struct room *room)
{
    struct answer got = {0};
    got.refused = notchergrey_chain(script, script_len, price, room->table, room->rows * NOTCHERGREY_ROW_NUMBERS,
                                    room->work, room->rows * NOTCHERGREY_WORK_NUMBERS, room->chain, room->rows,
                                    room->scores, room->rows, &got.place, &got.score, &got.rows, &got.length);
    return got;
}

/* Row numbers are counted from 1. */
static void print_backbone(const struct answer *got, const struct room *room)
{
    printf("score %" PRIu64 " rows %zu chain %zu\n", got->score, got->rows, got->length);
    for (size_t at = 0; at < got->length; at++) {
        const uint32_t number = room->chain[at];
        const uint32_t *row = &room->table[(size_t)(number - 1) * NOTCHERGREY_ROW_NUMBERS];
        printf("%" PRIu32 " %" PRIu32 " %" PRIu32 " %" PRIu32 "\n", number, row[1], row[2], row[3]);
    }
}

static void say_refusal(const char *name, const struct answer *got)
{
    fprintf(stderr, "chain: %s: refused with %" PRIu32 " at %zu: ", name, got->refused, got->place);
    if (got->refused == NOTCHERGREY_TOO_MANY_PIECES)
        fprintf(stderr, "its table has more than %d rows; leave out matches that overlap many others\n", MOST_ROWS);
    else
        fprintf(stderr, "docs/REFUSALS.md says what this number means, and what to do\n");
}

/* Makes room for twice as many rows as before as long as they are too few. Returns the exit status. */
static int print_script(const char *name, size_t script_len, uint32_t price)
{
    struct answer got;
    size_t rows = FIRST_ROWS;
    for (;;) {
        struct room room;
        if (!make_room(&room, rows)) {
            fprintf(stderr, "chain: %s: out of memory for %zu rows; make memory free\n", name, rows);
            return 1;
        }
        got = find_backbone(script_len, price, &room);
        if (got.refused == 0)
            print_backbone(&got, &room);
        free(room.table);
        if (got.refused != NOTCHERGREY_TOO_MANY_PIECES || rows == MOST_ROWS)
            break;
        rows = rows > MOST_ROWS / 2 ? MOST_ROWS : 2 * rows;
    }
    if (got.refused != 0)
        say_refusal(name, &got);
    return got.refused != 0;
}

/* Says what the system says of the call before. Returns the exit status. */
static int failed(const char *name)
{
    fprintf(stderr, "chain: %s: %s\n", name, strerror(errno));
    return 1;
}

int main(int argc, char **argv)
{
    uint32_t price;
    if (argc < 2 || argc > 3 || !read_price(argv[1], &price)) {
        fputs(usage, stderr);
        return 2;
    }
    const char *name = argc == 3 ? argv[2] : "standard input";
    FILE *file = argc == 3 ? fopen(name, "rb") : stdin;
    if (file == NULL)
        return failed(name);
    const size_t script_len = fread(script, 1, sizeof script, file);
    if (ferror(file))
        return failed(name);
    fclose(file);
    const int status = print_script(name, script_len, price);
    if (fflush(stdout) != 0 || ferror(stdout))
        return failed("standard output");
    return status;
}

/*
 * Reads the script in the file named on the command line and prints its piece table, as the program notchergrey does
 * for its standard input. From the repository's root, after `bash archive capi`:
 *
 *     cc -std=c99 -Iinclude examples/c/print_table.c target/staticlib/libcapi.a -o print_table
 *     ./print_table examples/two-matches.script
 */
#include "notchergrey.h"

#include <inttypes.h>
#include <stdio.h>

/* The rows that the program makes room for. */
#define ROWS 3000

/* One byte more than any admitted script has is enough to refuse a longer one. */
static uint8_t script[NOTCHERGREY_LONGEST_SCRIPT + 1];
static uint32_t table[ROWS * NOTCHERGREY_ROW_NUMBERS];
static uint32_t work[ROWS * NOTCHERGREY_WORK_NUMBERS];

static void print_refusal(uint32_t number, size_t place)
{
    printf("refused %" PRIu32 " %zu\n", number, place);
}

static void print_row(const uint32_t *row)
{
    const char sign = row[4] == 0 ? '+' : '-';
    printf("%" PRIu32 " %" PRIu32 " %" PRIu32 " %" PRIu32 " %c\n", row[0], row[1], row[2], row[3], sign);
}

/* The second line, the rows and the classes that aren't empty. Only the finished rows are handed to the summary. */
static void print_table(size_t matches, size_t rows)
{
    const size_t table_len = rows * NOTCHERGREY_ROW_NUMBERS;
    size_t pieces, distinct, classes[NOTCHERGREY_CLASSES];
    uint64_t covers[2];
    notchergrey_summary(table, table_len, &pieces, &distinct, covers, classes);
    printf("matches %zu pieces %zu distinct %zu covers %" PRIu64 " %" PRIu64 "\n", matches, pieces, distinct, covers[0],
           covers[1]);
    for (size_t at = 0; at < table_len; at += NOTCHERGREY_ROW_NUMBERS)
        print_row(&table[at]);
    for (int c = 0; c < NOTCHERGREY_CLASSES; c++)
        if (classes[c] > 0)
            printf("class %d %zu\n", c, classes[c]);
}

static void print_script(size_t script_len)
{
    size_t place, count, mark_count, rows;
    uint32_t p, q;
    uint32_t refused = notchergrey_read(script, script_len, &place, &p, &q, &count, &mark_count);
    if (refused == 0)
        refused = notchergrey_refine(script, script_len, table, sizeof table / sizeof *table, work,
                                     sizeof work / sizeof *work, &place, &rows);
    if (refused != 0) {
        print_refusal(refused, place);
        return;
    }
    printf("lengths %" PRIu32 " %" PRIu32 "\n", p, q);
    print_table(count, rows);
}

int main(int argc, char **argv)
{
    if (argc != 2) {
        fprintf(stderr, "usage: print_table SCRIPT\n");
        return 2;
    }
    FILE *file = fopen(argv[1], "rb");
    if (file == NULL) {
        perror(argv[1]);
        return 1;
    }
    const size_t script_len = fread(script, 1, sizeof script, file);
    if (ferror(file)) {
        perror(argv[1]);
        return 1;
    }
    fclose(file);
    print_script(script_len);
    if (fflush(stdout) != 0) {
        perror("standard output");
        return 1;
    }
    return 0;
}

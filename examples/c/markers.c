/*
 * Lays a breeder's markers on a script. Each marker becomes a mark, so that no piece has it inside, and the program
 * prints where the markers stand on the other genome. From the repository's root, after `bash archive capi`:
 *
 *     cc -std=c99 -Iinclude examples/c/markers.c target/staticlib/libcapi.a -o markers
 *     ./markers examples/two-matches.script A 1 B 7 A 9
 *
 * The first line has the count of the table's rows without the markers, and with them. Each line behind it is a marker
 * and a match that spans it: the marker's genome and position, the number of the match, the other genome and the
 * position there. A marker that no match spans has a line that says so. bindings/rust/examples/markers.rs prints the
 * same.
 *
 * What is wrong is said on standard error, with what to do, and nothing is written then.
 */
#include "notchergrey.h"

#include <errno.h>
#include <inttypes.h>
#include <stdio.h>
#include <stdlib.h>
#include <string.h>

/* The rows that there is room for: some 36 MB. */
#define ROWS 1000000

static const char usage[] =
    "usage: markers SCRIPT [SIDE POSITION]..\n"
    "Lays markers on a script and prints where they stand on the other genome. SIDE is A or B. POSITION lies between\n"
    "letters and is counted from 0.\n"
    "Exit status: 1 if the script or a marker is refused, or cannot be read or written, 2 for a wrong call.\n";

/* One byte more than any admitted script has is enough to refuse a longer one. */
static uint8_t script[NOTCHERGREY_LONGEST_SCRIPT + 1], laid[NOTCHERGREY_LONGEST_SCRIPT];
static size_t script_len, laid_len;

/* The list of the script. There is room for one mark more than a list may have, which is enough to refuse more. */
static uint32_t records[NOTCHERGREY_MOST_MATCHES * NOTCHERGREY_RECORD_NUMBERS];
static uint32_t marks[(NOTCHERGREY_MOST_MARKS + 1) * NOTCHERGREY_MARK_NUMBERS];
static uint32_t p, q;
static size_t matches, own_marks;

static uint32_t table[ROWS * NOTCHERGREY_ROW_NUMBERS], work[ROWS * NOTCHERGREY_WORK_NUMBERS];

/* Digits alone are a position. Returns 0 for any other word, and for a number that does not fit. */
static int read_marker(char **words, uint32_t *mark)
{
    const char *side = words[0], *position = words[1];
    const size_t digits = strspn(position, "0123456789");
    if ((strcmp(side, "A") != 0 && strcmp(side, "B") != 0) || digits == 0 || position[digits] != '\0')
        return 0;
    errno = 0;
    const unsigned long long number = strtoull(position, NULL, 10);
    mark[0] = side[0] == 'B';
    mark[1] = (uint32_t)number;
    return errno == 0 && number <= UINT32_MAX;
}

/* Says that a call refused, and where. Returns the exit status. */
static int refused(const char *name, uint32_t number, size_t place)
{
    fprintf(stderr, "markers: %s: refused with %" PRIu32 " at %zu: ", name, number, place);
    if (number == NOTCHERGREY_TOO_MANY_PIECES)
        fprintf(stderr, "its table has more than %d rows; leave out matches that overlap many others\n", ROWS);
    else
        fprintf(stderr, "docs/REFUSALS.md says what this number means, and what to do\n");
    return 1;
}

/* The writer counts marks on from the matches, and those of the script itself come before the markers. */
static int refused_marker(const char *name, uint32_t number, size_t place)
{
    if (place > matches + own_marks) {
        fprintf(stderr, "markers: %s: marker %zu: refused with %" PRIu32 " at %zu: ", name, place - matches - own_marks,
                number, place);
        fprintf(stderr, "check its position, which is counted from 0, its side, and the length of that genome\n");
        return 1;
    }
    return refused(name, number, place);
}

static uint32_t count_rows(const uint8_t *bytes, size_t length, size_t *place, size_t *rows)
{
    return notchergrey_refine(bytes, length, table, sizeof table / sizeof *table, work, sizeof work / sizeof *work,
                              place, rows);
}

/* Where the matches that span a marker carry it to. A match that does not span it refuses that with 14. */
static void print_marker(const uint32_t *mark)
{
    const char here = mark[0] == 0 ? 'A' : 'B', there = mark[0] == 0 ? 'B' : 'A';
    int spanned = 0;
    for (uint32_t number = 1; number <= matches; number++) {
        size_t place;
        uint32_t carried;
        const uint32_t off = mark[0] == 0 ? notchergrey_carry_from_a(laid, laid_len, number, mark[1], &place, &carried)
                                          : notchergrey_carry_from_b(laid, laid_len, number, mark[1], &place, &carried);
        if (off != 0)
            continue;
        printf("%c %" PRIu32 " match %" PRIu32 " %c %" PRIu32 "\n", here, mark[1], number, there, carried);
        spanned = 1;
    }
    if (!spanned)
        printf("%c %" PRIu32 " no match\n", here, mark[1]);
}

/* Lays the markers, two words each, behind the script's own marks. Returns the exit status. */
static int print_markers(const char *name, char **words, size_t count)
{
    size_t place, rows, rows_laid;
    uint32_t number = notchergrey_read_records(script, script_len, records, sizeof records / sizeof *records, marks,
                                               sizeof marks / sizeof *marks, &place, &p, &q, &matches, &own_marks);
    if (number != 0)
        return refused(name, number, place);
    const size_t room = NOTCHERGREY_MOST_MARKS + 1 - own_marks;
    const size_t taken = count < room ? count : room;
    uint32_t *const first = &marks[own_marks * NOTCHERGREY_MARK_NUMBERS];
    for (size_t at = 0; at < taken; at++)
        read_marker(&words[2 * at], &first[at * NOTCHERGREY_MARK_NUMBERS]);
    number = notchergrey_write(p, q, records, matches * NOTCHERGREY_RECORD_NUMBERS, marks,
                               (own_marks + taken) * NOTCHERGREY_MARK_NUMBERS, laid, sizeof laid, &place, &laid_len);
    if (number != 0)
        return refused_marker(name, number, place);
    number = count_rows(script, script_len, &place, &rows);
    if (number == 0)
        number = count_rows(laid, laid_len, &place, &rows_laid);
    if (number != 0)
        return refused(name, number, place);
    printf("rows %zu %zu\n", rows, rows_laid);
    for (size_t at = 0; at < count; at++)
        print_marker(&first[at * NOTCHERGREY_MARK_NUMBERS]);
    return 0;
}

/* Says what the system says of the call before. Returns the exit status. */
static int failed(const char *name)
{
    fprintf(stderr, "markers: %s: %s\n", name, strerror(errno));
    return 1;
}

int main(int argc, char **argv)
{
    int are_markers = argc % 2 == 0;
    for (int at = 2; are_markers && at < argc; at += 2) {
        uint32_t mark[NOTCHERGREY_MARK_NUMBERS];
        are_markers = read_marker(&argv[at], mark);
    }
    if (!are_markers) {
        fputs(usage, stderr);
        return 2;
    }
    FILE *file = fopen(argv[1], "rb");
    if (file == NULL)
        return failed(argv[1]);
    script_len = fread(script, 1, sizeof script, file);
    if (ferror(file))
        return failed(argv[1]);
    fclose(file);
    const int status = print_markers(argv[1], &argv[2], (size_t)(argc - 2) / 2);
    if (fflush(stdout) != 0 || ferror(stdout))
        return failed("standard output");
    return status;
}

/*
 * Lays a set of markers of one genome on the other: one call carries all those that a match spans. From the
 * repository's root, after `bash archive capi`:
 *
 *     cc -std=c99 -Iinclude examples/c/lay_markers.c target/staticlib/libcapi.a -o lay_markers
 *     ./lay_markers examples/real/pylori-b.script A examples/real/pylori-b.hindiii.txt
 *
 * The first line counts the markers, those that one match spans, those that several do and those that none does. Behind
 * it each match, in the order of the script, has a line for each marker that it spans, from left to right: the marker's
 * genome and position, the number of the match, the row of the table that has the marker inside, or the word cut if it
 * stands at an end of pieces, the other genome and the position there. Last come the markers that no match spans.
 * docs/MARKERS.md says more. bindings/rust/examples/lay_markers.rs prints the same.
 *
 * What is wrong is said on standard error, with what to do, and nothing is written then.
 */
#include "notchergrey.h"

#include <errno.h>
#include <inttypes.h>
#include <stdio.h>
#include <stdlib.h>
#include <string.h>

/* The rows that there is room for: some 36 MB. */
#define ROWS 1000000

static const char usage[] =
    "usage: lay_markers SCRIPT SIDE [POSITIONS]\n"
    "Lays markers of one genome on the other. SIDE is A or B, the genome that they are on. POSITIONS is a file with a\n"
    "position in each line, which lies between letters and is counted from 0. Blank lines and lines that begin with #\n"
    "are passed over. Without the file it reads standard input.\n"
    "Exit status: 1 if the script or a marker is refused, or cannot be read or written, 2 for a wrong call.\n";

/* One byte more than any admitted script has is enough to refuse a longer one. */
static uint8_t script[NOTCHERGREY_LONGEST_SCRIPT + 1];
static size_t script_len, matches;

/* The side that the markers are on, and its letters. */
static int from_b;
static uint32_t letters;

/* The markers, sorted, with repeats; room to carry as many; and how many matches span each. */
static uint32_t *markers, *carried, *spanning;
static size_t count;

static uint32_t table[ROWS * NOTCHERGREY_ROW_NUMBERS], work[ROWS * NOTCHERGREY_WORK_NUMBERS];
static size_t rows;

/* Says what the system says of the call before. Returns the exit status. */
static int failed(const char *name)
{
    fprintf(stderr, "lay_markers: %s: %s\n", name, strerror(errno));
    return 1;
}

/* Says that a call refused, and where. Returns the exit status. */
static int refused(const char *name, uint32_t number, size_t place)
{
    fprintf(stderr, "lay_markers: %s: refused with %" PRIu32 " at %zu: ", name, number, place);
    if (number == NOTCHERGREY_TOO_MANY_PIECES)
        fprintf(stderr, "its table has more than %d rows; leave out matches that overlap many others\n", ROWS);
    else
        fprintf(stderr, "docs/REFUSALS.md says what this number means, and what to do\n");
    return 1;
}

/* Reads the script and makes its table. Returns the exit status. */
static int read_script(const char *name)
{
    FILE *file = fopen(name, "rb");
    if (file == NULL)
        return failed(name);
    script_len = fread(script, 1, sizeof script, file);
    if (ferror(file))
        return failed(name);
    fclose(file);
    uint32_t p, q;
    size_t place, marks;
    uint32_t number = notchergrey_read(script, script_len, &place, &p, &q, &matches, &marks);
    if (number == 0)
        number = notchergrey_refine(script, script_len, table, sizeof table / sizeof *table, work,
                                    sizeof work / sizeof *work, &place, &rows);
    if (number != 0)
        return refused(name, number, place);
    letters = from_b ? q : p;
    return 0;
}

/* All of a file, in memory of its own. Returns NULL if it cannot be read or memory ends, where the program ends too. */
static char *contents(FILE *file, size_t *length)
{
    size_t room = 4096;
    char *text = malloc(room);
    *length = 0;
    while (text != NULL) {
        *length += fread(text + *length, 1, room - *length, file);
        if (ferror(file))
            return NULL;
        if (*length < room)
            break;
        room *= 2;
        text = realloc(text, room);
    }
    return text;
}

/* Digits alone are a position, up to the one behind the last letter. Returns 0 for any other line, and says so. */
static int read_marker(const char *name, size_t number, const char *line, size_t length, uint32_t *marker)
{
    uint64_t position = 0;
    size_t digits = 0;
    for (; digits < length && line[digits] >= '0' && line[digits] <= '9'; digits++)
        if (position <= letters)
            position = 10 * position + (uint64_t)(line[digits] - '0');
    *marker = (uint32_t)position;
    if (digits == length && position <= letters)
        return 1;
    fprintf(stderr, "lay_markers: %s: line %zu: ", name, number);
    if (digits != length)
        fprintf(stderr, "this is no position: write digits alone, and one position in a line\n");
    else
        fprintf(stderr, "%.*s is above the %" PRIu32 " letters of %c: check the position, which is counted from 0, and "
                        "the side\n", (int)length, line, letters, from_b ? 'B' : 'A');
    return 0;
}

/* Takes the markers of a text, line by line; lines may end as on Windows. Returns 0 at the first that is none. */
static int take_markers(const char *name, const char *text, size_t text_len)
{
    size_t number = 1;
    for (const char *line = text, *const end = text + text_len; line < end; number++) {
        const char *const newline = memchr(line, '\n', (size_t)(end - line));
        const char *const next = newline != NULL ? newline + 1 : end;
        size_t length = (size_t)((newline != NULL ? newline : end) - line), blanks = 0;
        if (length > 0 && line[length - 1] == '\r')
            length--;
        while (blanks < length && (line[blanks] == ' ' || line[blanks] == '\t'))
            blanks++;
        if (blanks < length && line[0] != '#' && !read_marker(name, number, line, length, &markers[count++]))
            return 0;
        line = next;
    }
    return 1;
}

static int compare(const void *one, const void *other)
{
    const uint32_t left = *(const uint32_t *)one, right = *(const uint32_t *)other;
    return (left > right) - (left < right);
}

/* Reads the markers, from standard input if no file is named, and sorts them. Returns the exit status. */
static int read_markers(const char *named)
{
    const char *const name = named != NULL ? named : "standard input";
    FILE *const file = named != NULL ? fopen(named, "rb") : stdin;
    if (file == NULL)
        return failed(name);
    size_t length, lines = 1;
    char *const text = contents(file, &length);
    if (text == NULL)
        return failed(name);
    fclose(file);
    for (size_t at = 0; at < length; at++)
        lines += text[at] == '\n';
    markers = calloc(lines, sizeof *markers);
    carried = calloc(lines, sizeof *carried);
    spanning = calloc(lines, sizeof *spanning);
    if (markers == NULL || carried == NULL || spanning == NULL)
        return failed(name);
    const int taken = take_markers(name, text, length);
    free(text);
    qsort(markers, count, sizeof *markers, compare);
    return !taken;
}

/* How many markers are below a position. */
static size_t markers_below(uint32_t position)
{
    size_t low = 0, high = count;
    while (low < high) {
        const size_t middle = low + (high - low) / 2;
        if (markers[middle] < position)
            low = middle + 1;
        else
            high = middle;
    }
    return low;
}

/* The markers that a match spans, both its ends included: from markers[*first] up to, not including, *behind. */
static void find_markers(uint32_t number, size_t *first, size_t *behind)
{
    size_t place;
    uint32_t left[2], length, reversed;
    notchergrey_match(script, script_len, number, &place, &left[0], &left[1], &length, &reversed);
    *first = markers_below(left[from_b]);
    *behind = markers_below(left[from_b] + length + 1);
}

/* Counts the matches that span each marker, and prints how many markers there are, and how many of each kind. */
static void print_counts(void)
{
    size_t kinds[3] = {0};
    for (uint32_t number = 1; number <= matches; number++) {
        size_t first, behind;
        find_markers(number, &first, &behind);
        for (size_t at = first; at < behind; at++)
            spanning[at]++;
    }
    for (size_t at = 0; at < count; at++)
        kinds[spanning[at] < 2 ? spanning[at] : 2]++;
    printf("markers %zu once %zu several %zu none %zu\n", count, kinds[1], kinds[2], kinds[0]);
}

/*
 * The number of the row, from 1, that has a position of A inside, among the rows of one match, from table[start] up to
 * table[end]. They rise by their left ends on A. Returns 0 if the position is an end of rows.
 */
static size_t row_around(uint32_t on_a, size_t start, size_t end)
{
    size_t low = start / NOTCHERGREY_ROW_NUMBERS, high = end / NOTCHERGREY_ROW_NUMBERS;
    while (low < high) {
        const size_t middle = low + (high - low) / 2;
        if (table[middle * NOTCHERGREY_ROW_NUMBERS + 1] < on_a)
            low = middle + 1;
        else
            high = middle;
    }
    if (low == start / NOTCHERGREY_ROW_NUMBERS)
        return 0;
    const uint32_t *const before = &table[(low - 1) * NOTCHERGREY_ROW_NUMBERS];
    return on_a < before[1] + before[3] ? low : 0;
}

/* Carries the markers that a match spans, all at once, and prints them. Returns the exit status. */
static int print_match(const char *name, uint32_t number)
{
    size_t place, first, behind, start, end;
    find_markers(number, &first, &behind);
    const size_t spanned = behind - first;
    const uint32_t off = (from_b ? notchergrey_carry_all_from_b : notchergrey_carry_all_from_a)(
        script, script_len, number, &markers[first], spanned, carried, spanned, &place);
    if (off != 0)
        return refused(name, off, place);
    notchergrey_rows_of(table, rows * NOTCHERGREY_ROW_NUMBERS, number, &start, &end);
    for (size_t at = 0; at < spanned; at++) {
        const uint32_t position = markers[first + at];
        const size_t row = row_around(from_b ? carried[at] : position, start, end);
        printf("%c %" PRIu32 " match %" PRIu32, from_b ? 'B' : 'A', position, number);
        if (row != 0)
            printf(" row %zu", row);
        else
            printf(" cut");
        printf(" %c %" PRIu32 "\n", from_b ? 'A' : 'B', carried[at]);
    }
    return 0;
}

/* Returns the exit status. No match refuses its own markers, so that all is written. */
static int print_markers(const char *name)
{
    print_counts();
    for (uint32_t number = 1; number <= matches; number++)
        if (print_match(name, number) != 0)
            return 1;
    for (size_t at = 0; at < count; at++)
        if (spanning[at] == 0)
            printf("%c %" PRIu32 " no match\n", from_b ? 'B' : 'A', markers[at]);
    return 0;
}

int main(int argc, char **argv)
{
    if (argc < 3 || argc > 4 || (strcmp(argv[2], "A") != 0 && strcmp(argv[2], "B") != 0)) {
        fputs(usage, stderr);
        return 2;
    }
    from_b = argv[2][0] == 'B';
    if (read_script(argv[1]) != 0 || read_markers(argv[3]) != 0)
        return 1;
    const int status = print_markers(argv[1]);
    if (fflush(stdout) != 0 || ferror(stdout))
        return failed("standard output");
    return status;
}

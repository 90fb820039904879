/*
 * Logs through their entries for C: checked, asked for their busiest stretch, and simulated. What is lent stands against
 * the end and then against the start of pages between two that nothing may touch, so that a byte read or written beside
 * it ends the program, or is found where it stands among the others. Every byte of these pages is looked at.
 * Answers are worked out in tests/analyser/src/log_examples.rs.
 */
#define _DEFAULT_SOURCE
#include "certifier.h"

#include <stdio.h>
#include <stdlib.h>
#include <string.h>
#include <sys/mman.h>
#include <unistd.h>

enum { GROUPS = 16, LINE = 40, MOST = 1600, ROWS = 64, FIRST = 23, SEEN = 42, REGION = 5 << 14 };

static const char standard[] =
    "   55   65   75   85   95  105  115  125  135\n"
    "   80   90  100  110  120  130  140  150  160\n";

static const char falling[] =
    "   55   65   75   85   95  105  115  125  135\n"
    "   80   90   89  110  120  130  140  150  160\n";

static const char table[] =
    "  1  1        16 11 8    1000       0     300\n"
    "  1  1        32 11 0    1000     200     189\n"
    "  1  1        48 11 8    1000     300     198\n"
    "  2  2        64 11 1    1000       0     200\n";

static const char alone[] = "  8  4        77 11 0     100       0     500\n";

/* Group 1 starts at 5, group 2 at 7. */
static const char accepted[] =
    "          5        16 11          5 135\n"
    "        140        64 11          7  60\n"
    "        205        32 11        205  55\n"
    "        305        48 11        305   1\n"
    "       1005        16 11       1005 135\n"
    "       1140        64 11       1007  65\n";

/* The second line gives group 2 a start at 3, with which frame 64 waited before the first. */
static const char earlier[] =
    "          5        16 11          5 135\n"
    "        140        64 11          3  60\n";

/* The bus is idle at 5 though frame 16 waits, and the third line is broken. */
static const char late_start[] =
    "          6        16 11          5 135\n"
    "        141        64 11          7  60\n";
static const char broken[] =
    "          6        16 11          5 135\n"
    "        141        64 11          7  60\n"
    "        206        32 11        205 055\n";

static const char sheet[] =
    "        200       1005\n"
    "        16    2        135            270\n"
    "        32    1         55             55\n"
    "        48    1          1              1\n"
    "        64    2        198            391\n";

/* By seed 1: the generator gives 270369, 67634689, 2647435461, 307599695, 2398689233 and 745495504. */
static const char simulated[] =
    "        369        16 11        369   7\n"
    "        569        32 11        569  41\n"
    "        669        48 11        669  54\n"
    "        723        64 11        689  40\n";

static int failed;

static void expect(int holds, const char *what, size_t size)
{
    if (!holds) {
        printf("failed: %s, area of %zu\n", what, size);
        failed = 1;
    }
}

/* Pages between two that nothing may touch, and what is lent of them. */
struct region {
    uint8_t *pages;
    uint8_t *lent;
    size_t size;
};

static struct region lengths_region, table_region, log_region, out_region;
static int at_end;

static void map(struct region *region)
{
    size_t page = (size_t)sysconf(_SC_PAGESIZE);
    uint8_t *all = mmap(NULL, REGION + 2 * page, PROT_NONE, MAP_PRIVATE | MAP_ANONYMOUS, -1, 0);
    if (REGION % page != 0 || all == MAP_FAILED || mprotect(all + page, REGION, PROT_READ | PROT_WRITE) != 0) {
        perror("pages");
        exit(2);
    }
    region->pages = all + page;
}

/* What byte i of the pages holds before a call, where nothing else is laid there. */
static uint8_t before(size_t i)
{
    return (uint8_t)(i * 7 + i / 256 + 1);
}

/* Lends `size` bytes, with a text in them; null where there is none. */
static uint8_t *lend(struct region *region, const char *text, size_t length, size_t size)
{
    for (size_t i = 0; i < REGION; i++)
        region->pages[i] = before(i);
    region->size = size;
    region->lent = at_end ? region->pages + REGION - size : region->pages;
    memcpy(region->lent, text, length);
    return size == 0 ? NULL : region->lent;
}

/* What is lent starts with the text, and every byte behind it and around is as it was. */
static void look_at(const struct region *region, const void *text, size_t length, const char *what)
{
    size_t start = (size_t)(region->lent - region->pages);
    expect(memcmp(region->lent, text, length) == 0, what, region->size);
    int same = 1;
    for (size_t i = 0; i < REGION; i++)
        if (i < start || start + length <= i)
            same &= region->pages[i] == before(i);
    expect(same, what, region->size);
}

struct input {
    const char *lengths;
    size_t lengths_len;
    const char *table;
    size_t table_len;
    const char *log;
    size_t log_len;
};

static struct input input(const char *lengths, const char *rows, const char *log)
{
    return (struct input){lengths, strlen(lengths), rows, strlen(rows), log, strlen(log)};
}

enum task { CHECK, BUSIEST, SIMULATE };

/* What is asked for: a width, or a seed and a number of lines. */
struct asked {
    enum task task;
    uint64_t first;
    uint64_t second;
};

static int64_t run(struct asked asked, struct input in, uint8_t *out, size_t size)
{
    uint8_t *lengths = lend(&lengths_region, in.lengths, in.lengths_len, in.lengths_len);
    uint8_t *rows = lend(&table_region, in.table, in.table_len, in.table_len);
    uint8_t *log = lend(&log_region, in.log, in.log_len, in.log_len);
    switch (asked.task) {
    case CHECK:
        return certifier_check_log(lengths, in.lengths_len, rows, in.table_len, log, in.log_len, (uint64_t *)(void *)out,
                                   size / sizeof(uint64_t));
    case BUSIEST:
        return certifier_busiest(lengths, in.lengths_len, rows, in.table_len, log, in.log_len, asked.first, out, size);
    default:
        return certifier_simulate(lengths, in.lengths_len, rows, in.table_len, (uint32_t)asked.first, asked.second, out, size);
    }
}

/* Calls with an area of `size` bytes: `length` bytes of the result stand at its start, unless the answer is a refusal. */
static void call(struct asked asked, struct input in, size_t size, int64_t answer, const void *result, size_t length)
{
    for (at_end = 0; at_end <= 1; at_end++) {
        uint8_t *out = lend(&out_region, "", 0, size);
        expect(run(asked, in, out, size) == answer, "answer", size);
        look_at(&lengths_region, in.lengths, in.lengths_len, "the lengths");
        look_at(&table_region, in.table, in.table_len, "the table");
        look_at(&log_region, in.log, in.log_len, "the log");
        look_at(&out_region, result, certifier_refused(answer) ? 0 : length, "the output");
    }
}

/* A call that is turned back, whatever the area. */
static void refused(struct asked asked, struct input in, int number, int place)
{
    int64_t answer = -(int64_t)(number * 10000 + place);
    call(asked, in, 0, answer, "", 0);
    call(asked, in, REGION, answer, "", 0);
    expect(certifier_number(answer) == number && certifier_place(answer) == place, "number and place", 0);
}

/* Starts in areas of none to a few more than 16 numbers. */
static void shown(struct input in, const uint64_t starts[GROUPS])
{
    for (size_t count = 0; count <= GROUPS + 3; count++)
        call((struct asked){CHECK, 0, 0}, in, count * sizeof(uint64_t), count < GROUPS ? -80000 : GROUPS, starts,
             GROUPS * sizeof(uint64_t));
}

/* A text in areas of every size up to a few bytes more. */
static void written(struct asked asked, struct input in, const char *text)
{
    size_t need = strlen(text);
    for (size_t size = 0; size <= need + 3; size++)
        call(asked, in, size, size < need ? -80000 : (int64_t)need, text, need);
}

/* The same start for all groups but one or two. */
static void shown_but(struct input in, uint64_t all, int one, uint64_t start, int other, uint64_t other_start)
{
    uint64_t starts[GROUPS];
    for (int group = 1; group <= GROUPS; group++)
        starts[group - 1] = group == one ? start : group == other ? other_start : all;
    shown(in, starts);
}

/* What is refused of every task: the lengths before the table, and the area last. */
static void refused_in_front(struct asked asked)
{
    struct input cut = input(standard, table, broken);
    cut.lengths_len = 91;
    refused(asked, cut, 13, 0);
    refused(asked, input("", "", "x"), 13, 0);
    refused(asked, input(falling, table, broken), 14, 2);
    refused(asked, input(falling, "", ""), 14, 2);
    refused(asked, input(standard, "", broken), 1, 0);
    cut = input(standard, table, "");
    cut.table_len = 45;
    refused(asked, cut, 1, 0);
    refused(asked, input(standard, " 17  1         1 11 0       3       0     100\n", "x"), 4, 1);
}

/* What is refused of a log, also with a width of 0. */
static void refused_logs(struct asked asked)
{
    refused(asked, input(standard, table, broken), 18, 3);
    refused(asked, input(standard, table, "x"), 18, 0);
    refused(asked, input(standard, table, late_start), 19, 1);
    refused(asked, input(standard, table, earlier), 19, 2);
    refused(asked, input(standard, alone, accepted), 19, 1);
    refused(asked, input(standard, table, "          5        16 29          5 135\n"), 19, 1);
    refused(asked, input(standard, table, "          5        16 11          5   0\n"), 19, 1);
    refused(asked, input(standard, table, "          5        16 11          5 136\n"), 19, 1);
}

/* A frame every 100 ticks for 50 of them, as often as a log can have it. */
static void call_longest_log(void)
{
    static char log[(MOST + 1) * LINE + 1];
    for (unsigned n = 0; n <= MOST; n++)
        sprintf(log + n * LINE, "%11u        77 11%11u  50\n", 100 * n, 100 * n);
    struct input in = input(standard, alone, log);
    struct asked check = {CHECK, 0, 0}, widest = {BUSIEST, 159950, 0};
    refused(check, in, 18, 0);
    refused(widest, in, 18, 0);
    in.log_len = MOST * LINE + 1;
    refused(check, in, 18, 0);
    in.log_len = MOST * LINE;
    shown_but(in, 159950, 4, 0, 0, 0);
    written(widest, in, "      80000          0\n        77 1600         50          80000\n");
    widest.first = 159951;
    refused(widest, in, 20, 0);
    log[MOST * LINE - LINE + 10] = '1';
    refused(check, in, 19, MOST);
    log[MOST * LINE - 1] = ' ';
    refused(check, in, 18, MOST);
}

/* A sheet of 64 rows: the first frame is sent once, and the others are not seen. */
static void call_longest_sheet(void)
{
    static char rows[ROWS * 46 + 1], result[FIRST + ROWS * SEEN + 1];
    size_t length = 0, need = (size_t)sprintf(result, "%11d%11d\n", 1, 0);
    for (int row = 0; row < ROWS; row++) {
        length += (size_t)sprintf(rows + length, "  1  1%10d 11 0  100000       0     100\n", row);
        need += (size_t)sprintf(result + need, "%10d%5d%11d%15d\n", row, row == 0, row == 0 ? 55 : 0, row == 0 ? 55 : 0);
    }
    struct input in = input(standard, rows, "          0         0 11          0  55\n");
    struct asked first = {BUSIEST, 1, 0};
    expect(need == FIRST + ROWS * SEEN, "length of the longest sheet", need);
    call(first, in, need - 1, -80000, "", 0);
    call(first, in, need, (int64_t)need, result, need);
    call(first, in, REGION, (int64_t)need, result, need);
}

/* The longest log that is simulated is accepted, and starts as a short one does. */
static void call_longest_simulation(void)
{
    static char log[MOST * LINE];
    struct input in = input(standard, table, "");
    uint64_t starts[GROUPS];
    struct asked all = {SIMULATE, 1, MOST};
    call(all, in, MOST * LINE - 1, -80000, "", 0);
    at_end = 1;
    expect(run(all, in, lend(&out_region, "", 0, sizeof log), sizeof log) == MOST * LINE, "answer", sizeof log);
    memcpy(log, out_region.lent, sizeof log);
    look_at(&out_region, log, sizeof log, "the output");
    expect(memcmp(log, simulated, strlen(simulated)) == 0, "the first lines", sizeof log);
    in.log = log;
    in.log_len = sizeof log;
    expect(run((struct asked){CHECK, 0, 0}, in, lend(&out_region, "", 0, sizeof starts), sizeof starts) == GROUPS,
           "answer to the simulated log", sizeof starts);
    memcpy(starts, out_region.lent, sizeof starts);
    expect(starts[0] == 369 && starts[1] == 689, "starts of the simulated log", sizeof starts);
}

int main(void)
{
    struct asked check = {CHECK, 0, 0}, busiest = {BUSIEST, 200, 0}, simulate = {SIMULATE, 1, 4};
    map(&lengths_region);
    map(&table_region);
    map(&log_region);
    map(&out_region);

    shown_but(input(standard, table, ""), 0, 0, 0, 0, 0);
    shown_but(input(standard, table, accepted), 1205, 1, 5, 2, 7);
    shown_but(input(standard, alone, " 9999999999        77 11 9999999999  55\n"), 10000000054, 4, 9999999999, 0, 0);
    refused(check, input(standard, alone, "10000000000        77 11 9999999999  55\n"), 18, 1);
    refused_in_front(check);
    refused_logs(check);

    written(busiest, input(standard, table, accepted), sheet);
    for (uint64_t width = 0; width <= 1; width++) {
        refused_in_front((struct asked){BUSIEST, width, 0});
        refused_logs((struct asked){BUSIEST, width, 0});
        refused((struct asked){BUSIEST, width, 0}, input(standard, table, ""), 20, 0);
    }
    refused((struct asked){BUSIEST, 0, 0}, input(standard, table, accepted), 20, 0);
    refused((struct asked){BUSIEST, 1206, 0}, input(standard, table, accepted), 20, 0);
    refused((struct asked){BUSIEST, UINT64_MAX, 0}, input(standard, table, accepted), 20, 0);
    refused((struct asked){BUSIEST, ((uint64_t)1 << 32) + 1, 0}, input(standard, table, accepted), 20, 0);

    written(simulate, input(standard, table, ""), simulated);
    for (uint64_t seed = 0; seed <= 1; seed++)
        refused_in_front((struct asked){SIMULATE, seed, seed});
    refused((struct asked){SIMULATE, 0, 4}, input(standard, table, ""), 21, 0);
    refused((struct asked){SIMULATE, 0, 0}, input(standard, table, ""), 21, 0);
    refused((struct asked){SIMULATE, 1, 0}, input(standard, table, ""), 22, 0);
    refused((struct asked){SIMULATE, UINT32_MAX, MOST + 1}, input(standard, table, ""), 22, 0);
    refused((struct asked){SIMULATE, 1, ((uint64_t)1 << 32) + 1}, input(standard, table, ""), 22, 0);
    refused((struct asked){SIMULATE, 1, UINT64_MAX}, input(standard, table, ""), 22, 0);

    call_longest_log();
    call_longest_sheet();
    call_longest_simulation();
    if (!failed)
        puts("logs from C: as expected");
    return failed;
}

/*
 * The listing and the load sheet through their entries for C: output areas of every size between guards, the longest
 * results, and refused lengths and tables. Every byte of what is lent and of the guards around it is looked at.
 */
#include <stdio.h>
#include <string.h>

#include "certifier.h"

enum { GUARD = 64, INPUT = 3100, AREA = 2100, NODES = 16, ROWS = 64, LINE = 46 };

typedef int64_t operation(const uint8_t *, size_t, const uint8_t *, size_t, uint8_t *, size_t);

static const char standard[] =
    "   55   65   75   85   95  105  115  125  135\n"
    "   80   90  100  110  120  130  140  150  160\n";

static const char longer[] =
    "  100  100  200  200  200  200  200  200  200\n"
    "  300  300  300  300  300  300  300  300  400\n";

/* Refused: on the second line the third number is smaller than the second; the first number of all is below 47. */
static const char falling[] =
    "   55   65   75   85   95  105  115  125  135\n"
    "   80   90   89  110  120  130  140  150  160\n";

static const char small[] =
    "   46   65   75   85   95  105  115  125  135\n"
    "   80   90  100  110  120  130  140  150  160\n";

static const char table[] =
    " 16 16         1 11 0       3       0     100\n"
    "  5  5         2 29 0       7       0     100\n"
    " 16 16         3 11 1       7       0     100\n"
    "  1  1         4 29 8 1000000       0     100\n";

/*
 * Node 1: 160 in 1000000 ticks, 1600000 = 1 * 1000000 + 600000. Node 5: 80 in 7 ticks, 800000 = 114285 * 7 + 5.
 * Node 16: 7 * 55 + 3 * 65 = 580 in 21 ticks, 5800000 = 276190 * 21 + 10.
 */
static const char sheet[] =
    "  1         1  600000 1000000\n"
    "  5    114285       5       7\n"
    " 16    276190      10      21\n"
    "  3    276190\n";

/*
 * By the longer lengths. Node 1: 400 in 1000000 ticks, 4000000 = 4 * 1000000. Node 5: 300 in 7 ticks, 3000000 =
 * 428571 * 7 + 3. Node 16: 7 * 100 + 3 * 100 = 1000 in 21 ticks, 10000000 = 476190 * 21 + 10.
 */
static const char longer_sheet[] =
    "  1         4       0 1000000\n"
    "  5    428571       3       7\n"
    " 16    476190      10      21\n"
    "  3    476190\n";

/* Refused: node 1 stands in a second group. */
static const char second[] =
    "  1  1         1 11 0    1000       0     100\n"
    "  1  2         2 11 0    1001       0     100\n";

/* One frame, alone on the bus: its bound is its length, whenever it is queued first. */
static const char one[] = "  1  1         7 29 8  100000       0     300\n";
static const char one_late[] = "  1  1         7 29 8  100000  400000     300\n";
static const char one_listed[] = "         7  1     160      140\n";
static const char one_listed_longer[] = "         7  3     400     -100\n";

/*
 * Nodes 9 and 2 in group 5, whose hyperperiod is 12. Node 2: 2 * 65 in 12 ticks, 1300000 = 108333 * 12 + 4. Node 9:
 * 3 * 55, 1650000 = 137500 * 12.
 */
static const char grouped[] =
    "  9  5         1 11 0       4       0     100\n"
    "  2  5         2 11 1       6       0     100\n";
static const char grouped_sheet[] =
    "  2    108333       4      12\n"
    "  9    137500       0      12\n"
    "  2    137500\n";

/*
 * Two frames of one group, 500 ticks apart: the first waits for 134 ticks of one that ranks below, the second for none.
 */
static const char turns[] =
    "  9  5         1 11 8    1000       0     300\n"
    "  2  5         2 11 8    1000     500     300\n";
static const char turns_listed[] =
    "         1  1     269       31\n"
    "         2  1     135      165\n";

/* A lent area and the guards around it. */
struct lent {
    uint8_t bytes[GUARD + INPUT + GUARD];
    size_t size;
};

static struct lent lengths_area, table_area, out_area;
static int failed;

static void expect(int holds, const char *what, size_t size)
{
    if (!holds) {
        printf("failed: %s, area of %zu bytes\n", what, size);
        failed = 1;
    }
}

/* What byte i of an area and its guards holds before a call, where nothing else is laid there. */
static uint8_t before(size_t i)
{
    return (uint8_t)(i * 7 + 1);
}

/* Lends `size` bytes between guards, with a text in them; null where there is none. */
static uint8_t *lend(struct lent *area, const char *text, size_t length, size_t size)
{
    for (size_t i = 0; i < sizeof area->bytes; i++)
        area->bytes[i] = before(i);
    memcpy(area->bytes + GUARD, text, length);
    area->size = size;
    return size == 0 ? NULL : area->bytes + GUARD;
}

/* The area starts with the text, and every byte behind it and of the guards is as it was. */
static void look_at(const struct lent *area, const char *text, size_t length, const char *what)
{
    expect(memcmp(area->bytes + GUARD, text, length) == 0, what, area->size);
    for (size_t i = 0; i < sizeof area->bytes; i++)
        if (i < GUARD || GUARD + length <= i)
            expect(area->bytes[i] == before(i), what, area->size);
}

struct input {
    const char *lengths;
    size_t lengths_len;
    const char *table;
    size_t table_len;
};

/* Calls with an area of `size` bytes: `result` stands at its start, unless the answer is a refusal. */
static void call(operation *run, struct input in, size_t size, int64_t answer, const char *result)
{
    uint8_t *lengths = lend(&lengths_area, in.lengths, in.lengths_len, in.lengths_len);
    uint8_t *rows = lend(&table_area, in.table, in.table_len, in.table_len);
    uint8_t *out = lend(&out_area, "", 0, size);
    expect(run(lengths, in.lengths_len, rows, in.table_len, out, size) == answer, "answer", size);
    look_at(&lengths_area, in.lengths, in.lengths_len, "the lengths");
    look_at(&table_area, in.table, in.table_len, "the table");
    look_at(&out_area, result, certifier_refused(answer) ? 0 : (size_t)answer, "the output");
}

/* Calls with areas of every size up to a few bytes more than the result: below its length the area is too short. */
static void call_all(operation *run, struct input in, const char *result)
{
    size_t need = strlen(result);
    for (size_t size = 0; size <= need + 3; size++)
        call(run, in, size, size < need ? -80000 : (int64_t)need, result);
}

static struct input both(const char *lengths, const char *text)
{
    return (struct input){lengths, strlen(lengths), text, strlen(text)};
}

/* A frame of 55 ticks in 1000 for each node: 55 * 10000 / 1000 = 550. */
static void call_longest_sheet(void)
{
    char text[NODES * LINE + 1], result[CERTIFIER_LOAD_SHEET_MOST + 1];
    size_t length = 0, need = 0;
    for (int node = 1; node <= NODES; node++) {
        length += (size_t)sprintf(text + length, "%3d%3d%10d 11 0    1000       0     100\n", node, 17 - node, node);
        need += (size_t)sprintf(result + need, "%3d       550       0    1000\n", node);
    }
    need += (size_t)sprintf(result + need, " 16       550\n");
    expect(need == CERTIFIER_LOAD_SHEET_MOST, "length of the longest sheet", need);
    call_all(certifier_load_sheet, both(standard, text), result);
}

/*
 * 64 frames of 55 ticks, all of one node and released together: frame i waits for those before it and, but for the last,
 * for one below that started a tick before. Frame 1: 54 + 55.
 */
static void call_longest_listing(void)
{
    char text[ROWS * LINE + 1], result[CERTIFIER_LISTING_MOST + 1];
    size_t length = 0, need = 0;
    for (int row = 0; row < ROWS; row++) {
        int bound = (row < ROWS - 1 ? 54 : 0) + 55 * (row + 1);
        length += (size_t)sprintf(text + length, "  1  1%10d 11 0  100000       0%8d\n", row, 10000);
        need += (size_t)sprintf(result + need, "%10d  1%8d%9d\n", row, bound, 10000 - bound);
    }
    expect(need == CERTIFIER_LISTING_MOST, "length of the longest listing", need);
    call(certifier_list, both(standard, text), need - 1, -80000, result);
    call(certifier_list, both(standard, text), need, (int64_t)need, result);
    call(certifier_list, both(standard, text), AREA, (int64_t)need, result);
}

/* What is refused, whatever the operation: the lengths before the table, and the area last. */
static void call_refused(operation *run)
{
    struct input cut = both(standard, table);
    cut.lengths_len = 91;
    call(run, both("", ""), AREA, -130000, "");
    call(run, both("", table), AREA, -130000, "");
    call(run, cut, AREA, -130000, "");
    call(run, both(falling, table), AREA, -140002, "");
    call(run, both(small, ""), AREA, -140001, "");
    call(run, both(standard, ""), AREA, -10000, "");
    cut = both(standard, table);
    cut.table_len = 45;
    call(run, cut, AREA, -10000, "");
    call(run, both(standard, " 17  1         1 11 0       3       0     100\n"), AREA, -40001, "");
    call(run, both(standard, "  1 17         1 11 0       3       0     100\n"), AREA, -40001, "");
    call(run, both(standard, "  1  0         1 11 0       3       3     100\n"), 0, -40001, "");
    call(run, both(standard, "  1  1         1 11 0       3 1000001     100\n"), AREA, -40001, "");
    call(run, both(standard, second), AREA, -150002, "");
    call(run, both(standard, second), 0, -150002, "");
}

int main(void)
{
    call_all(certifier_load_sheet, both(standard, table), sheet);
    call_all(certifier_load_sheet, both(longer, table), longer_sheet);
    call_all(certifier_load_sheet, both(standard, grouped), grouped_sheet);
    call_longest_sheet();
    call_refused(certifier_load_sheet);
    call_all(certifier_list, both(standard, one), one_listed);
    call_all(certifier_list, both(standard, one_late), one_listed);
    call_all(certifier_list, both(longer, one), one_listed_longer);
    call_all(certifier_list, both(standard, turns), turns_listed);
    call_longest_listing();
    call_refused(certifier_list);
    return failed;
}

/*
 * Judgements, cases and listings with faults, through their entries for C: document 01's whole case with faults 10000 ticks
 * apart, gaps at and far beyond their limits, and which refusal comes first. Areas have every size up to some more than the
 * result; every byte of what is lent and of the guards around it is looked at.
 */
#include <stdio.h>
#include <string.h>

#include "certifier.h"

enum { GUARD = 64, AREA = 512, ROWS = 4 };

static const char standard[] =
    "   55   65   75   85   95  105  115  125  135\n"
    "   80   90  100  110  120  130  140  150  160\n";

/* Refused: the first number of all is below 47. */
static const char small[] =
    "   46   65   75   85   95  105  115  125  135\n"
    "   80   90  100  110  120  130  140  150  160\n";

static const char table[] =
    "  1  1        16 11 8    1000       0     300\n"
    "  1  1        32 11 0    1000     200     189\n"
    "  1  1        48 11 8    1000     300     198\n"
    "  2  2        64 11 1    1000       0     200\n";

/*
 * Each fault costs 31 + 135 ticks, and one is counted for each frame. 16: 134 + 166 + 135. 32: 134 + 166 + 55. 48: 64 +
 * 166 + 135. 64 meets 16, and 32 and 48 come before 166 + 135 ticks are over: 166 + 135 + 55 + 135 + 65.
 */
static const char listed[] =
    "        16  3     435     -135\n"
    "        32  3     355     -166\n"
    "        48  3     365     -167\n"
    "        64  3     556     -356\n";
static const int64_t judged[ROWS] = {300004350999865, 300003550999834, 300003650999833, 300005560999644};

/* The claims are these bounds: all are certified, by the rough bound. */
static const char claimed[] =
    "  1  1        16 11 8    1000       0     435\n"
    "  1  1        32 11 0    1000     200     355\n"
    "  1  1        48 11 8    1000     300     365\n"
    "  2  2        64 11 1    1000       0     556\n";
static const char claimed_listed[] =
    "        16  1     435        0\n"
    "        32  1     355        0\n"
    "        48  1     365        0\n"
    "        64  1     556        0\n";
static const int64_t certified[ROWS] = {100004351000000, 100003551000000, 100003651000000, 100005561000000};

/* Faults in every tick leave nothing. */
static const char no_window_listed[] =
    "        16 11       0        0\n"
    "        32 11       0        0\n"
    "        48 11       0        0\n"
    "        64 11       0        0\n";
static const int64_t no_window = 1100000001000000;

/* 48 is late already at its group's alignment 0: queued at 300, it starts at 64 + 166 + 135 + 55 and takes 255. */
static const uint32_t case_of_48[CERTIFIER_CASE] = {0, [16] = 1};

static const uint64_t gaps_outside[] = {0, 1000001, (UINT64_C(1) << 32) + 5, UINT64_MAX};
static const uint64_t rows_outside[] = {ROWS, (UINT64_C(1) << 32) + 2, UINT64_MAX};

/* A lent area and the guards around it. */
struct lent {
    _Alignas(uint32_t) uint8_t bytes[GUARD + AREA + GUARD];
    size_t size;
};

static struct lent lengths_area, table_area, out_area;
static int failed;

static void expect(int holds, const char *what, uint64_t gap, size_t size)
{
    if (!holds) {
        printf("failed: %s, gap %llu, area of %zu\n", what, (unsigned long long)gap, size);
        failed = 1;
    }
}

/* What byte i of an area and its guards holds before a call, where nothing else is laid there. */
static uint8_t before(size_t i)
{
    return (uint8_t)(i * 7 + 1);
}

/* Lends `size` bytes between guards, with a text in them; null where there is none. */
static uint8_t *lend(struct lent *area, const char *text, size_t length, size_t size)
{
    for (size_t i = 0; i < sizeof area->bytes; i++)
        area->bytes[i] = before(i);
    memcpy(area->bytes + GUARD, text, length);
    area->size = size;
    return size == 0 ? NULL : area->bytes + GUARD;
}

/* The area starts with these bytes, and every byte behind them and of the guards is as it was. */
static void look_at(const struct lent *area, const void *bytes, size_t length, const char *what, uint64_t gap)
{
    expect(memcmp(area->bytes + GUARD, bytes, length) == 0, what, gap, area->size);
    for (size_t i = 0; i < sizeof area->bytes; i++)
        if (i < GUARD || GUARD + length <= i)
            expect(area->bytes[i] == before(i), what, gap, area->size);
}

struct input {
    const char *lengths;
    const char *table;
};

static void lend_input(struct input in)
{
    lend(&lengths_area, in.lengths, strlen(in.lengths), strlen(in.lengths));
    lend(&table_area, in.table, strlen(in.table), strlen(in.table));
}

static void look_at_input(struct input in, uint64_t gap)
{
    look_at(&lengths_area, in.lengths, strlen(in.lengths), "the lengths", gap);
    look_at(&table_area, in.table, strlen(in.table), "the table", gap);
}

static const uint8_t *lent_lengths(void)
{
    return lengths_area.size == 0 ? NULL : lengths_area.bytes + GUARD;
}

static const uint8_t *lent_table(void)
{
    return table_area.size == 0 ? NULL : table_area.bytes + GUARD;
}

static void judge(struct input in, uint64_t row, uint64_t gap, int64_t answer)
{
    lend_input(in);
    int64_t found = certifier_judge_faults(lent_lengths(), lengths_area.size, lent_table(), table_area.size, row, gap);
    expect(found == answer, "judgement", gap, 0);
    look_at_input(in, gap);
}

/* With an area of `size` numbers; the case, if there is one, stands at its start. */
static void explain(struct input in, uint64_t row, uint64_t gap, size_t size, int64_t answer, const uint32_t *shown)
{
    lend_input(in);
    void *out = lend(&out_area, "", 0, size * sizeof *shown);
    int64_t found = certifier_explain_faults(lent_lengths(), lengths_area.size, lent_table(), table_area.size, row, gap, out,
                                             size);
    expect(found == answer, "explanation", gap, size);
    look_at_input(in, gap);
    if (shown == NULL)
        look_at(&out_area, "", 0, "no case", gap);
    else
        look_at(&out_area, shown, CERTIFIER_CASE * sizeof *shown, "the case", gap);
}

/* With an area of `size` bytes; the listing stands at its start, unless the answer is a refusal. */
static void list(struct input in, uint64_t gap, size_t size, int64_t answer, const char *result)
{
    lend_input(in);
    uint8_t *out = lend(&out_area, "", 0, size);
    int64_t found = certifier_list_faults(lent_lengths(), lengths_area.size, lent_table(), table_area.size, gap, out, size);
    expect(found == answer, "listing's answer", gap, size);
    look_at_input(in, gap);
    look_at(&out_area, result, certifier_refused(answer) ? 0 : (size_t)answer, "the listing", gap);
}

/* Lists into areas of every size up to a few bytes more than the result. */
static void list_all(struct input in, uint64_t gap, const char *result)
{
    size_t need = strlen(result);
    for (size_t size = 0; size <= need + 3; size++)
        list(in, gap, size, size < need ? -80000 : (int64_t)need, result);
}

/* Answered: a gap of 10000 and the two limits. */
static void call_answered(void)
{
    struct input whole = {standard, table}, met = {standard, claimed};
    for (uint64_t row = 0; row < ROWS; row++) {
        judge(whole, row, 10000, judged[row]);
        judge(whole, row, 1000000, judged[row]);
        judge(whole, row, 1, no_window);
        judge(met, row, 10000, certified[row]);
    }
    for (size_t size = 0; size <= CERTIFIER_CASE + 3; size++) {
        int fits = size >= CERTIFIER_CASE;
        explain(whole, 2, 10000, size, fits ? judged[2] : -80000, fits ? case_of_48 : NULL);
        explain(whole, 2, 1000000, size, fits ? judged[2] : -80000, fits ? case_of_48 : NULL);
        explain(whole, 2, 1, size, no_window, NULL);
        explain(met, 2, 10000, size, certified[2], NULL);
    }
    list_all(whole, 10000, listed);
    list_all(whole, 1000000, listed);
    list_all(whole, 1, no_window_listed);
    list_all(met, 10000, claimed_listed);
}

/* What is turned back by the lengths, the table or the row is turned back so whatever the gap. */
static void call_turned_back(uint64_t gap)
{
    static const struct {
        struct input in;
        int64_t answer;
    } broken[] = {
        {{"", ""}, -130000},
        {{"", table}, -130000},
        {{small, ""}, -140001},
        {{standard, ""}, -10000},
        {{standard, " 17  1         1 11 0       3       0     100\n"}, -40001},
        {{standard, "  1  1        16 11 8    1000       0      01\n"}, -30001},
    };
    for (size_t i = 0; i < sizeof broken / sizeof *broken; i++)
        for (uint64_t row = 0; row <= ROWS; row += ROWS) {
            judge(broken[i].in, row, gap, broken[i].answer);
            explain(broken[i].in, row, gap, 0, broken[i].answer, NULL);
            explain(broken[i].in, row, gap, CERTIFIER_CASE, broken[i].answer, NULL);
            list(broken[i].in, gap, 0, broken[i].answer, "");
            list(broken[i].in, gap, AREA, broken[i].answer, "");
        }
    for (size_t i = 0; i < sizeof rows_outside / sizeof *rows_outside; i++) {
        judge((struct input){standard, table}, rows_outside[i], gap, -90000);
        explain((struct input){standard, table}, rows_outside[i], gap, 0, -90000, NULL);
        explain((struct input){standard, table}, rows_outside[i], gap, CERTIFIER_CASE, -90000, NULL);
    }
}

/* A gap outside: after the row, before the area. */
static void call_outside(uint64_t gap)
{
    struct input whole = {standard, table};
    for (uint64_t row = 0; row < ROWS; row++)
        judge(whole, row, gap, -170000);
    for (size_t size = 0; size <= CERTIFIER_CASE + 3; size++)
        explain(whole, 2, gap, size, -170000, NULL);
    for (size_t size = 0; size <= strlen(listed) + 3; size++)
        list(whole, gap, size, -170000, "");
}

int main(void)
{
    call_answered();
    call_turned_back(1);
    call_turned_back(10000);
    for (size_t i = 0; i < sizeof gaps_outside / sizeof *gaps_outside; i++) {
        call_turned_back(gaps_outside[i]);
        call_outside(gaps_outside[i]);
    }
    if (!failed)
        printf("faults for C: as expected\n");
    return failed;
}

/*
 * The case that breaks a claim, through its entry for C: document 01's frame 48, whose response of 199 at its group's
 * alignment 300 exceeds the claim of 198; and frames and calls without a case. The area has every size up to 20
 * numbers; it and what is lent are looked at to the last byte, and the memory around them.
 */
#include <stdio.h>
#include <string.h>

#include "certifier.h"

enum { GUARD = 16, MOST = 20 };

static const char lengths[] =
    "   55   65   75   85   95  105  115  125  135\n"
    "   80   90  100  110  120  130  140  150  160\n";

static const char table[] =
    "  1  1        16 11 8    1000       0     300\n"
    "  1  1        32 11 0    1000     200     189\n"
    "  1  1        48 11 8    1000     300     198\n"
    "  2  2        64 11 1    1000       0     200\n";

static const uint32_t case_of_48[CERTIFIER_CASE] = {300, [16] = 1};

static int failed;

static void expect(int holds, const char *what, size_t size)
{
    if (!holds) {
        printf("failed: %s, area of %zu numbers\n", what, size);
        failed = 1;
    }
}

/* What number i of the area and its guards holds before a call. */
static uint32_t before(size_t i)
{
    return (uint32_t)(i * 2654435761u + 7);
}

/* The answer with an area of a size; the numbers shown in it, as many as there are, and nothing else changes. */
static void explained(uint64_t row, size_t table_len, size_t size, int64_t answer, const uint32_t *shown)
{
    static uint32_t area[GUARD + MOST + GUARD];
    char lent_lengths[sizeof lengths], lent_table[sizeof table];
    memcpy(lent_lengths, lengths, sizeof lengths);
    memcpy(lent_table, table, sizeof table);
    for (size_t i = 0; i < sizeof area / sizeof *area; i++)
        area[i] = before(i);
    int64_t found = certifier_explain((const uint8_t *)lent_lengths, CERTIFIER_LENGTHS, (const uint8_t *)lent_table,
                                      table_len, row, size == 0 ? NULL : area + GUARD, size);
    expect(found == answer, "the answer", size);
    expect(memcmp(lent_lengths, lengths, sizeof lengths) == 0, "the lengths stay", size);
    expect(memcmp(lent_table, table, sizeof table) == 0, "the table stays", size);
    for (size_t i = 0; i < sizeof area / sizeof *area; i++) {
        int in_case = shown != NULL && i >= GUARD && i < GUARD + CERTIFIER_CASE;
        expect(area[i] == (in_case ? shown[i - GUARD] : before(i)), "the area", size);
    }
}

int main(void)
{
    size_t whole = sizeof table - 1;
    for (size_t size = 0; size <= MOST; size++) {
        int fits = size >= CERTIFIER_CASE;
        explained(2, whole, size, fits ? 300001990999999 : -80000, fits ? case_of_48 : NULL);
        explained(0, whole, size, 100002691000031, NULL);
        explained(1, whole, size, 100001891000000, NULL);
        explained(3, whole, size, 200002001000000, NULL);
        explained(4, whole, size, -90000, NULL);
        explained((uint64_t)1 << 32 | 2, whole, size, -90000, NULL);
        explained(2, whole - 1, size, -10000, NULL);
        explained(2, 0, size, -10000, NULL);
    }
    if (!failed)
        printf("cases for C: as expected\n");
    return failed;
}

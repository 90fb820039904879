/*
 * The worst case of the frame that ranks last through its entry for C: areas of every size between guards, tables where nothing
 * is shown, and refused lengths and tables. Every number of what is lent and of the guards around it is looked at. The cases
 * are worked out by hand from document 02, request 14.
 */
#include <stdio.h>
#include <string.h>

#include "certifier.h"

enum { GUARD = 16, MOST = 24 };

static const char standard[] =
    "   55   65   75   85   95  105  115  125  135\n"
    "   80   90  100  110  120  130  140  150  160\n";

/* Document 01's whole case: frame 64 takes 200 ticks where both groups start together. */
static const char picker[] =
    "  1  1        16 11 8    1000       0     300\n"
    "  1  1        32 11 0    1000     200     189\n"
    "  1  1        48 11 8    1000     300     198\n"
    "  2  2        64 11 1    1000       0     200\n";

/* The second instance of frame 3 takes 350 ticks; group 4's frame comes 17 ticks after its start. */
static const char later[] =
    "  9  9         1 29 2     250       0    1000\n"
    "  4  4         2 29 2     350      17    1000\n"
    "  7  7         3 29 2     350       0    1000\n";

/* An offset that is its period. */
static const char late[] =
    "  1  1        16 11 8    1000    1000     300\n"
    "  2  2        64 11 1    1000       0     200\n";

/* No window. */
static const char full[] = "  1  1         1 11 8     134       0    1000\n";

static int failures;

static void fail(const char *what, size_t size) {
    printf("worst: %s, with room for %zu\n", what, size);
    failures++;
}

/* With room for every number of numbers: the answer, what is shown where it has room, and nothing else touched. */
static void check(const char *what, const char *table, size_t table_len, const uint32_t *shown, int64_t wanted) {
    for (size_t size = 0; size <= MOST; size++) {
        uint32_t area[GUARD + MOST + GUARD];
        uint32_t before[GUARD + MOST + GUARD];
        for (size_t i = 0; i < GUARD + MOST + GUARD; i++)
            before[i] = area[i] = (uint32_t)(2654435761u * (i + size + 1));
        int64_t answer = certifier_worst((const uint8_t *)standard, CERTIFIER_LENGTHS, (const uint8_t *)table, table_len,
                                         size ? area + GUARD : NULL, size);
        int fits = shown && size >= CERTIFIER_WORST;
        if (fits)
            memcpy(before + GUARD, shown, CERTIFIER_WORST * sizeof *shown);
        if (answer != (shown && !fits ? -80000 : wanted))
            fail(what, size);
        if (memcmp(area, before, sizeof area) != 0)
            fail("the area", size);
    }
}

/* The starts of one group and of all others, the instance and its response. */
static void shows(const char *what, const char *table, size_t table_len, int group, uint32_t start, uint32_t others,
                  uint32_t instance, uint32_t response, int64_t wanted) {
    uint32_t shown[CERTIFIER_WORST];
    for (int i = 0; i < 16; i++)
        shown[i] = i + 1 == group ? start : others;
    shown[16] = instance;
    shown[17] = response;
    check(what, table, table_len, shown, wanted);
}

int main(void) {
    shows("document 01's frame 64", picker, sizeof picker - 1, 1, 0, 0, 0, 200, 200002001000000);
    shows("a later instance", later, sizeof later - 1, 4, 0, 17, 1, 350, 100003501000650);
    check("a late offset", late, sizeof late - 1, NULL, 100002001000000);
    check("no window", full, sizeof full - 1, NULL, 1100000001000000);
    check("a table that ends early", picker, sizeof picker - 2, NULL, -10000);
    check("no table", picker, 0, NULL, -10000);
    if (certifier_worst((const uint8_t *)standard, 91, (const uint8_t *)picker, sizeof picker - 1, NULL, 0) != -130000)
        fail("short lengths", 0);
    if (failures)
        return 1;
    puts("worst: as expected");
    return 0;
}

/*
 * The library on a small stack: the example's work, and judgements and listings that fix sixteen groups one after the other, in a
 * thread that has CERTIFIER_JUDGING_STACK bytes and 4 KiB more for its own start, above a page that must not be touched. The stack is painted
 * before, so that the paint that is left tells how much was needed; what a thread that does nothing takes is not counted.
 */
#define _DEFAULT_SOURCE
#include <pthread.h>
#include <string.h>
#include <sys/mman.h>

#define main judge_table_main
#include "../examples/judge_table.c"
#undef main

enum { OWN_START = 4096, STACK = CERTIFIER_JUDGING_STACK + OWN_START, GUARD = 4096, PAINT = 0xa5, GROUPS = 16, ROWS = 64 };

static const char standard[] =
    "   55   65   75   85   95  105  115  125  135\n"
    "   80   90  100  110  120  130  140  150  160\n";

static char table[ROWS * LINE + 1];
static uint8_t listing[CERTIFIER_LISTING_MOST];
static int failures;

static const uint8_t *bytes(const char *text)
{
    return (const uint8_t *)text;
}

/* So many frames in each of sixteen groups, each with an alignment of its own. The claims are too small, so that precise bounds are asked for. */
static void fill(int each)
{
    for (int row = 0; row < GROUPS * each; row++) {
        int group = row % GROUPS + 1;
        int turn = row / GROUPS;
        char line[96];
        snprintf(line, sizeof line, "%3d%3d%10d 11%2d%8d%8d%8d\n", group, group, 16 * row, row % 9, 9973 + 40 * group,
                 turn * (2000 + 10 * group), 1);
        memcpy(table + row * LINE, line, LINE);
    }
}

static void *nothing(void *argument)
{
    return argument;
}

static void *judge_rows(void *argument)
{
    size_t len = strlen(table);
    for (size_t row = 0; row < len / LINE; row++)
        if (certifier_refused(certifier_judge(bytes(standard), CERTIFIER_LENGTHS, bytes(table), len, row)))
            failures++;
    return argument;
}

static void *bound_rows(void *argument)
{
    size_t len = strlen(table);
    for (size_t row = 0; row < len / LINE; row++)
        certifier_precise_bound(bytes(standard), CERTIFIER_LENGTHS, bytes(table), len, row);
    return argument;
}

static void *list_table(void *argument)
{
    if (certifier_refused(certifier_list(bytes(standard), CERTIFIER_LENGTHS, bytes(table), strlen(table), listing, sizeof listing)))
        failures++;
    return argument;
}

static void *run_example(void *argument)
{
    char **argv = argument;
    judge_table_main(3, argv);
    return NULL;
}

/* How many bytes of the stack a thread touches. */
static size_t touched(void *(*work)(void *), void *argument)
{
    uint8_t *area = mmap(NULL, GUARD + STACK, PROT_READ | PROT_WRITE, MAP_PRIVATE | MAP_ANONYMOUS, -1, 0);
    pthread_attr_t attributes;
    pthread_t thread;
    if (area == MAP_FAILED || mprotect(area, GUARD, PROT_NONE) != 0)
        return STACK + 1;
    memset(area + GUARD, PAINT, STACK);
    pthread_attr_init(&attributes);
    if (pthread_attr_setstack(&attributes, area + GUARD, STACK) != 0 || pthread_create(&thread, &attributes, work, argument) != 0)
        return STACK + 1;
    pthread_join(thread, NULL);
    size_t left = 0;
    while (left < STACK && area[GUARD + left] == PAINT)
        left++;
    pthread_attr_destroy(&attributes);
    munmap(area, GUARD + STACK);
    return STACK - left;
}

/* Says so where a call needs more than is promised. */
static void expect_little(const char *name, void *(*work)(void *))
{
    size_t needed = touched(work, NULL) - touched(nothing, NULL);
    fprintf(stderr, "%s: %zu bytes of stack\n", name, needed);
    if (needed > CERTIFIER_JUDGING_STACK) {
        printf("%s: %zu bytes of stack, more than %d\n", name, needed, CERTIFIER_JUDGING_STACK);
        failures++;
    }
}

int main(int argc, char **argv)
{
    if (argc != 3) {
        fprintf(stderr, "usage: little_stack LENGTHS TABLE\n");
        return 2;
    }
    if (touched(run_example, argv) > STACK)
        failures++;
    for (int each = 1; each <= ROWS / GROUPS; each++) {
        fill(each);
        expect_little("judging", judge_rows);
        expect_little("the precise bound", bound_rows);
        expect_little("the listing", list_table);
    }
    return failures != 0;
}

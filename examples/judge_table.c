/* Judges each row of a frame table file, by the lengths in another, and says in words what was found. */
#include "certifier.h"

#include <inttypes.h>
#include <stdio.h>
#include <stdlib.h>

enum { LINE = 46 };

/* Reads the whole of a file; null where it cannot be read. */
static uint8_t *read_file(const char *path, size_t *len)
{
    FILE *file = fopen(path, "rb");
    if (file == NULL)
        return NULL;
    size_t room = 4096;
    uint8_t *bytes = malloc(room);
    *len = 0;
    while (bytes != NULL) {
        *len += fread(bytes + *len, 1, room - *len, file);
        if (*len < room)
            break;
        room *= 2;
        uint8_t *larger = realloc(bytes, room);
        if (larger == NULL)
            free(bytes);
        bytes = larger;
    }
    if (bytes != NULL && ferror(file)) {
        free(bytes);
        bytes = NULL;
    }
    fclose(file);
    return bytes;
}

/* Says why lengths or a table are refused. */
static void print_refusal(int number, int place)
{
    switch (number) {
    case CERTIFIER_FILE_FORM:
        if (place == 0)
            printf("refused: the file's length is 0 or no multiple of 46\n");
        else
            printf("refused at line %d: it does not end in a line feed\n", place);
        break;
    case CERTIFIER_TOO_MANY_LINES:
        printf("refused: more than 64 lines\n");
        break;
    case CERTIFIER_NOTATION:
        printf("refused at line %d: a column is not a right-justified number\n", place);
        break;
    case CERTIFIER_LIMITS:
        printf("refused at line %d: a value is outside its limits\n", place);
        break;
    case CERTIFIER_DUPLICATE:
        printf("refused at line %d: its kind and identifier stand on an earlier line\n", place);
        break;
    case CERTIFIER_SECOND_GROUP:
        printf("refused at line %d: its node stands in another group on an earlier line\n", place);
        break;
    case CERTIFIER_HYPERPERIOD:
        printf("refused at group %d: its hyperperiod is above 1000000 ticks\n", place);
        break;
    case CERTIFIER_RELEASES:
        printf("refused at group %d: more than 256 releases in its hyperperiod\n", place);
        break;
    case CERTIFIER_LENGTHS_FILE:
        printf("refused: the lengths are not two lines of nine numbers\n");
        break;
    case CERTIFIER_LENGTH_LIMITS:
        printf("refused at line %d of the lengths: a number is outside 47..400 or smaller than the one before it\n", place);
        break;
    default:
        printf("refused with %d at %d\n", number, place);
    }
}

/* Says what a row's claim was found to be. */
static void print_judgement(size_t line, int64_t answer)
{
    int bound = certifier_bound(answer);
    int margin = certifier_margin(answer);
    printf("line %zu: ", line);
    switch (certifier_verdict_of(answer)) {
    case CERTIFIER_BY_APPROXIMATE_BOUND:
        printf("certified by the approximate bound %d, %d ticks to spare\n", bound, margin);
        break;
    case CERTIFIER_BY_PRECISE_BOUND:
        printf("certified by the precise bound %d, %d ticks to spare\n", bound, margin);
        break;
    case CERTIFIER_CLAIM_TOO_SMALL:
        printf("the claim is too small: the bound is %d, %d ticks more\n", bound, -margin);
        break;
    case CERTIFIER_BY_LEVEL_BOUND:
        printf("certified by the bound %d between the two, %d ticks to spare\n", bound, margin);
        break;
    case CERTIFIER_UNDECIDED:
        printf("undecided: too many scenarios, the approximate bound %d is %d ticks above the claim\n", bound, -margin);
        break;
    case CERTIFIER_NO_WINDOW:
        printf("no window: the frames ahead leave no time within 1000000 ticks\n");
        break;
    default:
        printf("unknown answer %" PRId64 "\n", answer);
    }
}

/* Judges each row. Answers whether lengths or table are refused. */
static int judge_all(const uint8_t *lengths, size_t lengths_len, const uint8_t *table, size_t table_len)
{
    int64_t answer = certifier_judge(lengths, lengths_len, table, table_len, 0);
    for (size_t row = 0; !certifier_refused(answer) && row < table_len / LINE; row++) {
        answer = certifier_judge(lengths, lengths_len, table, table_len, row);
        print_judgement(row + 1, answer);
    }
    if (certifier_refused(answer))
        print_refusal(certifier_number(answer), certifier_place(answer));
    return certifier_refused(answer);
}

int main(int argc, char **argv)
{
    if (argc != 3) {
        fprintf(stderr, "usage: judge_table LENGTHS TABLE\n");
        return 2;
    }
    size_t len[2] = {0, 0};
    uint8_t *files[2] = {NULL, NULL};
    int status = 0;
    for (int i = 0; i < 2 && status == 0; i++) {
        files[i] = read_file(argv[i + 1], &len[i]);
        if (files[i] == NULL) {
            perror(argv[i + 1]);
            status = 2;
        }
    }
    if (status == 0)
        status = judge_all(files[0], len[0], files[1], len[1]);
    free(files[0]);
    free(files[1]);
    return status;
}

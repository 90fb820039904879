/*
 * The picker bus certifier for C: judges the claims of a frame table, shows what breaks them, lists them, writes its load
 * sheet, and checks bus logs against it.
 *
 * Lengths are a file of two lines, kind 11 and then kind 29, each of nine numbers in columns 5 wide and a line feed: the
 * largest length in ticks of a frame with 0 to 8 payload bytes. They are CERTIFIER_LENGTHS bytes.
 * A table is a file of 1 to 64 lines, each 45 characters and a line feed. Rows count from 0, lines from 1. Its second
 * column is the node's group: the nodes of a group start together, each group whenever it likes. A node is in one group.
 * Each call takes the whole bytes of both files, checks the lengths and then the table, and answers one number.
 *
 * Memory: a call reads `lengths_len` bytes from `lengths` and `table_len` bytes from `table` and keeps nothing; a pointer
 * may be null only if its length is 0. Where an output area is lent, a call writes its result at the start of it and
 * leaves all that stands behind; where it is turned back, it leaves the whole area. The area must not overlap what is read, and
 * may be null only if its length is 0. A call allocates nothing and needs at most CERTIFIER_STACK bytes of stack, and at most
 * CERTIFIER_JUDGING_STACK unless it explains or shows the worst case.
 * Threads: there is no state between calls, so any number of threads may call at once.
 */
#ifndef CERTIFIER_H
#define CERTIFIER_H

#include <stddef.h>
#include <stdint.h>

#ifdef __cplusplus
extern "C" {
#endif

/* The most bytes of stack that a call needs, whatever it is given: any call; any but certifier_explain, certifier_explain_faults
 * and certifier_worst. */
#define CERTIFIER_STACK 30720
#define CERTIFIER_JUDGING_STACK 24576

/* The bytes of a file of lengths. */
#define CERTIFIER_LENGTHS 92

/*
 * Judges the claim of a row: verdict * 10^14 + bound * 10^7 + margin + 10^6, or, where the call is turned back,
 * minus (number * 10000 + place). The functions below take the answer apart.
 */
int64_t certifier_judge(const uint8_t *lengths, size_t lengths_len, const uint8_t *table, size_t table_len, uint64_t row);

/*
 * Judges the claim of a row, as certifier_judge does, and shows the case that breaks it: where the verdict is 3,
 * CERTIFIER_CASE numbers are written to those that `shown` points at, of which there are `shown_len`: the alignment of each
 * group from 1 to 16, 0 for one that has none, and then the number of the instance whose response exceeds the claim,
 * counted from 1. Scenarios run with groups rising and alignments rising, the last group changing fastest: the first
 * that exceeds the claim is shown, with its first instance that does. For every other verdict the area is left as it is,
 * and need not be of any size. Answers what certifier_judge answers, but for the area's refusal, which comes last.
 */
int64_t certifier_explain(const uint8_t *lengths, size_t lengths_len, const uint8_t *table, size_t table_len, uint64_t row,
                          uint32_t *shown, size_t shown_len);

/* The numbers of a case. */
#define CERTIFIER_CASE 17

/*
 * Judges the claim of a row under the premise that faults begin at least `gap` ticks apart, 1 to 1000000. A fault begins in some
 * tick of a transmission and cuts it at that tick's end; 31 ticks of signalling follow, and the cut instance is still queued. A
 * certified frame is then never late in any schedule with such faults: the transmission that none cuts ends within the claim.
 * Answers as certifier_judge does.
 */
int64_t certifier_judge_faults(const uint8_t *lengths, size_t lengths_len, const uint8_t *table, size_t table_len, uint64_t row,
                               uint64_t gap);

/*
 * Judges the same, and shows the case that breaks the claim as certifier_explain does.
 */
int64_t certifier_explain_faults(const uint8_t *lengths, size_t lengths_len, const uint8_t *table, size_t table_len, uint64_t row,
                                 uint64_t gap, uint32_t *shown, size_t shown_len);

/*
 * The precise bound of a row, in ticks, or, where the call is turned back, minus (number * 10000 + place).
 */
int64_t certifier_precise_bound(const uint8_t *lengths, size_t lengths_len, const uint8_t *table, size_t table_len,
                                uint64_t row);

/* The numbers of a worst case: the starts of groups 1 to 16, the instance, and its response. */
#define CERTIFIER_WORST 18

/*
 * Judges the claim of the frame that ranks last, and answers as certifier_judge does for its row. Where its precise bound
 * can be had (certifier_precise_bound gives it) and every offset of the table is below its period, `shown` begins with the starts
 * of groups 1 to 16 in ticks, then the number of an instance of the frame, from 0, then its response: with these starts, and
 * all transmissions of their largest lengths, the instance takes exactly so many ticks, which is the precise bound. Turned
 * back with 8, last, where that is to be shown and `shown_len` is below 18; where nothing is shown, the area is left.
 */
int64_t certifier_worst(const uint8_t *lengths, size_t lengths_len, const uint8_t *table, size_t table_len, uint32_t *shown,
                        size_t shown_len);

/*
 * Writes the judgements of the table to `out`, a line a row, in table order: identifier (10), verdict (3), bound (8),
 * margin (9) and a line feed. Answers how many bytes were written, or, where the call is turned back, minus
 * (number * 10000 + place).
 */
int64_t certifier_list(const uint8_t *lengths, size_t lengths_len, const uint8_t *table, size_t table_len, uint8_t *out,
                       size_t out_len);

/*
 * Writes the same where faults begin at least `gap` ticks apart, 1 to 1000000, as certifier_judge_faults judges.
 */
int64_t certifier_list_faults(const uint8_t *lengths, size_t lengths_len, const uint8_t *table, size_t table_len, uint64_t gap,
                              uint8_t *out, size_t out_len);

/* The bytes of the longest listing. */
#define CERTIFIER_LISTING_MOST 1984

/*
 * Writes the load sheet of the table to `out`: a line for each node that has frames, nodes rising, with node (3),
 * quotient (10), remainder (8) and divisor (8), and a last line with the number of nodes (3) and the greatest
 * quotient (10); each line ends in a line feed. The dividend is work * 10000, the divisor the hyperperiod of the
 * node's group, and work is the sum over the node's frames of largest length * (hyperperiod / period).
 * Answers how many bytes were written, or, where the call is turned back, minus (number * 10000 + place).
 */
int64_t certifier_load_sheet(const uint8_t *lengths, size_t lengths_len, const uint8_t *table, size_t table_len, uint8_t *out,
                             size_t out_len);

/* The bytes of the longest load sheet. */
#define CERTIFIER_LOAD_SHEET_MOST 494

/*
 * Checks a bus log against the table. A log is a file of up to 1600 lines, each of start (11), identifier (10), kind (3),
 * queueing (11) and length (4) and a line feed. It is accepted exactly if the groups can have started so that it is the
 * beginning of a schedule, up to its last end. Then these starts, of groups 1 to CERTIFIER_GROUPS, are written to the
 * numbers that `starts` points at, of which there are `starts_len`: a group that has a line can have started then alone,
 * and a group with no line is given the last end, 0 in an empty log. Answers how many numbers were written, or, where the
 * call is turned back, minus (number * 10000 + place); the place is 1600 at the most.
 */
int64_t certifier_check_log(const uint8_t *lengths, size_t lengths_len, const uint8_t *table, size_t table_len,
                            const uint8_t *log, size_t log_len, uint64_t *starts, size_t starts_len);

/* The groups, and the bytes of the longest log. */
#define CERTIFIER_GROUPS 16
#define CERTIFIER_LOG_MOST 64000

/*
 * Simulates the bus from a seed, not 0, and writes a log of `lines` lines, 1 to 1600, to `out`: for each transmission start
 * (11), identifier (10), kind (3), queueing (11) and length (4) and a line feed. Starts and lengths are drawn; the same
 * lengths, table, seed and number of lines give the same log, and the log of fewer lines is its beginning.
 * Answers how many bytes were written, 40 * lines, or, where the call is turned back, minus (number * 10000 + place).
 */
int64_t certifier_simulate(const uint8_t *lengths, size_t lengths_len, const uint8_t *table, size_t table_len, uint32_t seed,
                           uint64_t lines, uint8_t *out, size_t out_len);

/* The bytes of the longest simulated log. */
#define CERTIFIER_SIMULATED_MOST 64000

/*
 * The exact length in ticks of the data frame with this kind (11 or 29 identifier bits), identifier and payload, from
 * its start bit through the 3-bit space after it, or, where the call is turned back, minus (number * 10000 + place).
 * It reads `payload_len` bytes from `payload`, which may be null only if the length is 0.
 */
int64_t certifier_frame_length(uint32_t kind, uint32_t identifier, const uint8_t *payload, size_t payload_len);

/*
 * Writes the sheet of a log to `out`: a first line with the greatest number of busy ticks in `width` consecutive ticks
 * between 0 and the log's last end (11), and the first tick of the earliest such stretch (11); then a line a row, in table
 * order: identifier (10), instances seen (5), greatest response seen (11) and sum of responses (15), zeros for a frame that
 * the log does not have; each line ends in a line feed. Answers how many bytes were written, 23 + 42 * rows, or, where the
 * call is turned back, minus (number * 10000 + place). It reads `log_len` bytes from `log`, which may be null only if the
 * length is 0.
 */
int64_t certifier_busiest(const uint8_t *lengths, size_t lengths_len, const uint8_t *table, size_t table_len,
                          const uint8_t *log, size_t log_len, uint64_t width, uint8_t *out, size_t out_len);

/* The bytes of the longest sheet of a log. */
#define CERTIFIER_BUSIEST_MOST 2711

/* What a claim is found to be. By one of the bounds (1, 2, 4) the frame is certified: it is never late. */
enum certifier_verdict {
    CERTIFIER_BY_APPROXIMATE_BOUND = 1,
    CERTIFIER_BY_PRECISE_BOUND = 2,
    CERTIFIER_CLAIM_TOO_SMALL = 3,
    CERTIFIER_BY_LEVEL_BOUND = 4, /* too many scenarios for the precise bound: one between the two certifies */
    CERTIFIER_NO_WINDOW = 11, /* the bus is overloaded for this frame: bound and margin are 0 */
    CERTIFIER_UNDECIDED = 12  /* too many scenarios, and that one does not: the bound is the approximate one */
};

/* Why a call is turned back, and what the place is. */
enum certifier_refusal {
    CERTIFIER_FILE_FORM = 1,     /* length 0 or no multiple of 46: 0; no line feed: the line */
    CERTIFIER_TOO_MANY_LINES = 2,/* 0 */
    CERTIFIER_NOTATION = 3,      /* the line */
    CERTIFIER_LIMITS = 4,        /* the line */
    CERTIFIER_DUPLICATE = 5,     /* the later line */
    CERTIFIER_HYPERPERIOD = 6,   /* the group */
    CERTIFIER_RELEASES = 7,      /* the group */
    CERTIFIER_OUTPUT_AREA = 8,   /* 0; of calls with an output area only */
    CERTIFIER_NO_SUCH_ROW = 9,   /* 0 */
    CERTIFIER_BOUND_NO_WINDOW = 11, /* the row; of certifier_precise_bound only */
    CERTIFIER_BOUND_TOO_MANY_SCENARIOS = 12, /* the row; of certifier_precise_bound only */
    CERTIFIER_LENGTHS_FILE = 13, /* 0: the lengths are not 92 bytes in their notation */
    CERTIFIER_LENGTH_LIMITS = 14,/* the lengths' line: a number outside 47..400, or smaller than the one before it */
    CERTIFIER_SECOND_GROUP = 15, /* the line: its node stands in another group on an earlier line */
    CERTIFIER_NOT_A_FRAME = 16,  /* 0; of certifier_frame_length only: a kind, identifier or payload outside its limits */
    CERTIFIER_GAP_OUTSIDE = 17,  /* 0; of calls with a gap only: it lies outside 1..1000000 */
    CERTIFIER_LOG_NOTATION = 18, /* of calls with a log only: the log's length is no multiple of 40 or beyond 64000: 0;
                                    a line breaks the notation, or a start or queueing is beyond 9999999999: the line */
    CERTIFIER_LOG_CONTRADICTION = 19, /* of calls with a log only: no starts make the log the beginning of a schedule:
                                        the lines of the shortest beginning that fails */
    CERTIFIER_NO_WIDTH = 20,     /* 0; of certifier_busiest only: the width is 0 or exceeds the log's last end */
    CERTIFIER_ZERO_SEED = 21,    /* 0; of certifier_simulate only */
    CERTIFIER_LINE_COUNT = 22    /* 0; of certifier_simulate only: the lines wanted are outside 1..1600 */
};

/* Whether the call was turned back. */
static inline int certifier_refused(int64_t answer)
{
    return answer < 0;
}

/* The number and the place of a refusal. */
static inline int certifier_number(int64_t answer)
{
    return (int)(-answer / 10000);
}

static inline int certifier_place(int64_t answer)
{
    return (int)(-answer % 10000);
}

/* The verdict, the bound and the margin, claim minus bound, of a judgement. */
static inline int certifier_verdict_of(int64_t answer)
{
    return (int)(answer / 100000000000000);
}

static inline int certifier_bound(int64_t answer)
{
    return (int)(answer / 10000000 % 10000000);
}

static inline int certifier_margin(int64_t answer)
{
    return (int)(answer % 10000000) - 1000000;
}

#ifdef __cplusplus
}
#endif

#endif

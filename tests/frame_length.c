/*
 * The exact length of frames through the C entry. A payload stands against the end and then against the start of a
 * page between two that nothing may touch, so that a byte read beside it ends the program.
 * Lengths are worked out in tests/analyser/src/known_frames.rs.
 */
#define _DEFAULT_SOURCE
#include "certifier.h"

#include <stdio.h>
#include <string.h>
#include <sys/mman.h>
#include <unistd.h>

struct frame {
    uint32_t kind;
    uint32_t identifier;
    size_t size;
    const char *payload;
    int64_t answer;
};

static const struct frame frames[] = {
    {11, 0, 0, "", 53},
    {11, 0, 2, "\x01\x00", 68},
    {11, 0x080, 0, "", 51},
    {11, 0x77f, 1, "\x00", 60},
    {11, 0x601, 8, "\x40\x00\x10\x00\x00\x00\x00\x00", 124},
    {29, 0x18da10f1, 3, "\x02\x3e\x80", 95},
    {29, 0x0cf00400, 8, "\xff\xff\xff\x68\x13\xff\xff\xff", 145},
    /* Beside the limits of kind, identifier and payload. */
    {0, 0, 0, "", -160000},
    {10, 0, 0, "", -160000},
    {12, 0, 0, "", -160000},
    {28, 0, 0, "", -160000},
    {30, 0, 0, "", -160000},
    {UINT32_MAX, 0, 0, "", -160000},
    {11, 2048, 0, "", -160000},
    {11, UINT32_MAX, 0, "", -160000},
    {29, 536870912, 0, "", -160000},
    {29, UINT32_MAX, 0, "", -160000},
    {11, 0, 9, "\x00\x00\x00\x00\x00\x00\x00\x00\x00", -160000},
    {29, 0, 9, "\x00\x00\x00\x00\x00\x00\x00\x00\x00", -160000},
};

static int failed;

static void expect(int holds, const char *what, size_t number)
{
    if (!holds) {
        printf("failed: %s, frame %zu\n", what, number);
        failed = 1;
    }
}

/* Calls with a copy of the payload at `at`, which must stay as it is. */
static void call(const struct frame *frame, size_t number, uint8_t *at)
{
    memcpy(at, frame->payload, frame->size);
    int64_t answer = certifier_frame_length(frame->kind, frame->identifier, at, frame->size);
    expect(answer == frame->answer, "answer", number);
    expect(memcmp(at, frame->payload, frame->size) == 0, "payload", number);
    if (certifier_refused(answer)) {
        expect(certifier_number(answer) == CERTIFIER_NOT_A_FRAME, "number", number);
        expect(certifier_place(answer) == 0, "place", number);
    }
}

int main(void)
{
    size_t page = (size_t)sysconf(_SC_PAGESIZE);
    uint8_t *pages = mmap(NULL, 3 * page, PROT_NONE, MAP_PRIVATE | MAP_ANONYMOUS, -1, 0);
    if (pages == MAP_FAILED || mprotect(pages + page, page, PROT_READ | PROT_WRITE) != 0) {
        perror("pages");
        return 2;
    }
    for (size_t i = 0; i < sizeof frames / sizeof *frames; i++) {
        call(&frames[i], i, pages + 2 * page - frames[i].size);
        call(&frames[i], i, pages + page);
    }
    expect(certifier_frame_length(11, 0, NULL, 0) == 53, "no payload", 0);
    if (!failed)
        puts("frame length from C: as expected");
    return failed;
}

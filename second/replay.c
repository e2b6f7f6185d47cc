/* Reads a stream of recorded calls (CASES.md) from standard input, makes them through the exported C functions of the
 * library to be compared, and compares answer, count and every byte of every lent buffer. It prints how many calls of each kind
 * gave which answer.
 *
 *     cc -O2 -o replay-c replay.c -L FOLDER -l LIBRARY
 *     second cases --seed 1 --count 1000000 | ./replay-c
 *
 * A library that has not all nine calls yet: -DHAVE=MASK, bit n for call n (bit 1 start, 2 read, .. 9 strip_pass). The others
 * are then passed over: their buffers become what was recorded, and they are counted apart.
 *
 * Exit: 0 no mismatch, 1 a mismatch, 2 not a whole stream. */

#include "../include/sqimrutta.h"
#include "stream.h"

/* The calls that the header has not yet. A slice is a pointer and a size_t. */
uint32_t sqimrutta_repair(uint8_t *image, size_t image_len, const uint8_t *reply, size_t reply_len);

#ifndef HAVE
#define HAVE 0x3fe
#endif
/* A constant, so that the compiler leaves out the calls that the library lacks. */
#define HAS(call) (HAVE >> (call) & 1)

/* The working buffers: image, input, context, buffer to write to. */
static uint8_t work[4][SLOT_BYTES];
static uint32_t counters[SLOT_BYTES / 4];
static uint64_t passed_over;

static const char *const call_names[10] = {"",        "start", "read",  "write",  "delete",
                                           "take_in", "ask",   "reply", "repair", "strip_pass"};
/* How many calls that were made gave which answer, by the bytes of a call's head that tell both. */
static uint64_t given[10][256];

static void mismatch(const uint8_t *head, const char *what, unsigned long is, unsigned long must) {
    printf("call %llu (number %u, about: %s): %s: is %lu, recorded is %lu\n", (unsigned long long)answered, head[0],
           label, what, is, must);
    exit(1);
}

static void call(const uint8_t *head) {
    size_t length[4] = {0, 0, 0, 0};
    uint32_t answer = 0, count = 0, due_count = number(head + 12, 4);
    uint16_t point = (uint16_t)number(head + 8, 2), changes = (uint16_t)number(head + 10, 2);
    for (int i = 0; i < 4; i++) {
        uint8_t slot = head[2 + i];
        if (slot == NO_SLOT)
            continue;
        if (slot >= SLOTS)
            broken("a lent slot out of range");
        length[i] = lengths[slot];
        memcpy(work[i], slots[slot], length[i]);
    }
    for (size_t i = 0; i < length[2] / 4; i++)
        counters[i] = number(work[2] + 4 * i, 4);
    uint8_t *image = work[0], *input = work[1], *out = work[3];
    switch (head[0]) {
    case 1: if (HAS(1)) answer = sqimrutta_start(image, length[0], head[6], input, length[1]); break;
    case 2: if (HAS(2)) answer = sqimrutta_read(image, length[0], head[6], point, out, length[3]); break;
    case 3:
        if (HAS(3))
            answer = sqimrutta_write(image, length[0], head[6], point, input, length[1], counters, length[2] / 4, out,
                                     length[3]);
        break;
    case 4: if (HAS(4)) answer = sqimrutta_delete(image, length[0], head[6], point, counters, length[2] / 4, out, length[3]); break;
    case 5: if (HAS(5)) answer = sqimrutta_take_in(image, length[0], input, length[1]); break;
    case 6: if (HAS(6)) answer = sqimrutta_ask(image, length[0], head[6], out, length[3]); break;
    case 7:
        count = 0xdeadbeef;
        if (HAS(7))
            answer = sqimrutta_reply(image, length[0], input, length[1], out, length[3], &count);
        break;
    case 8: if (HAS(8)) answer = sqimrutta_repair(image, length[0], input, length[1]); break;
    case 9:
        count = 0xdeadbeef;
        if (HAS(9))
            answer = sqimrutta_strip_pass(image, length[0], &count);
        break;
    }
    for (uint16_t i = 0; i < changes; i++) {
        uint8_t patch[16];
        take(patch, 16);
        if (patch[0] != 17)
            broken("a call's change");
        other(patch);
    }
    if (!HAS(head[0])) {
        passed_over++;
        return;
    }
    if (answer != head[1])
        mismatch(head, "answer", answer, head[1]);
    if (count != due_count)
        mismatch(head, "count", count, due_count);
    static const char *const names[4] = {"byte of the image", "byte of the input", "byte of the context",
                                         "byte of the buffer written to"};
    for (int i = 0; i < 4; i++) {
        if (head[2 + i] == NO_SLOT || memcmp(work[i], slots[head[2 + i]], length[i]) == 0)
            continue;
        const uint8_t *must = slots[head[2 + i]];
        size_t at = 0;
        while (work[i][at] == must[at])
            at++;
        fprintf(stderr, "at byte %zu:\n", at);
        mismatch(head, names[i], work[i][at], must[at]);
    }
    given[head[0]][head[1]]++;
}

/* One line for each call that was made: how often, and how many times it gave each of its answers. */
static void report_call(int call) {
    uint64_t made = 0;
    for (int answer = 0; answer < 256; answer++)
        made += given[call][answer];
    if (made == 0)
        return;
    printf("%s: %llu calls; answer", call_names[call], (unsigned long long)made);
    const char *between = " ";
    for (int answer = 0; answer < 256; answer++) {
        if (given[call][answer] == 0)
            continue;
        printf("%s%d: %llu", between, answer, (unsigned long long)given[call][answer]);
        between = ", ";
    }
    printf("\n");
}

int main(void) {
    each_record(1, 9, call);
    for (int made = 1; made <= 9; made++)
        report_call(made);
    printf("%llu calls, %llu of them passed over, no mismatch\n", (unsigned long long)answered,
           (unsigned long long)passed_over);
    return 0;
}

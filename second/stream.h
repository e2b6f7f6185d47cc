/* Reads streams (CASES.md) from standard input: what replay.c, good.c and ../bench/measure.c share. */

#include <stdint.h>
#include <stdio.h>
#include <stdlib.h>
#include <string.h>

enum { SLOTS = 64, SLOT_BYTES = 65536, NO_SLOT = 255 };

static uint8_t slots[SLOTS][SLOT_BYTES];
static size_t lengths[SLOTS];
static char label[SLOT_BYTES + 1];
/* The calls or questions so far, the one at hand included. */
static uint64_t answered;

static void broken(const char *what) {
    fprintf(stderr, "not a whole stream: %s\n", what);
    exit(2);
}

static void take(void *bytes, size_t length) {
    if (length > 0 && fread(bytes, 1, length, stdin) != length)
        broken("it stops early");
}

static uint32_t number(const uint8_t *bytes, int length) {
    uint32_t result = 0;
    for (int i = 0; i < length; i++)
        result |= (uint32_t)bytes[i] << (8 * i);
    return result;
}

static void open_stream(void) {
    uint8_t opening[16];
    take(opening, 16);
    if (memcmp(opening, "SQIMRUTTA CASES1", 16) != 0)
        broken("the first 16 bytes");
}

/* Any record but a call, a question and the end. */
static void other(const uint8_t *head) {
    uint8_t slot = head[1], from = head[2];
    uint32_t first = number(head + 4, 4), second = number(head + 8, 4);
    if (slot >= SLOTS || from >= SLOTS || first > SLOT_BYTES || second > SLOT_BYTES)
        broken("a slot or length out of range");
    switch (head[0]) {
    case 16:
        take(slots[slot], first);
        lengths[slot] = first;
        break;
    case 17:
        if (first + second > lengths[slot])
            broken("a patch past the end");
        take(slots[slot] + first, second);
        break;
    case 18:
        memmove(slots[slot], slots[from], lengths[from]);
        lengths[slot] = lengths[from];
        break;
    case 19:
        if (first > lengths[slot])
            memset(slots[slot] + lengths[slot], 0, first - lengths[slot]);
        lengths[slot] = first;
        break;
    case 20:
        take(label, first);
        label[first] = 0;
        break;
    default:
        broken("an unknown record");
    }
}

/* The end must tell the number of calls and questions that were read. */
static void at_end(const uint8_t *head) {
    uint64_t recorded = (uint64_t)number(head + 12, 4) << 32 | number(head + 8, 4);
    if (recorded != answered)
        broken("the number of calls and questions");
}

/* Reads the stream to its end. The records whose first byte is in first..last are the calls or questions: `answer` gets their heads. */
static void each_record(uint8_t first, uint8_t last, void (*answer)(const uint8_t *head)) {
    uint8_t head[16];
    open_stream();
    for (take(head, 16); head[0] != 0; take(head, 16)) {
        if (first <= head[0] && head[0] <= last) {
            answered++;
            answer(head);
        } else {
            other(head);
        }
    }
    at_end(head);
}

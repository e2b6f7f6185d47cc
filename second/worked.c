/* Document 01's worked examples K2 to K12 and its limits, through the exported C functions. What must come is written out below, byte
 * by byte, from document 01: it is neither the second program's nor the library's. Only the checks of blocks are computed here, and
 * that rule is held against K1. For each example the answers are compared, and the message, the whole image and the reading in the
 * end; of a refused call, that no lent byte has changed.
 *
 *     cc -O2 -o worked worked.c -L FOLDER -l sqimrutta && ./worked
 *
 * Whole images and messages of the same examples as the second program makes them: replay.c, whose streams begin with K5 to K12.
 *
 * Refusal 13 is not here: own writes reach 60 listed dots before 64 stored points.
 *
 * Exit: 0 all as written, 1 a difference. */

#include "../include/sqimrutta.h"

#include <stdio.h>
#include <stdlib.h>
#include <string.h>

enum { IMAGE = SQIMRUTTA_IMAGE, BLOCK = SQIMRUTTA_BLOCK, TABLE = SQIMRUTTA_TABLE, CONTEXT = SQIMRUTTA_CONTEXT, VALUE = SQIMRUTTA_VALUE };

/* A block without its check. */
enum { BARE = 508 };
typedef uint8_t bare_block[BARE];

#define COUNT(blocks) (sizeof(blocks) / sizeof(blocks)[0])

/* All that is lent to a call, and a copy from before it. Each buffer has an element to spare: some calls are told a length of one
 * too many. */
struct lent {
    uint8_t image[IMAGE + 1], out[BLOCK + 1], table[TABLE + 1], value[VALUE + 1];
    uint32_t context[CONTEXT + 1];
};
static struct lent lent, before;

/* The lengths that the calls are told. */
struct lengths {
    size_t image, out, table, context;
};
static const struct lengths right_lengths = {IMAGE, BLOCK, TABLE, CONTEXT};
static struct lengths told;

/* The count of the last strip pass. */
static uint32_t gone;

static const char *example;

/* ---- comparing */

static void number_is(const char *what, unsigned long is, unsigned long must) {
    if (is == must)
        return;
    printf("%s: %s is %lu, must be %lu\n", example, what, is, must);
    exit(1);
}

static void bytes_are(const char *what, const void *is, const void *must, size_t length) {
    const uint8_t *found = is, *due = must;
    if (memcmp(found, due, length) == 0)
        return;
    size_t at = 0;
    while (found[at] == due[at])
        at++;
    printf("%s: byte %zu of %s is %u, must be %u\n", example, at, what, found[at], due[at]);
    exit(1);
}

static void answer_is(const char *call, uint32_t answer, uint32_t must) {
    char what[80];
    snprintf(what, sizeof what, "the answer of %s", call);
    number_is(what, answer, must);
}

/* "Check: over the 254 two-byte words of bytes 0-507, s1 is the sum modulo 65535, s2 the sum of the running s1 values modulo 65535." */
static void seal(uint8_t *block) {
    uint32_t s1 = 0, s2 = 0;
    for (int at = 0; at < BARE; at += 2) {
        s1 = (s1 + block[at] + 256u * block[at + 1]) % 65535;
        s2 = (s2 + s1) % 65535;
    }
    block[508] = (uint8_t)(s1 % 256);
    block[509] = (uint8_t)(s1 / 256);
    block[510] = (uint8_t)(s2 % 256);
    block[511] = (uint8_t)(s2 / 256);
}

static void block_is(const char *what, const uint8_t *block, const uint8_t *bare) {
    uint8_t must[BLOCK];
    memcpy(must, bare, BARE);
    seal(must);
    bytes_are(what, block, must, BLOCK);
}

/* The image has these blocks and then zeros. */
static void image_is(const bare_block *blocks, size_t count) {
    static const uint8_t zeros[IMAGE];
    for (size_t i = 0; i < count; i++) {
        char what[40];
        snprintf(what, sizeof what, "block %zu of the image", i);
        block_is(what, lent.image + i * BLOCK, blocks[i]);
    }
    bytes_are("the image's zeros", lent.image + count * BLOCK, zeros, IMAGE - count * BLOCK);
}

static void message_is(const uint8_t *bare) { block_is("the message", lent.out, bare); }

static void kept_image(void) { bytes_are("the image, which must stay as it was,", lent.image, before.image, sizeof lent.image); }

static void kept_inputs(void) {
    bytes_are("the lent table", lent.table, before.table, sizeof lent.table);
    bytes_are("the lent value", lent.value, before.value, sizeof lent.value);
    bytes_are("the lent context", lent.context, before.context, sizeof lent.context);
}

/* Of what a call writes to, the byte past the end stays. */
static void accepted(const char *call, uint32_t answer) {
    answer_is(call, answer, 0);
    kept_inputs();
    bytes_are("what follows the image", lent.image + IMAGE, before.image + IMAGE, 1);
    bytes_are("what follows the buffer written to", lent.out + BLOCK, before.out + BLOCK, 1);
}

/* A refused call changes no lent byte. */
static void refused(const char *call, uint32_t answer, uint32_t must) {
    answer_is(call, answer, must);
    kept_inputs();
    kept_image();
    bytes_are("the buffer to write to, which must stay as it was,", lent.out, before.out, sizeof lent.out);
}

/* ---- calling */

/* The buffer to write to gets bytes that no call writes there, so that one left alone and one written to differ. */
static void remember(void) {
    memset(lent.out, 0x55, sizeof lent.out);
    memcpy(&before, &lent, sizeof lent);
}

static uint32_t start(uint8_t number) {
    remember();
    return sqimrutta_start(lent.image, told.image, number, lent.table, told.table);
}

static uint32_t read_point(uint8_t job, uint16_t point) {
    remember();
    return sqimrutta_read(lent.image, told.image, job, point, lent.out, told.out);
}

static uint32_t write_point(uint8_t job, uint16_t point, const char *text) {
    size_t length = strlen(text);
    memcpy(lent.value, text, length);
    remember();
    return sqimrutta_write(lent.image, told.image, job, point, lent.value, length, lent.context, told.context, lent.out, told.out);
}

static uint32_t delete_point(uint8_t job, uint16_t point) {
    remember();
    return sqimrutta_delete(lent.image, told.image, job, point, lent.context, told.context, lent.out, told.out);
}

static uint32_t strip_pass(void) {
    gone = 0xdeadbeef;
    remember();
    return sqimrutta_strip_pass(lent.image, told.image, &gone);
}

/* This block, with its check, comes by radio. */
static uint32_t take_in(const uint8_t *bare) {
    uint8_t message[BLOCK];
    memcpy(message, bare, BARE);
    seal(message);
    remember();
    uint32_t answer = sqimrutta_take_in(lent.image, told.image, message, BLOCK);
    block_is("the message lent to take_in", message, bare);
    return answer;
}

/* The ask to that peer is left in lent.out. */
static uint32_t ask(uint8_t to) {
    remember();
    return sqimrutta_ask(lent.image, told.image, to, lent.out, told.out);
}

/* A reply to this ask, which comes by radio, in a buffer of its own; the blocks written are told by `sent`. */
static uint8_t replied[SQIMRUTTA_REPLY];
static uint32_t sent;
static uint32_t reply(const uint8_t *bare) {
    uint8_t message[BLOCK];
    memcpy(message, bare, BARE);
    seal(message);
    memset(replied, 0x55, sizeof replied);
    sent = 0xdeadbeef;
    remember();
    uint32_t answer = sqimrutta_reply(lent.image, told.image, message, BLOCK, replied, sizeof replied, &sent);
    block_is("the ask lent to reply", message, bare);
    return answer;
}

/* These blocks, with their checks, come by radio as a reply. */
static uint32_t repair(const bare_block *blocks, size_t count) {
    static uint8_t message[SQIMRUTTA_REPLY];
    for (size_t i = 0; i < count; i++) {
        memcpy(message + i * BLOCK, blocks[i], BARE);
        seal(message + i * BLOCK);
    }
    remember();
    uint32_t answer = sqimrutta_repair(lent.image, told.image, message, count * BLOCK);
    for (size_t i = 0; i < count; i++)
        block_is("a block lent to repair", message + i * BLOCK, blocks[i]);
    return answer;
}

/* The context that the next calls give: controller:counter, 0 for all others. */
static void give(int controller, uint32_t counter) {
    memset(lent.context, 0, sizeof lent.context);
    lent.context[controller - 1] = counter;
}

static void give_zeros(void) { give(1, 0); }

/* The context of the reading just made: "8-39 context". */
static void give_what_was_read(void) {
    for (int i = 0; i < CONTEXT; i++) {
        const uint8_t *entry = lent.out + 8 + 4 * i;
        lent.context[i] = entry[0] | (uint32_t)entry[1] << 8 | (uint32_t)entry[2] << 16 | (uint32_t)entry[3] << 24;
    }
}

/* "Table: job 0 held by 1 and 2. Point 7 of job 0." A fresh controller. "The lent image's old bytes don't matter." */
static void fresh_controller(uint8_t number) {
    told = right_lengths;
    memset(&lent, 0xaa, sizeof lent);
    memset(lent.table, 0, sizeof lent.table);
    lent.table[0] = 3;
    accepted("start", start(number));
    give_zeros();
}

static void fresh(void) { fresh_controller(1); }

/* An image of these blocks, as if a controller had it. */
static void lay(const bare_block *blocks, size_t count) {
    fresh();
    memset(lent.image, 0, IMAGE);
    for (size_t i = 0; i < count; i++) {
        memcpy(lent.image + i * BLOCK, blocks[i], BARE);
        seal(lent.image + i * BLOCK);
    }
    number_is("good, of an image laid out by hand", sqimrutta_good(lent.image, IMAGE), 1);
}

/* Point 7 of job 0 is read so. */
static void reading_is(const uint8_t *bare) {
    accepted("read", read_point(0, 7));
    kept_image();
    block_is("the reading", lent.out, bare);
}

/* A strip pass finds nothing to free. */
static void nothing_to_strip(void) {
    accepted("strip_pass", strip_pass());
    number_is("the count of strip_pass", gone, 0);
    kept_image();
}

/* ---- the examples
 *
 * The blocks as document 01 lays them out. In [at] stands the offset within the block.
 *     head       kind 1, format, position (2), own number; [8] table; [16] row 1: base
 *     dots       kind 2, format, position (2), count (2); [8] controller, job, point (2), counter (4); the next
 *     points     kind 3 (stored), 4 (outgoing), 7 (reading), format, position (2), job, version count, point (2); [8] context;
 *                [40] [72] .. controller, length, 0, 0, counter (4), value; [296] sender */

/* K1, of this program's own check: "Bytes 05 01 and zeros: s1 = 261, s2 = 759." */
static void k1(void) {
    uint8_t block[BLOCK] = {0x05, 0x01};
    static const uint8_t must[4] = {261 % 256, 261 / 256, 759 % 256, 759 / 256};
    seal(block);
    bytes_are("the check computed here", block + 508, must, 4);
}

/* "Start: a fresh image from a number and a table." */
static void fresh_image(void) {
    static const bare_block image[] = {{1, 1, 0, 0, 1, [8] = 3}, {2, 1, 1, 0}, {2, 1, 2, 0}};
    static const bare_block nothing = {7, 1, 0, 0, 0, 0, 7, 0, [296] = 1};
    fresh();
    image_is(image, COUNT(image));
    reading_is(nothing);
    nothing_to_strip();
}

/* What K5 to K8 begin with: values a and b. */
static void two_writes(void) {
    fresh();
    accepted("the first write", write_point(0, 7, "a"));
    accepted("the second write", write_point(0, 7, "b"));
}

/* Its image: two own dots; the record's context is stripped, since entry 1 is not above the base of row 1. */
static const bare_block two_writes_image[] = {
    {1, 1, 0, 0, 1, [8] = 3, [16] = 2},
    {2, 1, 1, 0, 2, 0, [8] = 1, 0, 7, 0, 1, 0, 0, 0, 1, 0, 7, 0, 2, 0, 0, 0},
    {2, 1, 2, 0},
    {3, 1, 3, 0, 0, 2, 7, 0, [40] = 1, 1, 0, 0, 1, 0, 0, 0, 'a', [72] = 1, 1, 0, 0, 2, 0, 0, 0, 'b'},
};
static const bare_block two_writes_reading = {
    7, 1, 0, 0, 0, 2, 7, 0, [8] = 2, [40] = 1, 1, 0, 0, 1, 0, 0, 0, 'a', [72] = 1, 1, 0, 0, 2, 0, 0, 0, 'b', [296] = 1};

/* "Fresh controller 1, two writes with empty context: 1.1 and 1.2 are both shown; context entry 1 is 2." */
static void k5(void) {
    static const bare_block first = {4, 1, 0, 0, 0, 1, 7, 0, [8] = 1, [40] = 1, 1, 0, 0, 1, 0, 0, 0, 'a', [296] = 1};
    static const bare_block second = {
        4, 1, 0, 0, 0, 2, 7, 0, [8] = 2, [40] = 1, 1, 0, 0, 1, 0, 0, 0, 'a', [72] = 1, 1, 0, 0, 2, 0, 0, 0, 'b', [296] = 1};
    fresh();
    accepted("the first write", write_point(0, 7, "a"));
    message_is(first);
    accepted("the second write", write_point(0, 7, "b"));
    message_is(second);
    image_is(two_writes_image, COUNT(two_writes_image));
    reading_is(two_writes_reading);
}

/* "Then a write with context 1:1 shows 1.2 and 1.3." */
static void k6(void) {
    static const bare_block message = {
        4, 1, 0, 0, 0, 2, 7, 0, [8] = 3, [40] = 1, 1, 0, 0, 2, 0, 0, 0, 'b', [72] = 1, 1, 0, 0, 3, 0, 0, 0, 'c', [296] = 1};
    static const bare_block image[] = {
        {1, 1, 0, 0, 1, [8] = 3, [16] = 3},
        {2, 1, 1, 0, 3, 0, [8] = 1, 0, 7, 0, 1, 0, 0, 0, 1, 0, 7, 0, 2, 0, 0, 0, 1, 0, 7, 0, 3, 0, 0, 0},
        {2, 1, 2, 0},
        {3, 1, 3, 0, 0, 2, 7, 0, [40] = 1, 1, 0, 0, 2, 0, 0, 0, 'b', [72] = 1, 1, 0, 0, 3, 0, 0, 0, 'c'},
    };
    static const bare_block reading = {
        7, 1, 0, 0, 0, 2, 7, 0, [8] = 3, [40] = 1, 1, 0, 0, 2, 0, 0, 0, 'b', [72] = 1, 1, 0, 0, 3, 0, 0, 0, 'c', [296] = 1};
    two_writes();
    give(1, 1);
    accepted("the third write", write_point(0, 7, "c"));
    message_is(message);
    image_is(image, COUNT(image));
    reading_is(reading);
}

/* "With 1:2 instead, only 1.3." */
static void k7(void) {
    static const bare_block message = {4, 1, 0, 0, 0, 1, 7, 0, [8] = 3, [40] = 1, 1, 0, 0, 3, 0, 0, 0, 'c', [296] = 1};
    static const bare_block image[] = {
        {1, 1, 0, 0, 1, [8] = 3, [16] = 3},
        {2, 1, 1, 0, 3, 0, [8] = 1, 0, 7, 0, 1, 0, 0, 0, 1, 0, 7, 0, 2, 0, 0, 0, 1, 0, 7, 0, 3, 0, 0, 0},
        {2, 1, 2, 0},
        {3, 1, 3, 0, 0, 1, 7, 0, [40] = 1, 1, 0, 0, 3, 0, 0, 0, 'c'},
    };
    static const bare_block reading = {7, 1, 0, 0, 0, 1, 7, 0, [8] = 3, [40] = 1, 1, 0, 0, 3, 0, 0, 0, 'c', [296] = 1};
    two_writes();
    give(1, 2);
    accepted("the third write", write_point(0, 7, "c"));
    message_is(message);
    image_is(image, COUNT(image));
    reading_is(reading);
}

/* "With 1:3 instead, refusal 8." */
static void k8(void) {
    two_writes();
    give(1, 3);
    refused("write", write_point(0, 7, "c"), 8);
    refused("delete", delete_point(0, 7), 8);
    image_is(two_writes_image, COUNT(two_writes_image));
    reading_is(two_writes_reading);
}

/* "Write 1.1, delete with 1:1: no record remains; two own dots are listed." K10 to K12 go on from here, at controller 2. */
static void k9(void) {
    static const bare_block message = {4, 1, 0, 0, 0, 1, 7, 0, [8] = 2, [40] = 1, 255, 0, 0, 2, 0, 0, 0, [296] = 1};
    static const bare_block image[] = {
        {1, 1, 0, 0, 1, [8] = 3, [16] = 2},
        {2, 1, 1, 0, 2, 0, [8] = 1, 0, 7, 0, 1, 0, 0, 0, 1, 0, 7, 0, 2, 0, 0, 0},
        {2, 1, 2, 0},
    };
    static const bare_block reading = {7, 1, 0, 0, 0, 0, 7, 0, [8] = 2, [296] = 1};
    fresh();
    accepted("write", write_point(0, 7, "a"));
    give(1, 1);
    accepted("delete", delete_point(0, 7));
    message_is(message);
    image_is(image, COUNT(image));
    reading_is(reading);
    nothing_to_strip();
}

/* K2 to K4 are of controller 2's row for controller 1, which a message can give gaps. The image before: that row and nothing else. */

/* "Row base 3, bits 2 (counter 5): adding 4 gives base 5, bits 0." The record's context, 4, is then not above the base. */
static void k2(void) {
    static const bare_block image[] = {{1, 1, 0, 0, 2, [8] = 3, [16] = 3, [20] = 2}, {2, 1, 1, 0}, {2, 1, 2, 0}};
    static const bare_block message = {4, 1, 0, 0, 0, 1, 7, 0, [8] = 4, [40] = 1, 1, 0, 0, 4, 0, 0, 0, 'd', [296] = 1};
    static const bare_block after[] = {
        {1, 1, 0, 0, 2, [8] = 3, [16] = 5},
        {2, 1, 1, 0},
        {2, 1, 2, 0, 1, 0, [8] = 1, 0, 7, 0, 4, 0, 0, 0},
        {3, 1, 3, 0, 0, 1, 7, 0, [40] = 1, 1, 0, 0, 4, 0, 0, 0, 'd'},
    };
    static const bare_block reading = {7, 1, 0, 0, 0, 1, 7, 0, [8] = 5, [40] = 1, 1, 0, 0, 4, 0, 0, 0, 'd', [296] = 2};
    lay(image, COUNT(image));
    accepted("take_in", take_in(message));
    image_is(after, COUNT(after));
    reading_is(reading);
    accepted("take_in again", take_in(message));
    kept_image();
    nothing_to_strip();
}

static const bare_block row_base_3[] = {{1, 1, 0, 0, 2, [8] = 3, [16] = 3}, {2, 1, 1, 0}, {2, 1, 2, 0}};

/* "Row base 3, bits 0: adding 67 sets bit 63." The record keeps its context, which is above the base. */
static void k3(void) {
    static const bare_block message = {4, 1, 0, 0, 0, 1, 7, 0, [8] = 67, [40] = 1, 0, 0, 0, 67, 0, 0, 0, [296] = 1};
    static const bare_block after[] = {
        {1, 1, 0, 0, 2, [8] = 3, [16] = 3, [27] = 128},
        {2, 1, 1, 0},
        {2, 1, 2, 0, 1, 0, [8] = 1, 0, 7, 0, 67, 0, 0, 0},
        {3, 1, 3, 0, 0, 1, 7, 0, [8] = 67, [40] = 1, 0, 0, 0, 67, 0, 0, 0},
    };
    lay(row_base_3, COUNT(row_base_3));
    accepted("take_in", take_in(message));
    image_is(after, COUNT(after));
    nothing_to_strip();
}

/* "Adding 68: refusal 11." */
static void k4(void) {
    static const bare_block message = {4, 1, 0, 0, 0, 1, 7, 0, [8] = 68, [40] = 1, 0, 0, 0, 68, 0, 0, 0, [296] = 1};
    lay(row_base_3, COUNT(row_base_3));
    refused("take_in", take_in(message), 11);
}

/* "Controller 2 took in 1.1, missed that deletion, asks: the reply has point 7 with no version. After repair 2 has no record, row 1 base 2." Controller 1 is
 * that of K9; what it knows of 2 and of itself is then in 2's watermark, and both know 1.1, so that it leaves 2's list. K11: "The message of 1.1 comes
 * again: still none." */
static const bare_block k10_first = {4, 1, 0, 0, 0, 1, 7, 0, [8] = 1, [40] = 1, 1, 0, 0, 1, 0, 0, 0, 'a', [296] = 1};
static const bare_block k10_ask = {5, 1, 0, 0, 2, 1, 0, 0, [8] = 1};
static const bare_block k10_reply[] = {
    {6, 1, 0, 0, 1, 2, 1, 0, [8] = 2},
    {3, 1, 1, 0, 0, 0, 7, 0},
};
static const bare_block k10_repaired[] = {
    {1, 1, 0, 0, 2, [8] = 3, [16] = 2, [112] = 2, [144] = 2},
    {2, 1, 1, 0},
    {2, 1, 2, 0},
};
static const bare_block k10_reading = {7, 1, 0, 0, 0, 0, 7, 0, [8] = 2, [296] = 2};

static void k10_as_far_as_the_ask(void) {
    static const bare_block taken_in[] = {
        {1, 1, 0, 0, 2, [8] = 3, [16] = 1},
        {2, 1, 1, 0},
        {2, 1, 2, 0, 1, 0, [8] = 1, 0, 7, 0, 1, 0, 0, 0},
        {3, 1, 3, 0, 0, 1, 7, 0, [40] = 1, 1, 0, 0, 1, 0, 0, 0, 'a'},
    };
    fresh_controller(2);
    accepted("take_in of 1.1", take_in(k10_first));
    image_is(taken_in, COUNT(taken_in));
    accepted("ask", ask(1));
    message_is(k10_ask);
    image_is(taken_in, COUNT(taken_in));
}

static void k10(void) {
    /* controller 1, as in K9 */
    fresh();
    accepted("write", write_point(0, 7, "a"));
    give(1, 1);
    accepted("delete", delete_point(0, 7));
    accepted("reply", reply(k10_ask));
    kept_image();
    number_is("the points sent", sent, 1);
    for (size_t i = 0; i < COUNT(k10_reply); i++)
        block_is("a block of the reply", replied + i * BLOCK, k10_reply[i]);
    for (size_t i = COUNT(k10_reply) * BLOCK; i < sizeof replied; i++)
        number_is("the rest of the reply's buffer", replied[i], 0x55);

    k10_as_far_as_the_ask();
    accepted("repair", repair(k10_reply, COUNT(k10_reply)));
    image_is(k10_repaired, COUNT(k10_repaired));
    reading_is(k10_reading);
    nothing_to_strip();
}

static void k11(void) {
    k10_as_far_as_the_ask();
    accepted("repair", repair(k10_reply, COUNT(k10_reply)));
    accepted("take_in of 1.1 again", take_in(k10_first));
    image_is(k10_repaired, COUNT(k10_repaired));
    reading_is(k10_reading);
    accepted("repair again", repair(k10_reply, COUNT(k10_reply)));
    image_is(k10_repaired, COUNT(k10_repaired));
}

/* A reply to controller 3 is none of ours: refusal 6, and no lent byte changes. So is one from a controller that is no peer. */
static void replies_of_others(void) {
    static const bare_block to_another[] = {
        {6, 1, 0, 0, 1, 3, 1, 0, [8] = 2},
        {3, 1, 1, 0, 0, 0, 7, 0},
    };
    static const bare_block from_no_peer[] = {
        {6, 1, 0, 0, 3, 2, 0, 0},
    };
    k10_as_far_as_the_ask();
    refused("repair by a reply to another", repair(to_another, COUNT(to_another)), 6);
    refused("repair by a reply of no peer", repair(from_no_peer, COUNT(from_no_peer)), 6);
}

/* "The deletion 1.2 reaches a fresh 2 first: row 1 has base 0, bits 2. Then 1.1 arrives: nothing is shown and the row stays." */
static void k12(void) {
    static const bare_block deletion = {4, 1, 0, 0, 0, 1, 7, 0, [8] = 2, [40] = 1, 255, 0, 0, 2, 0, 0, 0, [296] = 1};
    static const bare_block first = {4, 1, 0, 0, 0, 1, 7, 0, [8] = 1, [40] = 1, 1, 0, 0, 1, 0, 0, 0, 'a', [296] = 1};
    static const bare_block image[] = {
        {1, 1, 0, 0, 2, [8] = 3, [20] = 2},
        {2, 1, 1, 0},
        {2, 1, 2, 0, 1, 0, [8] = 1, 0, 7, 0, 2, 0, 0, 0},
        {3, 1, 3, 0, 0, 1, 7, 0, [8] = 2, [40] = 1, 255, 0, 0, 2, 0, 0, 0},
    };
    static const bare_block reading = {7, 1, 0, 0, 0, 0, 7, 0, [8] = 2, [296] = 2};
    fresh_controller(2);
    accepted("take_in of 1.2", take_in(deletion));
    image_is(image, COUNT(image));
    reading_is(reading);
    accepted("take_in of 1.1", take_in(first));
    image_is(image, COUNT(image));
    reading_is(reading);
    accepted("take_in of 1.2 again", take_in(deletion));
    image_is(image, COUNT(image));
    nothing_to_strip();
}

/* "Eight writes with empty context are taken; the ninth is 12." A deletion adds a version, too. One that covers all eight is taken. */
static void eight_writes(void) {
    static const bare_block reading = {
        7, 1, 0, 0, 0, 8, 7, 0, [8] = 8, [40] = 1, 1, 0, 0, 1, 0, 0, 0, 'a', [72] = 1, 1, 0, 0, 2, 0, 0, 0, 'b',
        [104] = 1, 1, 0, 0, 3, 0, 0, 0, 'c', [136] = 1, 1, 0, 0, 4, 0, 0, 0, 'd', [168] = 1, 1, 0, 0, 5, 0, 0, 0, 'e',
        [200] = 1, 1, 0, 0, 6, 0, 0, 0, 'f', [232] = 1, 1, 0, 0, 7, 0, 0, 0, 'g', [264] = 1, 1, 0, 0, 8, 0, 0, 0, 'h', [296] = 1};
    static const bare_block image[] = {
        {1, 1, 0, 0, 1, [8] = 3, [16] = 8},
        {2, 1, 1, 0, 8, 0, [8] = 1, 0, 7, 0, 1, 0, 0, 0, 1, 0, 7, 0, 2, 0, 0, 0, 1, 0, 7, 0, 3, 0, 0, 0, 1, 0, 7, 0, 4, 0, 0, 0,
         1, 0, 7, 0, 5, 0, 0, 0, 1, 0, 7, 0, 6, 0, 0, 0, 1, 0, 7, 0, 7, 0, 0, 0, 1, 0, 7, 0, 8, 0, 0, 0},
        {2, 1, 2, 0},
        {3, 1, 3, 0, 0, 8, 7, 0, [40] = 1, 1, 0, 0, 1, 0, 0, 0, 'a', [72] = 1, 1, 0, 0, 2, 0, 0, 0, 'b',
         [104] = 1, 1, 0, 0, 3, 0, 0, 0, 'c', [136] = 1, 1, 0, 0, 4, 0, 0, 0, 'd', [168] = 1, 1, 0, 0, 5, 0, 0, 0, 'e',
         [200] = 1, 1, 0, 0, 6, 0, 0, 0, 'f', [232] = 1, 1, 0, 0, 7, 0, 0, 0, 'g', [264] = 1, 1, 0, 0, 8, 0, 0, 0, 'h'},
    };
    static const bare_block covering = {4, 1, 0, 0, 0, 1, 7, 0, [8] = 9, [40] = 1, 1, 0, 0, 9, 0, 0, 0, 'i', [296] = 1};
    static const char *const values[8] = {"a", "b", "c", "d", "e", "f", "g", "h"};
    fresh();
    for (int i = 0; i < 8; i++)
        accepted("one of eight writes", write_point(0, 7, values[i]));
    refused("the ninth write", write_point(0, 7, "i"), 12);
    refused("a deletion as the ninth", delete_point(0, 7), 12);
    image_is(image, COUNT(image));
    reading_is(reading);
    give(1, 8);
    accepted("a ninth write with context 1:8", write_point(0, 7, "i"));
    message_is(covering);
}

/* An own list of 60 dots 1.1 to 1.60, of which 1.c is point points[c - 1]'s. */
static void sixty_dots(uint8_t *bare, const uint8_t *points) {
    static const uint8_t front[8] = {2, 1, 1, 0, 60, 0};
    memcpy(bare, front, 8);
    for (int i = 0; i < 60; i++) {
        const uint8_t dot[8] = {1, 0, points[i], 0, (uint8_t)(i + 1), 0, 0, 0};
        memcpy(bare + 8 + 8 * i, dot, 8);
    }
}

static void own_list_is_full(uint16_t point) {
    refused("the sixty-first write", write_point(0, point, "y"), 14);
    refused("a deletion as the sixty-first", delete_point(0, point), 14);
}

/* "Sixty covering writes are taken; the sixty-first is 14." */
static void sixty_writes(void) {
    static bare_block image[] = {
        {1, 1, 0, 0, 1, [8] = 3, [16] = 60},
        {0}, /* the own list, by sixty_dots */
        {2, 1, 2, 0},
        {3, 1, 3, 0, 0, 1, 7, 0, [40] = 1, 1, 0, 0, 60, 0, 0, 0, 'x'},
    };
    static const bare_block message = {4, 1, 0, 0, 0, 1, 7, 0, [8] = 60, [40] = 1, 1, 0, 0, 60, 0, 0, 0, 'x', [296] = 1};
    static const bare_block reading = {7, 1, 0, 0, 0, 1, 7, 0, [8] = 60, [40] = 1, 1, 0, 0, 60, 0, 0, 0, 'x', [296] = 1};
    uint8_t points[60];
    fresh();
    for (int i = 0; i < 60; i++) {
        give(1, (uint32_t)i);
        accepted("one of sixty writes", write_point(0, 7, "x"));
        points[i] = 7;
    }
    message_is(message);
    give(1, 60);
    own_list_is_full(7);
    sixty_dots(image[1], points);
    image_is((const bare_block *)image, COUNT(image));
    reading_is(reading);
}

/* The same with points 60, 59, .. 1, each read before it is written: point p gets 1.(61 - p), and they are stored ascending. */
static void sixty_points(void) {
    /* the own list and the points are put in below */
    static bare_block image[3 + 60] = {{1, 1, 0, 0, 1, [8] = 3, [16] = 60}, {0}, {2, 1, 2, 0}};
    static const bare_block message = {4, 1, 0, 0, 0, 1, 1, 0, [8] = 60, [40] = 1, 1, 0, 0, 60, 0, 0, 0, 'x', [296] = 1};
    uint8_t points[60];
    fresh();
    for (int i = 0; i < 60; i++) {
        uint8_t point = (uint8_t)(60 - i);
        points[i] = point;
        accepted("read", read_point(0, point));
        give_what_was_read();
        number_is("entry 1 of the context of a point without record", lent.context[0], (unsigned long)i);
        accepted("one of sixty writes", write_point(0, point, "x"));
    }
    message_is(message);
    sixty_dots(image[1], points);
    for (int point = 1; point <= 60; point++) {
        uint8_t *stored = image[2 + point];
        const uint8_t front[8] = {3, 1, (uint8_t)(2 + point), 0, 0, 1, (uint8_t)point, 0};
        const uint8_t version[9] = {1, 1, 0, 0, (uint8_t)(61 - point), 0, 0, 0, 'x'};
        memcpy(stored, front, sizeof front);
        memcpy(stored + 40, version, sizeof version);
    }
    image_is((const bare_block *)image, COUNT(image));
    accepted("read", read_point(0, 61));
    give_what_was_read();
    own_list_is_full(61);
}

/* "Counters 1..4,294,967,295"; refusal 15. The image is of a controller whose own base is one below. */
static void last_counter(void) {
    static const bare_block one_below[] = {{1, 1, 0, 0, 1, [8] = 3, [16] = 254, 255, 255, 255}, {2, 1, 1, 0}, {2, 1, 2, 0}};
    static const bare_block message = {
        4, 1, 0, 0, 0, 1, 7, 0, [8] = 255, 255, 255, 255, [40] = 1, 1, 0, 0, 255, 255, 255, 255, 'a', [296] = 1};
    static const bare_block image[] = {
        {1, 1, 0, 0, 1, [8] = 3, [16] = 255, 255, 255, 255},
        {2, 1, 1, 0, 1, 0, [8] = 1, 0, 7, 0, 255, 255, 255, 255},
        {2, 1, 2, 0},
        {3, 1, 3, 0, 0, 1, 7, 0, [40] = 1, 1, 0, 0, 255, 255, 255, 255, 'a'},
    };
    static const bare_block reading = {
        7, 1, 0, 0, 0, 1, 7, 0, [8] = 255, 255, 255, 255, [40] = 1, 1, 0, 0, 255, 255, 255, 255, 'a', [296] = 1};
    lay(one_below, COUNT(one_below));
    accepted("the last write", write_point(0, 7, "a"));
    message_is(message);
    refused("a write after the last", write_point(0, 7, "b"), 15);
    refused("a deletion after the last", delete_point(0, 7), 15);
    image_is(image, COUNT(image));
    reading_is(reading);
}

/* On a point without record every filled entry is at its base, so no record stays of the deletion, but its dot is listed. */
static void deletion_without_record(void) {
    static const bare_block message = {4, 1, 0, 0, 0, 1, 7, 0, [8] = 1, [40] = 1, 255, 0, 0, 1, 0, 0, 0, [296] = 1};
    static const bare_block image[] = {
        {1, 1, 0, 0, 1, [8] = 3, [16] = 1},
        {2, 1, 1, 0, 1, 0, [8] = 1, 0, 7, 0, 1, 0, 0, 0},
        {2, 1, 2, 0},
    };
    static const bare_block reading = {7, 1, 0, 0, 0, 0, 7, 0, [8] = 1, [296] = 1};
    fresh();
    accepted("delete", delete_point(0, 7));
    message_is(message);
    image_is(image, COUNT(image));
    reading_is(reading);
    nothing_to_strip();
}

/* The letters of the value below. */
#define A_TO_X 'A', 'B', 'C', 'D', 'E', 'F', 'G', 'H', 'I', 'J', 'K', 'L', 'M', 'N', 'O', 'P', 'Q', 'R', 'S', 'T', 'U', 'V', 'W', 'X'

/* "Values 0..24 bytes"; "7: value over 24 bytes". */
static void value_lengths(void) {
    static const bare_block longest = {4, 1, 0, 0, 0, 1, 7, 0, [8] = 1, [40] = 1, 24, 0, 0, 1, 0, 0, 0, A_TO_X, [296] = 1};
    static const bare_block empty = {
        4, 1, 0, 0, 0, 2, 7, 0, [8] = 2, [40] = 1, 24, 0, 0, 1, 0, 0, 0, A_TO_X, [72] = 1, 0, 0, 0, 2, 0, 0, 0, [296] = 1};
    static const bare_block image[] = {
        {1, 1, 0, 0, 1, [8] = 3, [16] = 2},
        {2, 1, 1, 0, 2, 0, [8] = 1, 0, 7, 0, 1, 0, 0, 0, 1, 0, 7, 0, 2, 0, 0, 0},
        {2, 1, 2, 0},
        {3, 1, 3, 0, 0, 2, 7, 0, [40] = 1, 24, 0, 0, 1, 0, 0, 0, A_TO_X, [72] = 1, 0, 0, 0, 2, 0, 0, 0},
    };
    static const bare_block reading = {
        7, 1, 0, 0, 0, 2, 7, 0, [8] = 2, [40] = 1, 24, 0, 0, 1, 0, 0, 0, A_TO_X, [72] = 1, 0, 0, 0, 2, 0, 0, 0, [296] = 1};
    fresh();
    accepted("a write of 24 bytes", write_point(0, 7, "ABCDEFGHIJKLMNOPQRSTUVWX"));
    message_is(longest);
    refused("a write of 25 bytes", write_point(0, 7, "ABCDEFGHIJKLMNOPQRSTUVWXY"), 7);
    accepted("a write of no bytes", write_point(0, 7, ""));
    message_is(empty);
    image_is(image, COUNT(image));
    reading_is(reading);
}

/* "8: given context above the present reading's in any entry", here of a point without record: our own entry, another holder's, and those
 * of controllers that hold nothing. */
static void contexts_ahead(void) {
    static const int controllers[4] = {1, 2, 3, 8};
    fresh();
    for (int i = 0; i < 4; i++) {
        give(controllers[i], 1);
        refused("write", write_point(0, 7, "a"), 8);
        refused("delete", delete_point(0, 7), 8);
    }
}

/* The calls that are told this length, with one too few and one too many. */
static void one_off(size_t *length, int in_start, int in_read, int in_write, int in_strip_pass) {
    size_t due = *length;
    for (int longer = 0; longer < 2; longer++) {
        *length = longer ? due + 1 : due - 1;
        if (in_start)
            refused("start", start(1), 1);
        if (in_read)
            refused("read", read_point(0, 7), 1);
        if (in_write) {
            refused("write", write_point(0, 7, "c"), 1);
            refused("delete", delete_point(0, 7), 1);
        }
        if (in_strip_pass) {
            refused("strip_pass", strip_pass(), 1);
            number_is("the count of a refused strip_pass", gone, 0);
        }
    }
    *length = due;
}

/* "1: a lent buffer has the wrong length". */
static void wrong_lengths(void) {
    two_writes();
    one_off(&told.image, 1, 1, 1, 1);
    one_off(&told.table, 1, 0, 0, 0);
    one_off(&told.out, 0, 1, 1, 0);
    one_off(&told.context, 0, 0, 1, 0);
    image_is(two_writes_image, COUNT(two_writes_image));
}

static void damaged_at(size_t at) {
    lent.image[at] ^= 4;
    number_is("good", sqimrutta_good(lent.image, IMAGE), 0);
    refused("read", read_point(0, 7), 2);
    refused("write", write_point(0, 7, "c"), 2);
    refused("delete", delete_point(0, 7), 2);
    refused("strip_pass", strip_pass(), 2);
    number_is("the count of a refused strip_pass", gone, 0);
    lent.image[at] ^= 4;
}

/* "2: image not good". Each byte of the four blocks that are not of zeros, and one in each block that is. */
static void damaged_images(void) {
    two_writes();
    for (size_t at = 0; at < 4 * BLOCK; at++)
        damaged_at(at);
    for (size_t at = 5 * BLOCK - 1; at < IMAGE; at += BLOCK)
        damaged_at(at);
    image_is(two_writes_image, COUNT(two_writes_image));
}

static void out_of_range(uint8_t job, uint16_t point) {
    refused("read", read_point(job, point), 5);
    refused("write", write_point(job, point, "a"), 5);
    refused("delete", delete_point(job, point), 5);
}

/* "5: an argument outside its range; a job not held here". Job 1 is held by controller 2 alone, job 2 by none. */
static void ranges(void) {
    fresh();
    refused("start of 0", start(0), 5);
    refused("start of 9", start(9), 5);
    lent.table[1] = 2;
    accepted("start", start(1));
    out_of_range(8, 7);
    out_of_range(255, 7);
    out_of_range(0, 0);
    out_of_range(1, 7);
    out_of_range(2, 7);
    accepted("a write of the last point", write_point(0, 65535, "a"));
}

/* A deletion that covers nothing stands beside the value, and is not shown; a strip pass leaves it. One that covers both leaves no
 * record. */
static void strip_after_deletions(void) {
    static const bare_block first = {
        4, 1, 0, 0, 0, 2, 7, 0, [8] = 2, [40] = 1, 1, 0, 0, 1, 0, 0, 0, 'a', [72] = 1, 255, 0, 0, 2, 0, 0, 0, [296] = 1};
    static const bare_block second = {4, 1, 0, 0, 0, 1, 7, 0, [8] = 3, [40] = 1, 255, 0, 0, 3, 0, 0, 0, [296] = 1};
    static const bare_block beside[] = {
        {1, 1, 0, 0, 1, [8] = 3, [16] = 2},
        {2, 1, 1, 0, 2, 0, [8] = 1, 0, 7, 0, 1, 0, 0, 0, 1, 0, 7, 0, 2, 0, 0, 0},
        {2, 1, 2, 0},
        {3, 1, 3, 0, 0, 2, 7, 0, [40] = 1, 1, 0, 0, 1, 0, 0, 0, 'a', [72] = 1, 255, 0, 0, 2, 0, 0, 0},
    };
    static const bare_block reading = {7, 1, 0, 0, 0, 1, 7, 0, [8] = 2, [40] = 1, 1, 0, 0, 1, 0, 0, 0, 'a', [296] = 1};
    static const bare_block deleted[] = {
        {1, 1, 0, 0, 1, [8] = 3, [16] = 3},
        {2, 1, 1, 0, 3, 0, [8] = 1, 0, 7, 0, 1, 0, 0, 0, 1, 0, 7, 0, 2, 0, 0, 0, 1, 0, 7, 0, 3, 0, 0, 0},
        {2, 1, 2, 0},
    };
    fresh();
    accepted("write", write_point(0, 7, "a"));
    accepted("a deletion that covers nothing", delete_point(0, 7));
    message_is(first);
    image_is(beside, COUNT(beside));
    reading_is(reading);
    nothing_to_strip();
    give(1, 2);
    accepted("a deletion that covers all", delete_point(0, 7));
    message_is(second);
    image_is(deleted, COUNT(deleted));
    nothing_to_strip();
}

/* "Strip pass: every stored point is stripped." Own writes leave nothing for it, so these records are laid out by hand, with contexts
 * that no step has stripped: point 5 without a version goes, point 7 moves up, and its reading is the same before and after. */
static void strip_frees_a_record(void) {
    static const bare_block unstripped[] = {
        {1, 1, 0, 0, 1, [8] = 3, [16] = 2},
        {2, 1, 1, 0},
        {2, 1, 2, 0},
        {3, 1, 3, 0, 0, 0, 5, 0, [8] = 1},
        {3, 1, 4, 0, 0, 1, 7, 0, [8] = 2, [40] = 1, 1, 0, 0, 2, 0, 0, 0, 'b'},
    };
    static const bare_block stripped[] = {
        {1, 1, 0, 0, 1, [8] = 3, [16] = 2},
        {2, 1, 1, 0},
        {2, 1, 2, 0},
        {3, 1, 3, 0, 0, 1, 7, 0, [40] = 1, 1, 0, 0, 2, 0, 0, 0, 'b'},
    };
    static const bare_block reading = {7, 1, 0, 0, 0, 1, 7, 0, [8] = 2, [40] = 1, 1, 0, 0, 2, 0, 0, 0, 'b', [296] = 1};
    lay(unstripped, COUNT(unstripped));
    reading_is(reading);
    accepted("strip_pass", strip_pass());
    number_is("the count of strip_pass", gone, 1);
    image_is(stripped, COUNT(stripped));
    reading_is(reading);
}

int main(void) {
    static const struct {
        const char *name;
        void (*run)(void);
    } examples[] = {
        {"K1", k1},
        {"a fresh image", fresh_image},
        {"K2", k2},
        {"K3", k3},
        {"K4", k4},
        {"K5", k5},
        {"K6", k6},
        {"K7", k7},
        {"K8", k8},
        {"K9", k9},
        {"K10", k10},
        {"K11", k11},
        {"K12", k12},
        {"replies of others", replies_of_others},
        {"eight writes and the ninth", eight_writes},
        {"sixty writes and the sixty-first", sixty_writes},
        {"sixty points and the sixty-first", sixty_points},
        {"the last counter", last_counter},
        {"a deletion of a point without record", deletion_without_record},
        {"values of 0, 24 and 25 bytes", value_lengths},
        {"contexts above the reading", contexts_ahead},
        {"lengths one off", wrong_lengths},
        {"damaged images", damaged_images},
        {"jobs, points and numbers out of range", ranges},
        {"a strip pass after deletions", strip_after_deletions},
        {"a strip pass that frees a record", strip_frees_a_record},
    };
    for (size_t i = 0; i < COUNT(examples); i++) {
        example = examples[i].name;
        examples[i].run();
        printf("%s ok\n", example);
    }
    return 0;
}

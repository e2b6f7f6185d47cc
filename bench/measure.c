/* Calls sqimrutta_good on three images, each in a function of its own, so that callgrind counts them apart, and beside them the
 * bare check sums. bench/run builds and runs it.
 *
 * Standard input: the first three images of `second images` (a fresh one, a full one with one version a point, a full one
 * with eight). */

#include "../include/sqimrutta.h"
#include "../second/stream.h"

/* checks.c, built twice */
uint32_t bare_checks(const uint8_t *image);
uint32_t bare_checks_unrolled(const uint8_t *image);

enum { IMAGE = SQIMRUTTA_IMAGE, IMAGES = 3 };

static uint8_t fresh[IMAGE], one[IMAGE], eight[IMAGE];

#define APART __attribute__((noinline))

APART uint32_t good_fresh(void) { return sqimrutta_good(fresh, IMAGE); }
APART uint32_t good_one(void) { return sqimrutta_good(one, IMAGE); }
APART uint32_t good_eight(void) { return sqimrutta_good(eight, IMAGE); }

/* The first goes to fresh, the second to one, the third to eight. */
static void keep(const uint8_t *head) {
    static uint8_t *const to[IMAGES] = {fresh, one, eight};
    if (answered > IMAGES)
        broken("the number of calls and questions");
    if (head[2] >= SLOTS || lengths[head[2]] != IMAGE)
        broken("an image of another length");
    memcpy(to[answered - 1], slots[head[2]], IMAGE);
}

int main(void) {
    each_record(10, 10, keep);
    if (answered < IMAGES)
        broken("the number of calls and questions");
    printf("good: fresh %u, one version %u, eight versions %u; right checks: %u %u\n", good_fresh(), good_one(),
           good_eight(), bare_checks(one), bare_checks_unrolled(one));
    return 0;
}

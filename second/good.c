/* Reads a stream of images (CASES.md: the record `good`) from standard input, asks the library's sqimrutta_good of each, and
 * compares with the recorded verdict. It prints how many images there were, good and not good, of each kind.
 *
 *     cc -O2 -o good-c good.c -L FOLDER -l sqimrutta
 *     second images --seed 1 --count 300000 | ./good-c
 *
 * Exit: 0 no difference, 1 a difference, 2 not a whole stream. */

#include "../include/sqimrutta.h"
#include "stream.h"

enum { KINDS = 512, NAME = 80 };

/* What the labels say, in the order in which they come. */
static struct {
    char name[NAME];
    uint64_t times[2];
} kinds[KINDS];
static size_t known;
static uint64_t total[2];

static void count(uint32_t good) {
    size_t kind = 0, length = strlen(label);
    while (kind < known && strcmp(kinds[kind].name, label) != 0)
        kind++;
    if (kind == KINDS || length >= NAME)
        broken("too many kinds, or too long a label");
    if (kind == known) {
        memcpy(kinds[kind].name, label, length + 1);
        known++;
    }
    kinds[kind].times[good]++;
    total[good]++;
}

static void question(const uint8_t *head) {
    uint8_t recorded = head[1], slot = head[2];
    if (slot >= SLOTS || recorded > 1)
        broken("a slot or verdict out of range");
    /* A buffer of exactly that length, so that a read past its end is one that valgrind and sanitizers see. */
    uint8_t *image = malloc(lengths[slot] > 0 ? lengths[slot] : 1);
    if (image == NULL)
        broken("no memory");
    memcpy(image, slots[slot], lengths[slot]);
    uint32_t good = sqimrutta_good(image, lengths[slot]);
    int kept = memcmp(image, slots[slot], lengths[slot]) == 0;
    free(image);
    if (good != recorded || !kept) {
        printf("image %llu (%s, %zu bytes): good is %u, recorded is %u%s\n", (unsigned long long)answered, label,
               lengths[slot], good, recorded, kept ? "" : "; and the image was changed");
        exit(1);
    }
    count(good);
}

static void report(void) {
    for (size_t kind = 0; kind < known; kind++)
        printf("%-64s good %8llu not good %8llu\n", kinds[kind].name, (unsigned long long)kinds[kind].times[1],
               (unsigned long long)kinds[kind].times[0]);
    printf("%llu images, %llu good, %llu not good, no difference\n", (unsigned long long)answered,
           (unsigned long long)total[1], (unsigned long long)total[0]);
}

int main(void) {
    each_record(10, 10, question);
    report();
    return 0;
}

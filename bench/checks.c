/* The bare check sums of an image, as plainly as C can. bench/run builds this twice: as the compiler takes it (NAME=bare_checks),
 * and with unrolled loops, which is the cheaper (NAME=bare_checks_unrolled). */

#include <stdint.h>
#include <string.h>

enum { BLOCK = 512, WORDS = 254, IMAGE = 67 * BLOCK };

uint32_t NAME(const uint8_t *image);

/* The checks of all 67 blocks, the remainders taken once for each block; how many of them are as they stand there. */
uint32_t NAME(const uint8_t *image) {
    uint32_t right = 0;
    for (const uint8_t *block = image; block < image + IMAGE; block += BLOCK) {
        uint32_t s1 = 0, s2 = 0;
        for (int i = 0; i < WORDS; i++) {
            uint16_t word;
            memcpy(&word, block + 2 * i, 2);
            s1 += word;
            s2 += s1;
        }
        uint16_t stored[2];
        memcpy(stored, block + 2 * WORDS, 4);
        right += s1 % 65535 == stored[0] && s2 % 65535 == stored[1];
    }
    return right;
}

#include <stdio.h>
#include "pot.h"

int main(void)
{
    // n, p, a, b, capacity: p is a prime, and a and b were drawn once for all handhelds
    const uint32_t settings[POT_SETTINGS] = {1000000, 15485863, 9245170, 3021377, 504};
    // what the first handheld queued while its link was down
    const struct pot_stretch queued[] = {{12, 480}, {2001, 2020}};
    uint32_t one[POT_SKETCH], two[POT_SKETCH], back[POT_SKETCH];
    uint8_t image[POT_IMAGE];

    if (pot_open(settings, one) || pot_add_row(one, queued, 2).number != POT_DONE)
        return 1;
    struct pot_estimated seen = pot_estimate(one);
    printf("one handheld saw %s%.0f cells\n", seen.exact ? "" : "about ", seen.value);
    if (pot_open(settings, two) || pot_add(two, 300, 70000) || pot_merge(one, two))
        return 1;
    seen = pot_estimate(one);
    printf("both saw %s%.0f cells\n", seen.exact ? "" : "about ", seen.value);

    struct pot_written written = pot_write(one, image, sizeof image);
    if (written.number != POT_DONE || pot_read(image, written.length, back).number != POT_DONE)
        return 1;
    printf("read back: level %u, %u cells\n", back[POT_SKETCH_LEVEL], back[POT_SKETCH_COUNT]);
    image[600] ^= 1;
    struct pot_taken damaged = pot_read(image, written.length, back);
    printf("damaged: refusal %u, block %u\n", damaged.number, damaged.block);
    return 0;
}

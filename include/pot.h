/* Sketches of sets of cells: the calls of libhost.a. An evening of two handhelds, examples/evening.c:
 *
 *     #include <stdio.h>
 *     #include "pot.h"
 *
 *     int main(void)
 *     {
 *         // n, p, a, b, capacity: p is a prime, and a and b were drawn once for all handhelds
 *         const uint32_t settings[POT_SETTINGS] = {1000000, 15485863, 9245170, 3021377, 504};
 *         // what the first handheld queued while its link was down
 *         const struct pot_stretch queued[] = {{12, 480}, {2001, 2020}};
 *         uint32_t one[POT_SKETCH], two[POT_SKETCH], back[POT_SKETCH];
 *         uint8_t image[POT_IMAGE];
 *
 *         if (pot_open(settings, one) || pot_add_row(one, queued, 2).number != POT_DONE)
 *             return 1;
 *         struct pot_estimated seen = pot_estimate(one);
 *         printf("one handheld saw %s%.0f cells\n", seen.exact ? "" : "about ", seen.value);
 *         if (pot_open(settings, two) || pot_add(two, 300, 70000) || pot_merge(one, two))
 *             return 1;
 *         seen = pot_estimate(one);
 *         printf("both saw %s%.0f cells\n", seen.exact ? "" : "about ", seen.value);
 *
 *         struct pot_written written = pot_write(one, image, sizeof image);
 *         if (written.number != POT_DONE || pot_read(image, written.length, back).number != POT_DONE)
 *             return 1;
 *         printf("read back: level %u, %u cells\n", back[POT_SKETCH_LEVEL], back[POT_SKETCH_COUNT]);
 *         image[600] ^= 1;
 *         struct pot_taken damaged = pot_read(image, written.length, back);
 *         printf("damaged: refusal %u, block %u\n", damaged.number, damaged.block);
 *         return 0;
 *     }
 *
 * `sh tests/staticlib.sh` writes the library, which needs nothing but memcpy and memset. To link:
 *
 *     cc -std=c11 -Iinclude examples/evening.c target/staticlib/libhost.a -o evening
 *
 * What crosses. Only numbers and lent memory. Settings, sketches and walkers are rows of uint32_t that
 * the caller keeps, copies and compares as it likes; there is nothing to free, and no call keeps a pointer.
 *
 *     settings    n, p, a, b, capacity
 *     sketch      n, p, a, b, capacity, level, number of cells, then 504 places: the cells kept,
 *                 rising, with zeros after them
 *     walker      n, p, a, b, capacity, level, position, hi
 *
 * A stretch of cells is its first and its last, lo and hi; pot_add_row is lent a row of them.
 *
 * Every call answers, whatever numbers and bytes are lent: a row that was never opened, or was tampered
 * with, is refused. A call's number is POT_DONE where it is answered, and otherwise a refusal below. Calls
 * with values return a struct with the number first; its values are 0 with a refusal, but for the block
 * that POT_BAD_CHECK names and the place in a row of stretches that POT_BAD_RANGE names. A refused call
 * changes no lent memory at all, but for the row that opening or reading hands back, which is then all
 * zeros.
 *
 * The caller sees to the memory: no pointer is NULL, not even to an empty row; each points to as many
 * numbers, bytes or stretches as the declaration or the length or count beside it says; and what one call
 * writes overlaps nothing else lent to the same call. To merge a sketch with itself, lend a copy. Calls on
 * different memory may run on different threads at once.
 *
 * Choosing the settings. n is the number of the last cell, and capacity how many cells a sketch keeps at
 * most: the more, the closer the estimate. p, a and b choose the sample. Take a prime p from 10n to 20n,
 * draw a from 1 to p-1 and b from 0 to p-1 at random, and give all handhelds the same five numbers: only
 * sketches with equal settings merge. No call asks for a prime or for chance, but without them an estimate
 * above level 0 misleads: with a = 1, say, the cells of a short stretch pass all together or not at all.
 *
 * Two engines. pot_count, pot_next_hit and pot_add don't walk over the cells. pot_plain_count,
 * pot_plain_next_hit and pot_plain_add test each one, as with a pencil: they are for small kitchens, to be
 * read (crates/plain) and to compare with. Up to n = POT_PLAIN_LIMIT both engines answer the same and leave
 * the same sketch, on every input; above it the plain one refuses.
 *
 * What a call costs. No heap, no memory of its own, no system call. POT_STACK bytes of stack do for every
 * call; measured on x86-64 (tests/stack.c), pot_merge uses under 5,000, pot_add, pot_add_row, however long the
 * row, and pot_plain_add under 3,600, and every other call under 1,024. The library is under 22,000 bytes of
 * code and constants.
 */
#ifndef POT_H
#define POT_H

#include <stddef.h>
#include <stdint.h>

#ifdef __cplusplus
extern "C" {
#endif

/* The lengths of the rows; how many cells a sketch has places for; the bytes of the largest image; the
 * bytes of stack that do for every call; and the largest n of the plain engine. */
#define POT_SETTINGS 5
#define POT_SKETCH 511
#define POT_WALKER 8
#define POT_PLACES 504
#define POT_IMAGE 2560
#define POT_STACK 6144
#define POT_PLAIN_LIMIT 4096

/* The places of the settings, which stand first in every row. */
#define POT_N 0
#define POT_P 1
#define POT_A 2
#define POT_B 3
#define POT_CAPACITY 4

/* The other places of a sketch. */
#define POT_SKETCH_LEVEL 5
#define POT_SKETCH_COUNT 6 /* the number of cells */
#define POT_SKETCH_CELLS 7 /* the first of POT_PLACES places */

/* The other places of a walker. */
#define POT_WALKER_LEVEL 5
#define POT_WALKER_POSITION 6
#define POT_WALKER_HI 7

/* The number of a call that is answered. */
#define POT_DONE 0

/* The numbers of the refusals. */
#define POT_BAD_SETTINGS 1 /* a setting outside its rule, or n above POT_PLAIN_LIMIT in a plain call */
#define POT_BAD_RANGE 2    /* lo or from below 1, hi or from above n, or lo above hi */
#define POT_BAD_LEVEL 3    /* a level above the top */
#define POT_NOT_ONE 4      /* not a sketch, or not a walker */
#define POT_UNEQUAL 5      /* two sketches with a setting unequal */
#define POT_NO_ROOM 6      /* room shorter than the image */
#define POT_BAD_CHECK 7    /* a block's check is wrong */
#define POT_BAD_IMAGE 8    /* any other fault of an image */

struct pot_stretch {
    uint32_t lo, hi;
};

struct pot_placed {
    uint32_t number;
    size_t place; /* with POT_BAD_RANGE: the first bad stretch of the row, counted from 0 */
};

struct pot_told {
    uint32_t number;
    uint32_t value; /* how many; or the cell found: no cell is 0, so 0 where there is none */
};

struct pot_found {
    uint32_t number;
    uint32_t cell; /* no cell is 0: 0 where there is none */
};

struct pot_estimated {
    uint32_t number;
    uint32_t exact; /* 1 where the value is exact, 0 where it is an estimate */
    double value;   /* a whole number where it is exact; an estimate may have a fraction */
};

struct pot_written {
    uint32_t number;
    size_t length;
};

struct pot_taken {
    uint32_t number;
    uint32_t block; /* with POT_BAD_CHECK: the first block, counted from 0, whose check is wrong */
};

/* Opens a sketch with no cells. n is 1 to 200000000, p is 10n to 20n, a is 1 to p-1 and has no
 * divisor in common with p but 1, b is 0 to p-1, capacity is 1 to POT_PLACES.
 * Refused: POT_BAD_SETTINGS, and the sketch is all zeros. */
uint32_t pot_open(const uint32_t settings[POT_SETTINGS], uint32_t sketch[POT_SKETCH]);

/* Adds the cells lo, lo+1, .., hi, where 1 <= lo <= hi <= n. Where they do not fit the capacity the
 * level rises as far as it must.
 * Refused: POT_NOT_ONE, POT_BAD_RANGE, in this order, and the sketch is unchanged. */
uint32_t pot_add(uint32_t sketch[POT_SKETCH], uint32_t lo, uint32_t hi);

/* Adds a row of stretches: the sketch becomes what pot_add of one after the other, in their order, would
 * make of it, but is tested once. An empty row adds nothing.
 * Refused: POT_NOT_ONE, POT_BAD_RANGE for the first bad stretch, in this order, and the sketch is
 * unchanged: nothing of the row is added. */
struct pot_placed pot_add_row(uint32_t sketch[POT_SKETCH], const struct pot_stretch *row, size_t count);

/* Adds what the other sketch stands for. All five settings must be equal.
 * Refused: POT_NOT_ONE for either, POT_UNEQUAL, in this order, and the sketch is unchanged. */
uint32_t pot_merge(uint32_t sketch[POT_SKETCH], const uint32_t other[POT_SKETCH]);

/* How many cells the sketch stands for. At level 0 that is exact: the number of cells kept. Above it, it is
 * an estimate: the number of cells kept times p, divided by the size of the level's region, which is
 * p / 2^level rounded down. The value is one division of two doubles that hold these whole numbers with
 * nothing lost, rounded to the nearest double: so it is off by at most one part in 2^53. Its whole part is
 * the true quotient's, and is what potcount prints. At the top each cell kept stands for p; without cells it
 * is 0.
 * Refused: POT_NOT_ONE. */
struct pot_estimated pot_estimate(const uint32_t sketch[POT_SKETCH]);

/* How many of the cells lo, lo+1, .., hi pass at the level. No sketch is needed.
 * Refused: POT_BAD_SETTINGS, POT_BAD_LEVEL, POT_BAD_RANGE, in this order. */
struct pot_told pot_count(const uint32_t settings[POT_SETTINGS], uint32_t level, uint32_t lo, uint32_t hi);

/* The least cell from `from` up to n that passes at the level, or 0.
 * Refused: POT_BAD_SETTINGS, POT_BAD_LEVEL, POT_BAD_RANGE, in this order. */
struct pot_told pot_next_hit(const uint32_t settings[POT_SETTINGS], uint32_t level, uint32_t from);

/* Opens a walker over the cells of lo, lo+1, .., hi that pass at the level.
 * Refused: POT_BAD_SETTINGS, POT_BAD_LEVEL, POT_BAD_RANGE, in this order, and the walker is all zeros. */
uint32_t pot_walker_open(const uint32_t settings[POT_SETTINGS], uint32_t level, uint32_t lo, uint32_t hi,
                         uint32_t walker[POT_WALKER]);

/* The walker's next cell, rising, and the walker moved past it; 0 once there is none, and from then
 * on for ever, with the walker unchanged.
 * Refused: POT_NOT_ONE, and the walker is unchanged. */
struct pot_found pot_walker_next(uint32_t walker[POT_WALKER]);

/* Writes the sketch's image at the start of the room, 512 bytes and 512 more for every 126 cells or
 * part of them: POT_IMAGE bytes always do. What follows it in the room is untouched.
 * Refused: POT_NOT_ONE, POT_NO_ROOM, in this order, and the whole room is untouched. */
struct pot_written pot_write(const uint32_t sketch[POT_SKETCH], uint8_t *room, size_t room_length);

/* Reads an image of just this length.
 * Refused: POT_BAD_IMAGE for the length, POT_BAD_CHECK, POT_BAD_IMAGE for the first four bytes,
 * POT_BAD_SETTINGS, POT_BAD_IMAGE for all else, in this order, and the sketch is all zeros. */
struct pot_taken pot_read(const uint8_t *bytes, size_t length, uint32_t sketch[POT_SKETCH]);

/* pot_count by the plain engine, for n up to POT_PLAIN_LIMIT.
 * Refused: POT_BAD_SETTINGS, also for n above the limit, POT_BAD_LEVEL, POT_BAD_RANGE, in this order. */
struct pot_told pot_plain_count(const uint32_t settings[POT_SETTINGS], uint32_t level, uint32_t lo,
                                uint32_t hi);

/* pot_next_hit by the plain engine, for n up to POT_PLAIN_LIMIT.
 * Refused: POT_BAD_SETTINGS, also for n above the limit, POT_BAD_LEVEL, POT_BAD_RANGE, in this order. */
struct pot_told pot_plain_next_hit(const uint32_t settings[POT_SETTINGS], uint32_t level, uint32_t from);

/* pot_add by the plain engine, for n up to POT_PLAIN_LIMIT.
 * Refused: POT_NOT_ONE, POT_BAD_SETTINGS for n above the limit, POT_BAD_RANGE, in this order, and the sketch
 * is unchanged. */
uint32_t pot_plain_add(uint32_t sketch[POT_SKETCH], uint32_t lo, uint32_t hi);

#ifdef __cplusplus
}
#endif

#endif

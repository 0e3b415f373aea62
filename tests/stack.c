// How much stack each call uses: the call runs many times on a painted stack, and the paint that is gone
// is what it used at most. Fails where that is more than include/pot.h says.
#define _XOPEN_SOURCE 700
#include <stdio.h>
#include <string.h>
#include <ucontext.h>
#include "pot.h"

#define BYTES 65536
#define PAINT 0xA5
#define ROUNDS 20000
#define LONGEST 1000

static _Alignas(16) unsigned char painted[BYTES];
static ucontext_t home, there;
static uint32_t settings[POT_SETTINGS], one[POT_SKETCH], two[POT_SKETCH], walker[POT_WALKER];
static struct pot_stretch row[LONGEST];
static size_t count;
static uint8_t image[POT_IMAGE];
static size_t length;
static uint32_t level, lo, hi;

static uint32_t draw(uint32_t below)
{
    static uint64_t state = 1;
    state = state * 6364136223846793005u + 1442695040888963407u;
    return (uint32_t)((state >> 32) * below >> 32);
}

// Settings of the largest kitchen, or one time in ten of the plain engine's largest; a/p is near a ratio of
// Fibonacci numbers, the deepest folds, half the time.
static void draw_settings(void)
{
    int small = draw(10) == 0;
    uint32_t p = small ? 65537 : 3999999979u, deep = small ? 40503 : 2472135942u;
    settings[POT_N] = small ? POT_PLAIN_LIMIT : 200000000;
    settings[POT_P] = p;
    settings[POT_A] = draw(2) ? 1 + draw(p - 1) : deep + draw(1000);
    settings[POT_B] = draw(p);
    settings[POT_CAPACITY] = draw(2) ? POT_PLACES : 1 + draw(POT_PLACES);
    level = draw(small ? 17 : 32);
    lo = 1 + draw(settings[POT_N]);
    hi = lo + draw(settings[POT_N] - lo + 1);
}

// A stretch of a few cells, or of any length.
static struct pot_stretch draw_stretch(void)
{
    uint32_t from = 1 + draw(settings[POT_N]), longest = draw(2) ? 600 : settings[POT_N];
    uint32_t rest = settings[POT_N] - from + 1;
    return (struct pot_stretch){from, from + draw(rest < longest ? rest : longest)};
}

// A short row, or one time in a hundred the longest.
static void draw_row(void)
{
    count = draw(100) ? draw(8) : LONGEST;
    for (size_t place = 0; place < count; place++)
        row[place] = draw_stretch();
}

static void nothing(void) {}
static void open_it(void) { pot_open(settings, one); }
static void add_it(void) { pot_add(one, lo, hi); }
static void add_row(void) { pot_add_row(one, row, count); }
static void merge_them(void) { pot_merge(one, two); }
static void estimate_it(void) { pot_estimate(one); }
static void count_them(void) { pot_count(settings, level, lo, hi); }
static void find_it(void) { pot_next_hit(settings, level, lo); }
static void open_walker(void) { pot_walker_open(settings, level, lo, hi, walker); }
static void step(void) { pot_walker_next(walker); }
static void write_it(void) { length = pot_write(one, image, sizeof image).length; }
static void read_it(void) { pot_read(image, length, one); }
static void count_plainly(void) { pot_plain_count(settings, level, lo, hi); }
static void find_plainly(void) { pot_plain_next_hit(settings, level, lo); }
static void add_plainly(void) { pot_plain_add(one, lo, hi); }

static const struct {
    const char *name;
    void (*call)(void);
    size_t most;
} calls[] = {
    {"pot_open", open_it, 1024},
    {"pot_add", add_it, 3600},
    {"pot_add_row", add_row, 3600},
    {"pot_merge", merge_them, 5000},
    {"pot_estimate", estimate_it, 1024},
    {"pot_count", count_them, 1024},
    {"pot_next_hit", find_it, 1024},
    {"pot_walker_open", open_walker, 1024},
    {"pot_walker_next", step, 1024},
    {"pot_write", write_it, 1024},
    {"pot_read", read_it, 1024},
    {"pot_plain_count", count_plainly, 1024},
    {"pot_plain_next_hit", find_plainly, 1024},
    {"pot_plain_add", add_plainly, 3600},
};

// Sketches at levels low and high, full and half full, and what the other calls need.
static void prepare(void)
{
    draw_settings();
    pot_open(settings, one);
    pot_open(settings, two);
    for (uint32_t adds = draw(3); adds > 0; adds--) {
        struct pot_stretch some = draw_stretch();
        pot_add(draw(2) ? one : two, some.lo, some.hi);
    }
    draw_row();
    pot_walker_open(settings, level, lo, hi, walker);
    length = pot_write(one, image, sizeof image).length;
}

static void run(void (*call)(void))
{
    getcontext(&there);
    there.uc_stack.ss_sp = painted;
    there.uc_stack.ss_size = sizeof painted;
    there.uc_link = &home;
    makecontext(&there, call, 0);
    swapcontext(&home, &there);
}

static size_t used(void (*call)(void))
{
    prepare();
    call();
    memset(painted, PAINT, sizeof painted);
    for (int round = 0; round < ROUNDS; round++) {
        prepare();
        run(call);
    }
    size_t left = 0;
    while (left < sizeof painted && painted[left] == PAINT)
        left++;
    return sizeof painted - left;
}

int main(void)
{
    int bad = 0;
    size_t none = used(nothing);
    for (size_t i = 0; i < sizeof calls / sizeof calls[0]; i++) {
        size_t bytes = used(calls[i].call) - none;
        printf("%-18s %5zu bytes of stack\n", calls[i].name, bytes);
        bad |= bytes >= calls[i].most || bytes > POT_STACK;
    }
    return bad;
}

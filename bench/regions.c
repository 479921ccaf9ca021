/* What operations of pixman's regions cost, for bench/regions.sh: the same sets and calls as there. */
#include <pixman.h>
#include <stdint.h>
#include <stdio.h>
#include <time.h>

static uint64_t now(void)
{
    struct timespec t;
    clock_gettime(CLOCK_MONOTONIC, &t);
    return (uint64_t)t.tv_sec * 1000000000u + (uint64_t)t.tv_nsec;
}

static uint64_t next(uint64_t state)
{
    return state * 6364136223846793005u + 1442695040888963407u;
}

static void scattered(pixman_region32_t *region, uint64_t seed, uint64_t grid, int count, int w, int h)
{
    uint64_t state = seed, places = 2000 / grid;
    pixman_region32_init(region);
    for (int k = 0; k < count; k++) {
        state = next(state);
        int x = (int)((state >> 33) % places * grid);
        state = next(state);
        int y = (int)((state >> 33) % places * grid);
        pixman_region32_union_rect(region, region, x, y, (unsigned)w, (unsigned)h);
    }
}

static void keep_least(uint64_t *least, uint64_t time)
{
    if (time < *least) *least = time;
}

static void sets(const char *name, uint64_t grid, int count, int w, int h, int rounds)
{
    pixman_region32_t r, b, m;
    uint64_t both = UINT64_MAX, difference = UINT64_MAX, part = UINT64_MAX;
    scattered(&r, 1, grid, count, w, h);
    scattered(&b, 2, grid, count, w, h);
    for (int k = 0; k < rounds; k++) {
        uint64_t start = now();
        pixman_region32_union(&r, &r, &b);
        keep_least(&both, now() - start);
        start = now();
        pixman_region32_subtract(&r, &r, &b);
        keep_least(&difference, now() - start);
    }
    pixman_region32_init(&m);
    for (int k = 0; k < rounds; k++) {
        pixman_region32_union(&m, &m, &r);
        uint64_t start = now();
        pixman_region32_intersect_rect(&m, &m, 500, 500, 1000, 1000);
        keep_least(&part, now() - start);
    }
    printf("%s_union %lu\n%s_difference %lu\n%s_part %lu\n", name, both, name, difference, name, part);
}

static void adds(const char *name, int count, int at, int rounds)
{
    pixman_region32_t r, one;
    uint64_t add = UINT64_MAX;
    scattered(&r, 1, 16, count, 16, 16);
    pixman_region32_init_rect(&one, at, at, 16, 16);
    for (int k = 0; k < rounds; k++) {
        uint64_t start = now();
        for (int i = 0; i < 100; i++) {
            pixman_region32_union_rect(&r, &r, at, at, 16, 16);
            pixman_region32_subtract(&r, &r, &one);
        }
        keep_least(&add, now() - start);
    }
    printf("%s %lu\n", name, add);
}

static void rows(const char *name, int count, int rounds)
{
    pixman_region32_t r;
    uint64_t add = UINT64_MAX;
    pixman_region32_init(&r);
    for (int k = 0; k < rounds; k++) {
        uint64_t start = now();
        for (int i = 0; i < count; i++)
            pixman_region32_union_rect(&r, &r, i % 21 * 3, i * 8, 16, 6);
        keep_least(&add, now() - start);
        pixman_region32_clear(&r);
    }
    printf("%s %lu\n", name, add);
}

int main(void)
{
    sets("scattered_10", 1, 10, 16, 16, 2000);
    sets("scattered_100", 1, 100, 16, 16, 1000);
    sets("scattered_1000", 1, 1000, 16, 16, 100);
    sets("cells_100", 16, 100, 16, 16, 1000);
    sets("cells_1000", 16, 1000, 16, 16, 200);
    sets("large_10", 1, 10, 200, 150, 2000);
    adds("add_to_0", 0, 320, 100);
    adds("add_to_1", 1, 320, 100);
    adds("add_to_4", 4, 320, 100);
    adds("add_to_16", 16, 320, 100);
    adds("add_to_100", 100, 320, 100);
    adds("add_to_1000", 1000, 320, 20);
    adds("add_below_1000", 1000, 2100, 20);
    rows("add_4_downwards", 4, 100);
    rows("add_100_downwards", 100, 100);
    rows("add_1000_downwards", 1000, 10);
    return 0;
}

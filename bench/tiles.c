/* What drawing on a tile costs by hand, for bench/tiles.sh: one colour on all rows of a tile of 64 by 64 pixels, from one
   column on. Each case prints its name, the least time in nanoseconds, and how many pixels there are. */
#include <emmintrin.h>
#include <stdint.h>
#include <stdio.h>
#include <time.h>

static uint64_t now(void)
{
    struct timespec t;
    clock_gettime(CLOCK_MONOTONIC, &t);
    return (uint64_t)t.tv_sec * 1000000000u + (uint64_t)t.tv_nsec;
}

static uint32_t over(uint32_t s, uint32_t d)
{
    uint32_t keep = 256 - (s >> 24);
    return s + (((d & 0xff00ff) * keep >> 8 & 0xff00ff) | ((d >> 8 & 0xff00ff) * keep & 0xff00ff00));
}

static void fill(uint32_t *to, int len, uint32_t pixel)
{
    __m128i p = _mm_set1_epi32((int)pixel);
    int i = 0;
    for (; i + 4 <= len; i += 4) _mm_storeu_si128((__m128i *)(to + i), p);
    for (; i < len; i++) to[i] = pixel;
}

static void blend(uint32_t *to, int len, uint32_t pixel)
{
    const __m128i even = _mm_set1_epi32(0x00ff00ff), s = _mm_set1_epi32((int)pixel);
    const __m128i keep = _mm_set1_epi16((short)(256 - (pixel >> 24)));
    int i = 0;
    for (; i + 4 <= len; i += 4) {
        __m128i d = _mm_loadu_si128((const __m128i *)(to + i));
        __m128i low = _mm_srli_epi16(_mm_mullo_epi16(_mm_and_si128(d, even), keep), 8);
        __m128i high = _mm_andnot_si128(even, _mm_mullo_epi16(_mm_srli_epi16(d, 8), keep));
        _mm_storeu_si128((__m128i *)(to + i), _mm_add_epi8(s, _mm_or_si128(low, high)));
    }
    for (; i < len; i++) to[i] = over(pixel, to[i]);
}

__attribute__((noinline)) static void paint(uint32_t *plane, int left, int width, uint32_t pixel)
{
    for (int y = 0; y < 64; y++) {
        uint32_t *to = plane + 64 * y + left;
        if (pixel >> 24 == 255) fill(to, width, pixel);
        else blend(to, width, pixel);
    }
}

static void one(const char *name, int left, int width, uint32_t pixel)
{
    static uint32_t plane[4096];
    /* What no compiler sees. */
    volatile int at = left, wide = width;
    volatile uint32_t color = pixel;
    uint64_t least = UINT64_MAX;
    for (int k = 0; k < 20000; k++) {
        uint64_t start = now();
        paint(plane, at, wide, color);
        uint64_t time = now() - start;
        if (time < least) least = time;
    }
    printf("%s %lu %d\n", name, least, 64 * width);
}

int main(void)
{
    one("solid_64", 0, 64, 0xff204060);
    one("blend_64", 0, 64, 0x80302010);
    one("solid_16", 9, 16, 0xff204060);
    one("blend_16", 9, 16, 0x80302010);
    one("solid_8", 9, 8, 0xff204060);
    one("blend_8", 9, 8, 0x80302010);
    return 0;
}

/* What images and texts cost by hand, for bench/images.sh: the same images, texts and rows as there. Each case
   prints its name, the least time in nanoseconds, the total of its pixels, and how many pixels there are. */
#include <emmintrin.h>
#include <stdint.h>
#include <stdio.h>
#include <stdlib.h>
#include <string.h>
#include <time.h>

struct image {
    uint32_t side;
    uint32_t *pixels;
    int opaque;
};

struct part {
    struct image image;
    int32_t x, y;
    uint32_t w, h, border;
};

struct font {
    uint32_t height;
    uint8_t widths[95];
    uint32_t *rows;
};

static uint64_t now(void)
{
    struct timespec t;
    clock_gettime(CLOCK_MONOTONIC, &t);
    return (uint64_t)t.tv_sec * 1000000000u + (uint64_t)t.tv_nsec;
}

static void keep_least(uint64_t *least, uint64_t time)
{
    if (time < *least) *least = time;
}

static uint64_t total_of(const uint32_t *pixels, size_t count)
{
    uint64_t total = 0;
    for (size_t i = 0; i < count; i++) total += pixels[i];
    return total;
}

static uint8_t *image_file(uint32_t side)
{
    uint32_t count = side * side;
    uint8_t *bytes = malloc(12 + 4 * (size_t)count);
    memcpy(bytes, "EVI1", 4);
    memcpy(bytes + 4, &side, 4);
    memcpy(bytes + 8, &side, 4);
    for (uint32_t i = 0; i < count; i++) {
        uint8_t a = (uint8_t)(i % 200 + 50), *to = bytes + 12 + 4 * (size_t)i;
        to[0] = a, to[1] = a / 2, to[2] = a, to[3] = a / 3;
    }
    return bytes;
}

/* Reads an image: checks that each pixel is premultiplied, turns its bytes into a word, and finds whether all alphas are
   255, four pixels a step. */
static int decode(const uint8_t *bytes, size_t len, struct image *image)
{
    uint32_t side, height;
    if (len < 12 || memcmp(bytes, "EVI1", 4) != 0) return 0;
    memcpy(&side, bytes + 4, 4);
    memcpy(&height, bytes + 8, 4);
    if (side < 1 || side > 4096 || height != side || len != 12 + 4 * (size_t)side * side) return 0;
    size_t count = (size_t)side * side, i = 0;
    uint32_t *to = malloc(4 * count);
    if (!to) return 0;
    const uint8_t *from = bytes + 12;
    const __m128i low = _mm_set1_epi32(0xff), even = _mm_set1_epi32(0x00ff00ff);
    __m128i good = _mm_set1_epi32(-1), opaque = good;
    for (; i + 4 <= count; i += 4) {
        __m128i p = _mm_loadu_si128((const __m128i *)(from + 4 * i));
        __m128i alpha = _mm_and_si128(p, low);
        alpha = _mm_or_si128(alpha, _mm_slli_epi32(alpha, 8));
        alpha = _mm_or_si128(alpha, _mm_slli_epi32(alpha, 16));
        good = _mm_and_si128(good, _mm_cmpeq_epi8(_mm_max_epu8(p, alpha), alpha));
        opaque = _mm_and_si128(opaque, alpha);
        __m128i swapped = _mm_or_si128(_mm_and_si128(_mm_srli_epi16(p, 8), even), _mm_slli_epi16(p, 8));
        swapped = _mm_shufflehi_epi16(_mm_shufflelo_epi16(swapped, 0xb1), 0xb1);
        _mm_storeu_si128((__m128i *)(to + i), swapped);
    }
    int is_good = _mm_movemask_epi8(good) == 0xffff;
    int is_opaque = _mm_movemask_epi8(_mm_cmpeq_epi8(opaque, _mm_set1_epi32(-1))) == 0xffff;
    for (; i < count; i++) {
        const uint8_t *p = from + 4 * i;
        is_good &= p[1] <= p[0] && p[2] <= p[0] && p[3] <= p[0];
        is_opaque &= p[0] == 255;
        to[i] = (uint32_t)p[0] << 24 | (uint32_t)p[1] << 16 | (uint32_t)p[2] << 8 | p[3];
    }
    *image = (struct image){side, to, is_opaque};
    if (!is_good) free(to);
    return is_good;
}

static void reading(void)
{
    uint8_t *bytes = image_file(4096);
    uint64_t least = UINT64_MAX, total = 0;
    for (int k = 0; k < 15; k++) {
        struct image image;
        uint64_t start = now();
        if (!decode(bytes, 12 + ((size_t)4 << 24), &image)) exit(1);
        keep_least(&least, now() - start);
        total = total_of(image.pixels, 1u << 24);
        free(image.pixels);
    }
    printf("decode %lu %lu %u\n", least, total, 1u << 24);
    free(bytes);
}

static uint32_t least_of(uint32_t a, uint32_t b)
{
    return a < b ? a : b;
}

static uint32_t turned(int64_t at, uint32_t len)
{
    int64_t rest = at % len;
    return (uint32_t)(rest < 0 ? rest + len : rest);
}

/* The place in the image of place u of a fill of `len`, or -1 where the borders leave nothing. */
static int64_t source_of(uint32_t u, uint32_t len, uint32_t source, uint32_t border)
{
    uint32_t low_source = least_of(border, source), high_source = least_of(border, source - low_source);
    uint32_t low = least_of(low_source, len), high = least_of(high_source, len - low);
    uint32_t middle = source - low_source - high_source;
    if (u < low) return u;
    if (u >= len - high) return source - (len - u);
    if (middle == 0) return -1;
    return low_source + (uint64_t)(u - low) * middle / (len - low - high);
}

/* Row j from column i on: run by run. A run of the middle multiplies by the scaled inverse of its places, which was
   faster here than steps of a quotient and a rest. */
static void __attribute__((noinline)) pixel_row(const struct part *part, uint32_t i, uint32_t j, uint32_t *into, uint32_t count)
{
    uint32_t source = part->image.side, len = part->w;
    int64_t y = source_of(turned((int64_t)j - part->y, part->h), part->h, source, part->border);
    if (y < 0) {
        memset(into, 0, 4 * (size_t)count);
        return;
    }
    const uint32_t *row = part->image.pixels + (size_t)y * source;
    uint32_t low_source = least_of(part->border, source), high_source = least_of(part->border, source - low_source);
    uint32_t low = least_of(low_source, len), high = least_of(high_source, len - low);
    uint32_t middle = source - low_source - high_source, places = len - low - high;
    uint32_t u = turned((int64_t)i - part->x, len);
    while (count > 0) {
        uint32_t end = u < low ? low : u < len - high ? len - high : len;
        uint32_t run = least_of(end - u, count);
        if (u < low)
            memcpy(into, row + u, 4 * (size_t)run);
        else if (u >= len - high)
            memcpy(into, row + source - (len - u), 4 * (size_t)run);
        else if (middle == 0)
            memset(into, 0, 4 * (size_t)run);
        else if (middle == places)
            memcpy(into, row + low_source + (u - low), 4 * (size_t)run);
        else {
            uint64_t inverse = ((uint64_t)1 << 52) / places + 1, at = u - low;
            const uint32_t *from = row + low_source;
            for (uint32_t k = 0; k < run; k++) into[k] = from[(at + k) * middle * inverse >> 52];
        }
        into += run;
        count -= run;
        u = u + run == len ? 0 : u + run;
    }
}

static void rows(const char *name, uint32_t image_side, int32_t x, int32_t y, uint32_t fill, uint32_t border)
{
    struct part part = {.x = x, .y = y, .w = fill, .h = fill, .border = border};
    uint8_t *bytes = image_file(image_side);
    if (!decode(bytes, 12 + 4 * (size_t)image_side * image_side, &part.image)) exit(1);
    uint32_t row[64], side = 256;
    uint64_t least = UINT64_MAX, total = 0;
    for (int k = 0; k < 300; k++) {
        uint64_t start = now();
        for (uint32_t j = 0; j < side; j++)
            for (uint32_t i = 0; i < side / 64; i++) pixel_row(&part, i * 64, j, row, 64);
        keep_least(&least, now() - start);
    }
    for (uint32_t j = 0; j < side; j++)
        for (uint32_t i = 0; i < side / 64; i++) {
            pixel_row(&part, i * 64, j, row, 64);
            total += total_of(row, 64);
        }
    printf("%s %lu %lu %u\n", name, least, total, side * side);
    free(part.image.pixels);
    free(bytes);
}

/* Row y of a text from column x on, bit by bit. */
static void __attribute__((noinline)) text_row(const struct font *font, const char *text, size_t len, uint32_t x, uint32_t y, uint32_t *into, uint32_t count)
{
    size_t at = 0;
    while (at < len && x >= font->widths[text[at] - 32]) x -= font->widths[text[at++] - 32];
    uint32_t done = 0;
    for (; at < len && done < count; at++, x = 0) {
        uint32_t glyph = (uint32_t)text[at] - 32, bits = font->rows[glyph * font->height + y] >> x;
        uint32_t run = least_of(font->widths[glyph] - x, count - done);
        for (uint32_t k = 0; k < run; k++) into[done + k] = 0u - (bits >> k & 1);
        done += run;
    }
    memset(into + done, 0, 4 * (size_t)(count - done));
}

static void texts(void)
{
    struct font font = {.height = 10, .rows = malloc(4 * 950)};
    const char *text = "Great crested grebe  8";
    size_t len = strlen(text);
    uint32_t row[64];
    uint64_t least = UINT64_MAX, total = 0;
    memset(font.widths, 6, 95);
    for (uint32_t i = 0; i < 950; i++) font.rows[i] = i % 61;
    for (int k = 0; k < 20000; k++) {
        uint64_t start = now();
        for (uint32_t y = 0; y < 10; y++)
            for (uint32_t i = 0; i < 2; i++) text_row(&font, text, len, 64 * i, y, row, 64);
        keep_least(&least, now() - start);
    }
    for (uint32_t y = 0; y < 10; y++)
        for (uint32_t i = 0; i < 2; i++) {
            text_row(&font, text, len, 64 * i, y, row, 64);
            total += total_of(row, 64);
        }
    printf("text %lu %lu %u\n", least, total, 2 * 64 * 10);
    free(font.rows);
}

int main(void)
{
    rows("one_to_one", 256, 0, 0, 256, 0);
    rows("tiled", 16, 3, 5, 16, 0);
    rows("nine_patch", 48, 0, 0, 256, 12);
    rows("enlarged", 96, 0, 0, 256, 0);
    rows("reduced", 600, 0, 0, 256, 0);
    texts();
    reading();
    return 0;
}

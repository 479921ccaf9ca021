/* What drawing whole pictures costs by hand, for bench/pictures.sh: the scenes of its program, drawn by tiles with
   SSE2, and, where they are there, by pixman and by Evas. Each line tells the least time in ns and a sum of pixels. */
#include <emmintrin.h>
#include <stdint.h>
#include <stdio.h>
#include <stdlib.h>
#include <string.h>
#include <time.h>
#ifdef WITH_PIXMAN
#include <pixman.h>
#endif
#ifdef WITH_EVAS
#include <Ecore.h>
#include <Evas.h>
#include <Evas_Engine_Buffer.h>
#endif

enum { GROUND, TILE, VEIL, ICON, FRAME, GLASS, WORDS, MOTIFS, RECT = MOTIFS };
typedef struct { int w, h, opaque; uint32_t *pixels; } Image;
typedef struct { int motif, x, y, w, h, repeats, fx, fy, border; uint32_t color; } Object;
typedef struct { int w, h, count; Object objects[128]; } Scene;
static Image images[MOTIFS];

static uint64_t now(void)
{
    struct timespec t;
    clock_gettime(CLOCK_MONOTONIC, &t);
    return (uint64_t)t.tv_sec * 1000000000u + (uint64_t)t.tv_nsec;
}

static int least_of(int a, int b) { return a < b ? a : b; }
static int most_of(int a, int b) { return a > b ? a : b; }

/* The images, pixel by pixel as the program computes them. */
static uint32_t pixel(uint32_t a, uint32_t r, uint32_t g, uint32_t b)
{
    return a << 24 | (r < a ? r : a) << 16 | (g < a ? g : a) << 8 | (b < a ? b : a);
}
static uint32_t wave(uint32_t at) { at %= 512; return at < 256 ? at : 511 - at; }
static uint32_t mul(uint32_t x, uint32_t y) { return (x * y + 255) / 256; }
static uint32_t icon(uint32_t x, uint32_t y)
{
    uint32_t dx = (uint32_t)abs((int)(2 * x) - 63), dy = (uint32_t)abs((int)(2 * y) - 63), far = dx * dx + dy * dy;
    uint32_t a = far < 2306 ? 255 : far > 3844 ? 0 : 255 * (3844 - far) / 1538;
    return pixel(a, mul(a, wave(9 * x)), mul(a, wave(9 * y)), a / 2);
}
static uint32_t word(uint32_t x, uint32_t y)
{
    int dotted = (7 * x + 13 * y + x * y) % 5 < 2, inked = 2 <= y && y < 13 && x % 8 && x % 8 != 7 && x / 8 % 5;
    return dotted && inked ? 0xffffffff : 0;
}
static uint32_t motif_pixel(int motif, uint32_t x, uint32_t y)
{
    uint32_t deep = (uint32_t)least_of(least_of((int)x, (int)y), least_of(31 - (int)x, 31 - (int)y));
    switch (motif) {
    case GROUND: return pixel(255, wave(x + y / 3), wave(2 * y + x / 5), wave(x * y / 512));
    case TILE: return pixel(255, wave(8 * x), wave(8 * y), wave(5 * (x ^ y)));
    case VEIL: return pixel(96, mul(96, wave(4 * x)), mul(96, wave(4 * y)), 40);
    case ICON: return icon(x, y);
    case FRAME: return deep < 4 ? pixel(40 + 40 * deep, 0, 0, 0) : pixel(255, 200 + deep, 205 + deep, 210 + deep);
    case GLASS: return deep < 4 ? pixel(220, 20, 20, 60) : pixel(150, 60 + x, 60 + y, 110);
    default: return word(x, y);
    }
}
static void make_images(void)
{
    static const int sizes[MOTIFS][2] = { { 1920, 1080 }, { 64, 64 }, { 64, 64 }, { 64, 64 },
                                          { 32, 32 },     { 32, 32 }, { 300, 16 } };
    for (int m = 0; m < MOTIFS; m++) {
        Image *i = &images[m];
        *i = (Image){ sizes[m][0], sizes[m][1], m == GROUND || m == TILE, NULL };
        i->pixels = malloc((size_t)i->w * i->h * 4);
        for (int k = 0; k < i->w * i->h; k++) i->pixels[k] = motif_pixel(m, k % i->w, k / i->w);
    }
}

/* The scenes, object by object as the program makes them. */
static uint64_t lots = 1;
static int span(int low, int high)
{
    lots = (lots * 1103515245u + 12345u) % 2147483648u;
    return low + (int)(lots / 65536 % (uint64_t)(high - low + 1));
}
static Object *somewhere(Scene *s, int motif, int w0, int w1, int h0, int h1)
{
    Object *o = &s->objects[s->count++];
    *o = (Object){ .motif = motif, .color = 0xffffffff };
    o->w = span(w0, w1), o->h = span(h0, h1);
    o->x = span(0, 1919 - o->w), o->y = span(0, 1079 - o->h);
    return o;
}
static void mixed(Scene *s)
{
    *s = (Scene){ 1920, 1080, 1, { { .motif = GROUND, .w = 1920, .h = 1080, .color = 0xffffffff } } };
    for (int n = 1; n < 11; n++) {
        Object *o = somewhere(s, n % 2 ? VEIL : TILE, 200, 600, 150, 400);
        o->repeats = 1, o->fx = span(0, 63), o->fy = span(0, 63);
    }
    for (int n = 11; n < 51; n++) {
        Object *o = n < 27 ? somewhere(s, RECT, 200, 700, 100, 500) : somewhere(s, RECT, 100, 500, 100, 400);
        int a = n < 27 ? 255 : span(60, 220), r = span(0, a), g = span(0, a), b = span(0, a);
        o->color = pixel(a, r, g, b);
    }
    for (int n = 51; n < 67; n++) {
        Object *o = n < 59 ? somewhere(s, FRAME, 300, 800, 200, 600) : somewhere(s, GLASS, 200, 600, 100, 400);
        o->border = 8;
    }
    for (int n = 67; n < 91; n++) {
        Object *o = somewhere(s, ICON, 64, 64, 64, 64);
        if (n % 3 == 0) o->color = 0x01010101u * (uint32_t)span(100, 254);
    }
    Object sheet = { .motif = RECT, .x = 360, .y = 140, .w = 1200, .h = 700, .color = pixel(255, 236, 236, 240) };
    s->objects[s->count++] = sheet;
    for (int n = 0; n < 8; n++) {
        Object row = { .motif = WORDS, .x = 400, .y = 180 + 70 * n, .w = 300, .h = 16 };
        row.color = pixel(255, 30, 40, 20 * n);
        s->objects[s->count++] = row;
    }
}
static void veiled(Scene *s)
{
    *s = (Scene){ .w = 4096, .h = 4096 };
    for (int n = 0; n < 5; n++) {
        Object all = { .motif = RECT, .w = 4096, .h = 4096 };
        all.color = n ? pixel(60 + 15 * n, 10 * n, 50, 10) : pixel(255, 10, 20, 30);
        s->objects[s->count++] = all;
    }
}

/* Rows of pixels. */
static uint32_t over(uint32_t s, uint32_t d)
{
    uint32_t keep = 256 - (s >> 24);
    return s + (((d & 0xff00ff) * keep >> 8 & 0xff00ff) | ((d >> 8 & 0xff00ff) * keep & 0xff00ff00));
}
static uint32_t tint(uint32_t p, uint32_t c)
{
    uint32_t a = mul(p >> 24, c >> 24), r = mul(p >> 16 & 255, c >> 16 & 255);
    return a << 24 | r << 16 | mul(p >> 8 & 255, c >> 8 & 255) << 8 | mul(p & 255, c & 255);
}
static __m128i over4(__m128i s, __m128i d, __m128i keep)
{
    const __m128i even = _mm_set1_epi32(0x00ff00ff);
    __m128i low = _mm_srli_epi16(_mm_mullo_epi16(_mm_and_si128(d, even), keep), 8);
    __m128i high = _mm_andnot_si128(even, _mm_mullo_epi16(_mm_srli_epi16(d, 8), keep));
    return _mm_add_epi8(s, _mm_or_si128(low, high));
}
static __m128i read4(const uint32_t *p) { return _mm_loadu_si128((const __m128i *)p); }
static void write4(uint32_t *p, __m128i v) { _mm_storeu_si128((__m128i *)p, v); }
static void fill(uint32_t *to, int len, uint32_t p)
{
    int i = 0;
    for (; i + 4 <= len; i += 4) write4(to + i, _mm_set1_epi32((int)p));
    for (; i < len; i++) to[i] = p;
}
static void blend_one(uint32_t *to, int len, uint32_t p)
{
    __m128i keep = _mm_set1_epi16((short)(256 - (p >> 24)));
    int i = 0;
    for (; i + 4 <= len; i += 4) write4(to + i, over4(_mm_set1_epi32((int)p), read4(to + i), keep));
    for (; i < len; i++) to[i] = over(p, to[i]);
}
static void blend(uint32_t *to, const uint32_t *from, int len)
{
    int i = 0;
    for (; i + 4 <= len; i += 4) {
        __m128i s = read4(from + i), keep = _mm_sub_epi32(_mm_set1_epi32(256), _mm_srli_epi32(s, 24));
        write4(to + i, over4(s, read4(to + i), _mm_or_si128(keep, _mm_slli_epi32(keep, 16))));
    }
    for (; i < len; i++) to[i] = over(from[i], to[i]);
}
static void tint_row(uint32_t *row, int len, uint32_t c)
{
    const __m128i even = _mm_set1_epi32(0x00ff00ff), most = _mm_set1_epi16(255);
    __m128i low = _mm_and_si128(_mm_set1_epi32((int)c), even), high = _mm_srli_epi16(_mm_set1_epi32((int)c), 8);
    int i = 0;
    for (; i + 4 <= len; i += 4) {
        __m128i p = read4(row + i);
        __m128i l = _mm_srli_epi16(_mm_add_epi16(_mm_mullo_epi16(_mm_and_si128(p, even), low), most), 8);
        __m128i h = _mm_andnot_si128(even, _mm_add_epi16(_mm_mullo_epi16(_mm_srli_epi16(p, 8), high), most));
        write4(row + i, _mm_or_si128(l, h));
    }
    for (; i < len; i++) row[i] = tint(row[i], c);
}

/* By hand, tile by tile. What is still open of a tile is kept in bits; an object is painted on the least rectangle that
   has all of its open places. */
static int source_of(int at, int side, int own, int border)
{
    if (at < border) return at;
    if (at >= side - border) return own - (side - at);
    return border + (at - border) * (own - 2 * border) / (side - 2 * border);
}
typedef struct { const Object *o; int x0, y0, x1, y1; } Job;
static int is_opaque(const Object *o)
{
    return o->motif == RECT ? o->color >> 24 == 255 : images[o->motif].opaque && o->color == 0xffffffff;
}

static void paint(uint32_t *plane, int left, int top, int wide, const Job *j)
{
    const Object *o = j->o;
    int len = j->x1 - j->x0, columns[64], last = -1;
    uint32_t row[64];
    if (o->motif == RECT) {
        for (int y = j->y0; y < j->y1; y++) {
            if (o->color >> 24 == 255) fill(plane + y * wide + j->x0, len, o->color);
            else blend_one(plane + y * wide + j->x0, len, o->color);
        }
        return;
    }
    const Image *m = &images[o->motif];
    int at_once = !o->repeats && !o->border && o->color == 0xffffffff, copies = is_opaque(o);
    for (int i = 0; i < len; i++) {
        int at = left + j->x0 + i - o->x;
        columns[i] = o->repeats ? (at - o->fx + 4096) % m->w : source_of(at, o->w, m->w, o->border);
    }
    for (int y = j->y0; y < j->y1; y++) {
        int at = top + y - o->y, from = o->repeats ? (at - o->fy + 4096) % m->h : source_of(at, o->h, m->h, o->border);
        const uint32_t *pixels = m->pixels + from * m->w;
        uint32_t *to = plane + y * wide + j->x0;
        if (!at_once && from != last) {
            for (int i = 0; i < len; i++) row[i] = pixels[columns[i]];
            if (o->color != 0xffffffff) tint_row(row, len, o->color);
            last = from;
        }
        const uint32_t *shown = at_once ? pixels + columns[0] : row;
        if (copies) memcpy(to, shown, (size_t)len * 4);
        else blend(to, shown, len);
    }
}
static void draw_tile(const Scene *s, uint32_t *plane, int left, int top)
{
    int wide = least_of(64, s->w - left), high = least_of(64, s->h - top), count = 0, open = high;
    uint64_t rows[64], all = wide == 64 ? UINT64_MAX : ((uint64_t)1 << wide) - 1;
    Job jobs[128];
    for (int y = 0; y < high; y++) rows[y] = all;
    for (int k = s->count - 1; k >= 0 && open; k--) {
        const Object *o = &s->objects[k];
        int x0 = most_of(0, o->x - left), x1 = least_of(wide, o->x + o->w - left);
        int y0 = most_of(0, o->y - top), y1 = least_of(high, o->y + o->h - top), first = -1, last = -1;
        if (x0 >= x1 || y0 >= y1) continue;
        uint64_t columns = (x1 - x0 == 64 ? UINT64_MAX : ((uint64_t)1 << (x1 - x0)) - 1) << x0, seen = 0;
        int hides = is_opaque(o);
        for (int y = y0; y < y1; y++) {
            uint64_t here = rows[y] & columns;
            if (!here) continue;
            if (first < 0) first = y;
            last = y, seen |= here;
            if (hides && !(rows[y] &= ~columns)) open--;
        }
        if (seen) jobs[count++] = (Job){ o, __builtin_ctzll(seen), first, 64 - __builtin_clzll(seen), last + 1 };
    }
    if (open) for (int y = 0; y < high; y++) if (rows[y]) fill(plane + y * wide, wide, 0);
    while (count) paint(plane, left, top, wide, &jobs[--count]);
}

static int across(int length) { return (length + 63) / 64; }
static uint64_t sum_of(const uint32_t *pixels, int stride, int w, int h)
{
    uint64_t sum = 0;
    for (int y = 0; y < h; y++) for (int x = 0; x < w; x++) sum = sum * 3 + pixels[y * stride + x];
    return sum;
}
static void by_hand(const char *name, const Scene *s, int rounds)
{
    int columns = across(s->w), tiles = columns * across(s->h);
    uint32_t **planes = malloc((size_t)tiles * sizeof *planes);
    uint64_t least = UINT64_MAX, sum = 0;
    for (int t = 0; t < tiles; t++) planes[t] = calloc(4096, 4);
    for (int k = 0; k < rounds; k++) {
        uint64_t start = now();
        for (int t = 0; t < tiles; t++) draw_tile(s, planes[t], t % columns * 64, t / columns * 64);
        uint64_t time = now() - start;
        if (time < least) least = time;
    }
    for (int t = 0; t < tiles; t++) {
        int w = least_of(64, s->w - t % columns * 64), h = least_of(64, s->h - t / columns * 64);
        sum += sum_of(planes[t], w, w, h);
        free(planes[t]);
    }
    free(planes);
    printf("%s by_hand %lu %lu\n", name, least, sum);
}

#if defined WITH_PIXMAN || defined WITH_EVAS
static uint64_t sum_by_tiles(const uint32_t *pixels, const Scene *s)
{
    uint64_t sum = 0;
    for (int y = 0; y < s->h; y += 64) {
        for (int x = 0; x < s->w; x += 64) {
            const uint32_t *tile = pixels + (size_t)y * s->w + x;
            sum += sum_of(tile, s->w, least_of(64, s->w - x), least_of(64, s->h - y));
        }
    }
    return sum;
}
#endif

#ifdef WITH_PIXMAN
/* pixman, which paints each object whole, from the lowest. */
static void composite(pixman_image_t *to, pixman_image_t *from, pixman_image_t *mask, int fx, int fy, int fw, int fh,
                      int x, int y, int w, int h)
{
    int scaled = fw != w || fh != h;
    if (scaled) {
        pixman_transform_t t;
        pixman_transform_init_identity(&t);
        t.matrix[0][0] = (fw << 16) / w, t.matrix[0][2] = fx << 16;
        t.matrix[1][1] = (fh << 16) / h, t.matrix[1][2] = fy << 16;
        pixman_image_set_transform(from, &t);
        pixman_image_set_filter(from, PIXMAN_FILTER_NEAREST, NULL, 0);
    }
    pixman_image_composite32(PIXMAN_OP_OVER, from, mask, to, scaled ? 0 : fx, scaled ? 0 : fy, 0, 0, x, y, w, h);
    if (scaled) pixman_image_set_transform(from, NULL);
}
static void paint_by_pixman(pixman_image_t *to, pixman_image_t **sources, const Object *o)
{
    uint32_t c = o->color;
    pixman_color_t color = { (c >> 16 & 255) * 257, (c >> 8 & 255) * 257, (c & 255) * 257, (c >> 24) * 257 };
    pixman_box32_t box = { o->x, o->y, o->x + o->w, o->y + o->h };
    if (o->motif == RECT) { pixman_image_fill_boxes(PIXMAN_OP_OVER, to, &color, 1, &box); return; }
    const Image *m = &images[o->motif];
    pixman_image_t *from = sources[o->motif], *mask = c == 0xffffffff ? NULL : pixman_image_create_solid_fill(&color);
    int b = o->border, fx[4] = { 0, b, m->w - b, m->w }, fy[4] = { 0, b, m->h - b, m->h };
    int xs[4] = { 0, b, o->w - b, o->w }, ys[4] = { 0, b, o->h - b, o->h };
    if (o->motif == WORDS) {
        pixman_image_composite32(PIXMAN_OP_OVER, mask, from, to, 0, 0, 0, 0, o->x, o->y, o->w, o->h);
    } else if (!b) {
        composite(to, from, mask, -o->fx, -o->fy, o->w, o->h, o->x, o->y, o->w, o->h);
    } else {
        for (int k = 0; k < 9; k++) {
            int i = k % 3, j = k / 3;
            composite(to, from, mask, fx[i], fy[j], fx[i + 1] - fx[i], fy[j + 1] - fy[j], o->x + xs[i], o->y + ys[j],
                      xs[i + 1] - xs[i], ys[j + 1] - ys[j]);
        }
    }
    if (mask) pixman_image_unref(mask);
}
static void by_pixman(const char *name, const Scene *s, int rounds)
{
    uint32_t *pixels = calloc((size_t)s->w * s->h, 4);
    pixman_image_t *to = pixman_image_create_bits(PIXMAN_a8r8g8b8, s->w, s->h, pixels, s->w * 4), *sources[MOTIFS];
    uint64_t least = UINT64_MAX;
    for (int m = 0; m < MOTIFS; m++) {
        const Image *i = &images[m];
        pixman_format_code_t format = i->opaque ? PIXMAN_x8r8g8b8 : PIXMAN_a8r8g8b8;
        sources[m] = pixman_image_create_bits(format, i->w, i->h, i->pixels, i->w * 4);
        if (m == TILE || m == VEIL) pixman_image_set_repeat(sources[m], PIXMAN_REPEAT_NORMAL);
    }
    for (int k = 0; k < rounds; k++) {
        uint64_t start = now();
        for (int i = 0; i < s->count; i++) paint_by_pixman(to, sources, &s->objects[i]);
        uint64_t time = now() - start;
        if (time < least) least = time;
    }
    printf("%s pixman %lu %lu\n", name, least, sum_by_tiles(pixels, s));
    pixman_image_unref(to);
    free(pixels);
}
#endif

#ifdef WITH_EVAS
/* Evas by its engine for memory, synchronously, with sampling of the nearest pixel. */
static void *same_buffer(void *data, void *buffer) { (void)data; return buffer; }
static void show_in_evas(Evas *e, const Object *o)
{
    uint32_t c = o->color;
    Evas_Object *shown = o->motif == RECT ? evas_object_rectangle_add(e) : evas_object_image_filled_add(e);
    if (o->motif != RECT) {
        const Image *m = &images[o->motif];
        evas_object_image_smooth_scale_set(shown, 0);
        evas_object_image_size_set(shown, m->w, m->h);
        evas_object_image_alpha_set(shown, !m->opaque);
        evas_object_image_data_set(shown, m->pixels);
        evas_object_image_data_update_add(shown, 0, 0, m->w, m->h);
        if (o->border) evas_object_image_border_set(shown, o->border, o->border, o->border, o->border);
        if (o->repeats) {
            evas_object_image_filled_set(shown, 0);
            evas_object_image_fill_set(shown, o->fx, o->fy, m->w, m->h);
        }
    }
    evas_object_move(shown, o->x, o->y);
    evas_object_resize(shown, o->w, o->h);
    evas_object_color_set(shown, c >> 16 & 255, c >> 8 & 255, c & 255, c >> 24);
    evas_object_show(shown);
}
static void by_evas(const char *name, const Scene *s, int rounds)
{
    uint32_t *pixels = aligned_alloc(64, (size_t)s->w * s->h * 4);
    uint64_t least = UINT64_MAX;
    Evas *e = evas_new();
    evas_output_method_set(e, evas_render_method_lookup("buffer"));
    evas_output_size_set(e, s->w, s->h);
    evas_output_viewport_set(e, 0, 0, s->w, s->h);
    memset(pixels, 0, (size_t)s->w * s->h * 4);
    Evas_Engine_Info_Buffer *info = (Evas_Engine_Info_Buffer *)evas_engine_info_get(e);
    info->info.depth_type = EVAS_ENGINE_BUFFER_DEPTH_ARGB32;
    info->info.dest_buffer = pixels;
    info->info.dest_buffer_row_bytes = s->w * 4;
    info->info.func.switch_buffer = same_buffer;
    if (!evas_engine_info_set(e, (Evas_Engine_Info *)info)) exit(1);
    for (int i = 0; i < s->count; i++) show_in_evas(e, &s->objects[i]);
    for (int k = 0; k < rounds + 2; k++) {
        evas_damage_rectangle_add(e, 0, 0, s->w, s->h);
        uint64_t start = now();
        evas_render_updates_free(evas_render_updates(e));
        uint64_t time = now() - start;
        if (k >= 2 && time < least) least = time;
    }
    printf("%s evas %lu %lu\n", name, least, sum_by_tiles(pixels, s));
}
#endif

static void all(const char *name, const Scene *s, int rounds)
{
    by_hand(name, s, rounds);
#ifdef WITH_PIXMAN
    by_pixman(name, s, rounds);
#endif
#ifdef WITH_EVAS
    by_evas(name, s, rounds);
#endif
}

int main(void)
{
    static Scene s;
    make_images();
#ifdef WITH_EVAS
    ecore_init();
    evas_init();
#endif
    mixed(&s);
    all("mixed", &s, 40);
    veiled(&s);
    all("veiled", &s, 20);
    return 0;
}

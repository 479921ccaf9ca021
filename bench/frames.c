/* What a frame costs besides its pixels, written by hand, for bench/frames.sh: the same objects and moves as there. */
#include <pixman.h>
#include <stdatomic.h>
#include <stdint.h>
#include <stdio.h>
#include <stdlib.h>
#include <string.h>
#include <time.h>

enum { W = 1280, H = 720, CELL = 8, ROUNDS = 1000 };

typedef struct { int x, y, w, h; } Rect;

/* A state is shared by the scene and by captures, and copied where another holds it. */
typedef struct {
    atomic_int holders;
    char name[64];
    Rect rect;
    uint32_t color;
    int op, shown;
} State;

typedef struct { uint64_t id; Rect area; uint32_t color; State *state; } Record;

typedef struct { State **states; Record *records; int count, drawn; } Captured;

static uint64_t now(void)
{
    struct timespec t;
    clock_gettime(CLOCK_MONOTONIC, &t);
    return (uint64_t)t.tv_sec * 1000000000u + (uint64_t)t.tv_nsec;
}

static State *share(State *state)
{
    atomic_fetch_add(&state->holders, 1);
    return state;
}

static void drop(State *state)
{
    if (atomic_fetch_sub(&state->holders, 1) == 1) free(state);
}

static void move(State **place, int x, int y)
{
    if (atomic_load(&(*place)->holders) != 1) {
        State *copy = malloc(sizeof *copy);
        memcpy(copy, *place, sizeof *copy);
        atomic_init(&copy->holders, 1);
        drop(*place);
        *place = copy;
    }
    (*place)->rect.x = x;
    (*place)->rect.y = y;
}

static Rect meet(Rect a, Rect b)
{
    int x = a.x > b.x ? a.x : b.x, y = a.y > b.y ? a.y : b.y;
    int right = a.x + a.w < b.x + b.w ? a.x + a.w : b.x + b.w;
    int bottom = a.y + a.h < b.y + b.h ? a.y + a.h : b.y + b.h;
    return (Rect){ x, y, right > x ? right - x : 0, bottom > y ? bottom - y : 0 };
}

static Captured capture(State **states, int count)
{
    Captured shot = { malloc(sizeof(State *) * count), malloc(sizeof(Record) * count), count, 0 };
    Rect canvas = { 0, 0, W, H };
    for (int k = 0; k < count; k++) {
        State *state = shot.states[k] = share(states[k]);
        Rect area = meet(canvas, state->rect);
        if (state->shown && area.w && area.h)
            shot.records[shot.drawn++] = (Record){ (uint64_t)k + 1, area, state->color, share(state) };
    }
    return shot;
}

static void release(Captured *shot)
{
    for (int k = 0; k < shot->count; k++) drop(shot->states[k]);
    for (int k = 0; k < shot->drawn; k++) drop(shot->records[k].state);
    free(shot->states);
    free(shot->records);
}

static int is_same(const Record *a, const Record *b)
{
    return !memcmp(&a->area, &b->area, sizeof a->area) && a->color == b->color
        && (a->state == b->state || (a->state->op == b->state->op && !memcmp(&a->state->rect, &b->state->rect, sizeof(Rect))));
}

static void add(pixman_region32_t *region, Rect r)
{
    pixman_region32_union_rect(region, region, r.x, r.y, (unsigned)r.w, (unsigned)r.h);
}

/* The damage, for lists of the same ids in the same order. */
static void compare(const Captured *old, const Captured *new, pixman_region32_t *damage)
{
    for (int k = 0; k < new->drawn; k++) {
        if (old->records[k].id != new->records[k].id) abort();
        if (!is_same(&old->records[k], &new->records[k])) {
            add(damage, old->records[k].area);
            add(damage, new->records[k].area);
        }
    }
}

static void snap(pixman_region32_t *damage, pixman_region32_t *cells)
{
    int n;
    pixman_box32_t *boxes = pixman_region32_rectangles(damage, &n);
    for (int k = 0; k < n; k++) {
        int x = boxes[k].x1 / CELL * CELL, y = boxes[k].y1 / CELL * CELL;
        int right = (boxes[k].x2 + CELL - 1) / CELL * CELL, bottom = (boxes[k].y2 + CELL - 1) / CELL * CELL;
        add(cells, meet((Rect){ 0, 0, W, H }, (Rect){ x, y, right - x, bottom - y }));
    }
}

static void keep_least(uint64_t *least, uint64_t time)
{
    if (time < *least) *least = time;
}

static void measure(int count)
{
    State **states = malloc(sizeof *states * count);
    for (int k = 0; k < count; k++) {
        states[k] = calloc(1, sizeof **states);
        atomic_init(&states[k]->holders, 1);
        states[k]->rect = (Rect){ k % 70 * 18, k / 70 % 40 * 18, 16, 16 };
        states[k]->color = 0xff0a141e;
        states[k]->shown = 1;
    }
    Captured before = capture(states, count);
    uint64_t least[4] = { UINT64_MAX, UINT64_MAX, UINT64_MAX, UINT64_MAX };
    for (int n = 0; n < ROUNDS; n++) {
        pixman_region32_t damage, cells;
        pixman_region32_init(&damage);
        pixman_region32_init(&cells);
        move(&states[n % count], n % 700, 300);
        uint64_t start = now();
        Captured shot = capture(states, count);
        uint64_t captured = now();
        compare(&before, &shot, &damage);
        uint64_t compared = now();
        snap(&damage, &cells);
        uint64_t snapped = now();
        release(&before);
        uint64_t ended = now();
        before = shot;
        keep_least(&least[0], captured - start);
        keep_least(&least[1], compared - captured);
        keep_least(&least[2], snapped - compared);
        keep_least(&least[3], ended - snapped);
        pixman_region32_fini(&damage);
        pixman_region32_fini(&cells);
    }
    const char *parts[4] = { "capture", "damage", "updates", "drop" };
    for (int k = 0; k < 4; k++) printf("%d_%s %lu\n", count, parts[k], (unsigned long)least[k]);
}

int main(void)
{
    measure(20);
    measure(200);
    measure(2000);
    return 0;
}

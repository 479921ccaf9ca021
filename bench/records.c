/* Records that are kept from start to start, written by hand, for bench/records.sh: the same places and changes as there. */
#include <pixman.h>
#include <stdint.h>
#include <stdio.h>
#include <stdlib.h>
#include <string.h>
#include <time.h>

enum { ROUNDS = 1000, RAISED = 30, TILE = 64, ACROSS = 21, DOWN = 12 };

typedef struct { int x, y, w, h; } Rect;

typedef struct { uint64_t id; Rect area; uint32_t color; const void *state; } Record;

/* What a place has, and where what it had at the start before stands. */
typedef struct { Record now; int mark; } Cell;

typedef struct { int place; Record was; } Former;

typedef struct { int n, formers, moved; Cell *cells; Former *former; uint64_t *stood, *stands; char *is_moved; int *moves; uint64_t *packed; } Board;

static uint64_t now(void)
{
    struct timespec t;
    clock_gettime(CLOCK_MONOTONIC, &t);
    return (uint64_t)t.tv_sec * 1000000000u + (uint64_t)t.tv_nsec;
}

static void keep(uint64_t *least, uint64_t since)
{
    uint64_t took = now() - since;
    if (took < *least) *least = took;
}

static const int state;

static Record record(int place, int moved)
{
    uint64_t p = (uint64_t)place;
    return (Record){ p + 1, { (int)(p * 7919 % 1272) + moved % 8, (int)(p * 104729 % 712), 8, 8 }, 0, &state };
}

/* Columns and rows from the first one, and the last ones counted back, in a lane of 16 bits each. */
static uint64_t pack(Rect r)
{
    return (uint64_t)r.x | (uint64_t)r.y << 16 | (uint64_t)(8191 - r.x - r.w) << 32 | (uint64_t)(8191 - r.y - r.h) << 48;
}

static uint64_t bound_of(Rect r)
{
    return (uint64_t)(r.x + r.w - 1) | (uint64_t)(r.y + r.h - 1) << 16 | (uint64_t)(8190 - r.x) << 32 | (uint64_t)(8190 - r.y) << 48;
}

static int fits(uint64_t area, uint64_t bound)
{
    return (((bound | 0x8000800080008000u) - area) & 0x8000800080008000u) == 0x8000800080008000u;
}

static void put(Board *b, int place, Record one)
{
    Cell *cell = &b->cells[place];
    if (cell->mark < 0) {
        cell->mark = b->formers;
        b->former[b->formers++] = (Former){ place, cell->now };
    }
    cell->now = one;
    b->packed[place] = pack(one.area);
}

static int is_same(const Record *a, const Record *b)
{
    return a->id == b->id && !memcmp(&a->area, &b->area, sizeof a->area) && a->color == b->color && a->state == b->state;
}

static int is_still(const Board *b, int place)
{
    const Cell *cell = &b->cells[place];
    return cell->mark < 0 || is_same(&cell->now, &b->former[cell->mark].was);
}

typedef struct { pixman_box32_t *at; int count, room; } Boxes;

static void push(Boxes *boxes, int x1, int y1, int x2, int y2)
{
    if (boxes->count == boxes->room) boxes->at = realloc(boxes->at, sizeof *boxes->at * (boxes->room = boxes->room * 2 + 64));
    boxes->at[boxes->count++] = (pixman_box32_t){ x1, y1, x2, y2 };
}

static void push_pair(const Board *b, Boxes *boxes, int p, int q)
{
    if ((b->stood[p] < b->stood[q]) == (b->stands[p] < b->stands[q]) || p == q || !is_still(b, p) || !is_still(b, q)) return;
    Rect r = b->cells[p].now.area, s = b->cells[q].now.area;
    int x1 = r.x > s.x ? r.x : s.x, y1 = r.y > s.y ? r.y : s.y;
    int x2 = r.x + r.w < s.x + s.w ? r.x + r.w : s.x + s.w, y2 = r.y + r.h < s.y + s.h ? r.y + r.h : s.y + s.h;
    if (x1 < x2 && y1 < y2) push(boxes, x1, y1, x2, y2);
}

/* One that moved is compared with all by their packed areas, four to a step. */
static void push_scanned(const Board *b, Boxes *boxes, int p)
{
    uint64_t bound = bound_of(b->cells[p].now.area);
    int q = 0;
    for (; q + 4 <= b->n; q += 4) {
        const uint64_t *a = b->packed + q;
        if (fits(a[0], bound) | fits(a[1], bound) | fits(a[2], bound) | fits(a[3], bound))
            for (int k = 0; k < 4; k++)
                if (fits(a[k], bound)) push_pair(b, boxes, p, q + k);
    }
    for (; q < b->n; q++)
        if (fits(b->packed[q], bound)) push_pair(b, boxes, p, q);
}

/* Many that moved are listed by tiles, and each place is compared with those of its tiles. */
static void push_by_tiles(const Board *b, Boxes *boxes)
{
    static int heads[ACROSS * DOWN];
    int *next = malloc(sizeof(int) * (size_t)b->moved * 4), *who = malloc(sizeof(int) * (size_t)b->moved * 4), used = 0;
    memset(heads, -1, sizeof heads);
    for (int k = 0; k < b->moved; k++) {
        Rect r = b->cells[b->moves[k]].now.area;
        for (int v = r.y / TILE; v <= (r.y + r.h - 1) / TILE; v++)
            for (int u = r.x / TILE; u <= (r.x + r.w - 1) / TILE; u++) {
                who[used] = b->moves[k];
                next[used] = heads[v * ACROSS + u];
                heads[v * ACROSS + u] = used++;
            }
    }
    for (int q = 0; q < b->n; q++) {
        uint64_t a = b->packed[q];
        int x = (int)(a & 0xffff), y = (int)(a >> 16 & 0xffff), x2 = 8190 - (int)(a >> 32 & 0xffff), y2 = 8190 - (int)(a >> 48);
        for (int v = y / TILE; v <= y2 / TILE; v++)
            for (int u = x / TILE; u <= x2 / TILE; u++)
                for (int k = heads[v * ACROSS + u]; k >= 0; k = next[k])
                    if (fits(b->packed[who[k]], bound_of((Rect){ x, y, x2 - x + 1, y2 - y + 1 }))) push_pair(b, boxes, who[k], q);
    }
    free(next);
    free(who);
}

static void damage(const Board *b, pixman_region32_t *region)
{
    Boxes boxes = { 0, 0, 0 };
    for (int k = 0; k < b->formers; k++) {
        const Record *was = &b->former[k].was, *is = &b->cells[b->former[k].place].now;
        if (is_same(was, is)) continue;
        push(&boxes, was->area.x, was->area.y, was->area.x + was->area.w, was->area.y + was->area.h);
        push(&boxes, is->area.x, is->area.y, is->area.x + is->area.w, is->area.y + is->area.h);
    }
    if (b->moved > 8) push_by_tiles(b, &boxes);
    else
        for (int k = 0; k < b->moved; k++) push_scanned(b, &boxes, b->moves[k]);
    pixman_region32_init_rects(region, boxes.at, boxes.count);
    free(boxes.at);
}

static void settle(Board *b)
{
    for (int k = 0; k < b->formers; k++) b->cells[b->former[k].place].mark = -1;
    for (int k = 0; k < b->moved; k++) {
        b->stood[b->moves[k]] = b->stands[b->moves[k]];
        b->is_moved[b->moves[k]] = 0;
    }
    b->formers = b->moved = 0;
}

static void raise(Board *b, int place, uint64_t rank)
{
    if (!b->is_moved[place]) {
        b->is_moved[place] = 1;
        b->moves[b->moved++] = place;
    }
    b->stands[place] = rank;
}

static void time_damage(const Board *b, uint64_t *least)
{
    pixman_region32_t region;
    uint64_t since = now();
    damage(b, &region);
    keep(least, since);
    pixman_region32_fini(&region);
}

static uint64_t raised(Board *b, int from, int count)
{
    uint64_t least = UINT64_MAX;
    for (int k = 0; k < RAISED; k++) {
        for (int j = 0; j < count; j++) {
            uint64_t at = (uint64_t)(from + k * count + j);
            raise(b, (int)(at * 37 % (uint64_t)b->n), 0x8000000000000000u + at);
        }
        time_damage(b, &least);
        settle(b);
    }
    return least;
}

static void measure(int n)
{
    size_t m = (size_t)n;
    Board b = { n, 0, 0, malloc(sizeof(Cell) * m), malloc(sizeof(Former) * m), malloc(8 * m), malloc(8 * m), calloc(m, 1), malloc(sizeof(int) * m), malloc(8 * m) };
    for (int p = 0; p < n; p++) {
        b.cells[p] = (Cell){ record(p, 0), -1 };
        b.packed[p] = pack(b.cells[p].now.area);
        b.stood[p] = b.stands[p] = (uint64_t)p << 28;
    }
    uint64_t puts = UINT64_MAX, damages = UINT64_MAX, settles = UINT64_MAX;
    for (int k = 0; k < ROUNDS; k++) {
        int place = k * 37 % n;
        Record one = record(place, k);
        uint64_t since = now();
        put(&b, place, one);
        keep(&puts, since);
        time_damage(&b, &damages);
        since = now();
        settle(&b);
        keep(&settles, since);
    }
    printf("%d_put %lu\n%d_damage %lu\n%d_settle %lu\n", n, puts, n, damages, n, settles);
    printf("%d_raised_1 %lu\n", n, raised(&b, 1, 1));
    printf("%d_raised_1000 %lu\n", n, raised(&b, 1000, 1000));
    free(b.cells); free(b.former); free(b.stood); free(b.stands); free(b.is_moved); free(b.moves); free(b.packed);
}

int main(void)
{
    measure(2000);
    measure(65000);
    return 0;
}

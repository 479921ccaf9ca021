// What commands.sh measures of ev_cmds, by hand: which areas meet a bound is found by one subtraction a word, four to a
// step; what is open in a tile is 64 words, one for each row; commands hold counted shares of their objects.
#include <stdint.h>
#include <stdio.h>
#include <stdlib.h>
#include <string.h>
#include <time.h>

enum { W = 1920, H = 1080, ACROSS = (W + 63) / 64, DOWN = (H + 63) / 64, MOST = 8191 };

typedef struct { uint64_t shares; uint8_t rest[272]; uint8_t op; } Object;
typedef struct { uint16_t left, right, top, bottom; uint32_t color; Object *object; } Record;
typedef struct { uint8_t left, right, top, bottom; uint32_t color; uint8_t replaces; Object *object; } Command;
typedef struct { uint64_t open[64]; int covered; uint32_t count, room; Command *commands; } Tile;
typedef struct { uint16_t left, right, top, bottom; } Edges;

static uint32_t dice;

static uint32_t below(uint32_t limit) {
    dice ^= dice << 13;
    dice ^= dice >> 17;
    dice ^= dice << 5;
    return dice % limit;
}

static uint64_t now(void) {
    struct timespec t;
    clock_gettime(CLOCK_MONOTONIC, &t);
    return t.tv_sec * 1000000000ull + t.tv_nsec;
}

static uint64_t packed(Edges e) {
    return e.left | (uint64_t)e.top << 16 | (uint64_t)(MOST - e.right) << 32 | (uint64_t)(MOST - e.bottom) << 48;
}

static void push(Tile *tile, Command command) {
    if (tile->count == tile->room) {
        tile->room = tile->room ? 2 * tile->room : 4;
        tile->commands = realloc(tile->commands, tile->room * sizeof(Command));
    }
    __atomic_fetch_add(&command.object->shares, 1, __ATOMIC_SEQ_CST);
    tile->commands[tile->count++] = command;
}

static uint64_t columns(int left, int right) {
    return (right - left == 64 ? ~0ull : (1ull << (right - left)) - 1) << left;
}

// What a tile at this place sees of a record that lies below all that it took before.
static void take(Tile *tile, int x, int y, const Record *one, Edges seen) {
    int left = seen.left > x ? seen.left - x : 0, top = seen.top > y ? seen.top - y : 0;
    int right = seen.right - x < 64 ? seen.right - x : 64, bottom = seen.bottom - y < 64 ? seen.bottom - y : 64;
    if (tile->covered || left >= right || top >= bottom)
        return;
    uint64_t wanted = columns(left, right), any = 0, all = ~0ull;
    for (int row = top; row < bottom; row++) {
        any |= tile->open[row];
        all &= tile->open[row];
    }
    if (!(any & wanted))
        return;
    int replaces = one->object->op || one->color >> 24 == 255;
    Command command = {left, right, top, bottom, one->color, replaces, one->object};
    if ((all & wanted) == wanted) {
        push(tile, command);
    } else {
        for (int row = top; row < bottom;) {
            uint64_t bits = tile->open[row] & wanted;
            int end = row + 1;
            while (end < bottom && (tile->open[end] & wanted) == bits)
                end++;
            command.top = row;
            command.bottom = end;
            while (bits) {
                int from = __builtin_ctzll(bits), to = ~(bits >> from) ? from + __builtin_ctzll(~(bits >> from)) : 64;
                command.left = from;
                command.right = to < 64 ? to : 64;
                push(tile, command);
                bits &= ~columns(from, command.right);
            }
            row = end;
        }
    }
    if (replaces) {
        int row = 0;
        for (row = top; row < bottom; row++)
            tile->open[row] &= ~wanted;
        for (row = 0; row < 64 && !tile->open[row]; row++) {
        }
        tile->covered = row == 64;
    }
}

// The tiles of a frame.
typedef struct { Tile *tiles; int count; int16_t places[ACROSS * DOWN]; } Cut;

static void open_tiles(Cut *cut, const Edges *work, int n, Edges bounds) {
    int room = 0;
    cut->tiles = NULL;
    cut->count = 0;
    memset(cut->places, 0, sizeof cut->places);
    int first = bounds.top / 64 * ACROSS, last = (bounds.bottom + 63) / 64 * ACROSS;
    for (int t = first; t < last; t++) {
        int x = t % ACROSS * 64, y = t / ACROSS * 64;
        Tile *tile = NULL;
        for (int k = 0; k < n; k++) {
            if (work[k].left >= x + 64 || work[k].right <= x || work[k].top >= y + 64 || work[k].bottom <= y)
                continue;
            if (!tile) {
                if (cut->count == room) {
                    room = room ? 2 * room : 4;
                    cut->tiles = realloc(cut->tiles, room * sizeof(Tile));
                }
                tile = &cut->tiles[cut->count++];
                memset(tile, 0, sizeof *tile);
                cut->places[t] = cut->count;
            }
            int left = work[k].left > x ? work[k].left - x : 0, right = work[k].right - x < 64 ? work[k].right - x : 64;
            int top = work[k].top > y ? work[k].top - y : 0, bottom = work[k].bottom - y < 64 ? work[k].bottom - y : 64;
            for (int row = top; row < bottom; row++)
                tile->open[row] |= columns(left, right);
        }
    }
}

static Edges around(const Edges *work, int n) {
    Edges bounds = work[0];
    for (int k = 1; k < n; k++) {
        bounds.left = work[k].left < bounds.left ? work[k].left : bounds.left;
        bounds.right = work[k].right > bounds.right ? work[k].right : bounds.right;
        bounds.top = work[k].top < bounds.top ? work[k].top : bounds.top;
        bounds.bottom = work[k].bottom > bounds.bottom ? work[k].bottom : bounds.bottom;
    }
    return bounds;
}

static uint32_t *found;

static int find(const uint64_t *areas, int n, Edges bounds) {
    const uint64_t marks = 0x8000800080008000ull;
    uint64_t bound = 0x9ffe9ffe9ffe9ffeull - (packed(bounds) << 32 | packed(bounds) >> 32);
    int count = 0, k = 0;
    for (; k + 4 <= n; k += 4) {
        int some = (((bound - areas[k]) & marks) == marks) | (((bound - areas[k + 1]) & marks) == marks)
            | (((bound - areas[k + 2]) & marks) == marks) | (((bound - areas[k + 3]) & marks) == marks);
        if (some)
            for (int j = k; j < k + 4; j++)
                if (((bound - areas[j]) & marks) == marks)
                    found[count++] = j;
    }
    for (; k < n; k++)
        if (((bound - areas[k]) & marks) == marks)
            found[count++] = k;
    return count;
}

static void build(Cut *cut, const Record *records, const uint64_t *areas, int n, const Edges *work, int parts) {
    Edges bounds = around(work, parts);
    int count = find(areas, n, bounds);
    open_tiles(cut, work, parts, bounds);
    while (count) {
        const Record *one = &records[found[--count]];
        Edges seen = {
            one->left > bounds.left ? one->left : bounds.left, one->right < bounds.right ? one->right : bounds.right,
            one->top > bounds.top ? one->top : bounds.top, one->bottom < bounds.bottom ? one->bottom : bounds.bottom};
        for (int y = seen.top / 64; y <= (seen.bottom - 1) / 64; y++)
            for (int x = seen.left / 64; x <= (seen.right - 1) / 64; x++)
                if (cut->places[y * ACROSS + x])
                    take(&cut->tiles[cut->places[y * ACROSS + x] - 1], x * 64, y * 64, one, seen);
    }
}

static void measure(const char *name, int rounds, int n, int least, int most, int opaque, const Edges *work, int parts) {
    Record *records = malloc(n * sizeof *records);
    uint64_t *areas = malloc(n * sizeof *areas), best = ~0ull, commands = 0, pixels = 0;
    dice = 1;
    for (int k = 0; k < n; k++) {
        uint32_t w = least + below(most - least + 1), h = least + below(most - least + 1), x = below(W - w), y = below(H - h);
        Object *object = calloc(1, sizeof *object);
        records[k] = (Record){x, x + w, y, y + h, below(100) < (uint32_t)opaque ? 0xff102030 : 0x80102030, object};
        areas[k] = packed((Edges){x, x + w, y, y + h});
    }
    for (int round = 0; round < rounds; round++) {
        Cut cut;
        uint64_t start = now();
        build(&cut, records, areas, n, work, parts);
        uint64_t took = now() - start;
        best = took < best ? took : best;
        commands = pixels = 0;
        for (int t = 0; t < cut.count; t++) {
            commands += cut.tiles[t].count;
            for (uint32_t k = 0; k < cut.tiles[t].count; k++) {
                Command *one = &cut.tiles[t].commands[k];
                pixels += (one->right - one->left) * (one->bottom - one->top);
                __atomic_fetch_sub(&one->object->shares, 1, __ATOMIC_SEQ_CST);
            }
            free(cut.tiles[t].commands);
        }
        free(cut.tiles);
    }
    printf("%s %lu %lu %lu\n", name, best, commands, pixels);
    for (int k = 0; k < n; k++)
        free(records[k].object);
    free(records);
    free(areas);
}

int main(void) {
    const Edges some[] = {{600, 624, 400, 416}, {600, 616, 416, 424}}, whole[] = {{0, W, 0, H}};
    found = malloc(65536 * sizeof *found);
    measure("cells_of_2000", 2000, 2000, 16, 64, 50, some, 2);
    measure("cells_of_65000", 300, 65000, 16, 64, 50, some, 2);
    measure("whole_of_20000_half", 100, 20000, 16, 64, 50, whole, 1);
    measure("whole_of_20000_blended", 100, 20000, 16, 64, 0, whole, 1);
    measure("whole_of_65536_tiny", 50, 65536, 1, 6, 100, whole, 1);
}

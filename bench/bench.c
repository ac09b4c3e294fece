// Measures the product beside plain C on free grids. bench/run calls it:
//   bench product W H ALLOWANCE   one ordinary job in calls of an allowance; prints its score and a hash of its table and board
//   bench plain W H               the same in plain C
//   bench seconds                 prints a table of user seconds; stops where the product and plain C differ
#include "plain.h"

#include <inttypes.h>
#include <stdbool.h>
#include <stdio.h>
#include <stdlib.h>
#include <string.h>
#include <sys/resource.h>

// The product: see crate solver_c. A slice is passed as its start and its length.
size_t work_in_calls(size_t kind, size_t w, size_t h, const uint8_t *givens, size_t givens_length, uint16_t *table, size_t table_length,
                     uint8_t *board, size_t board_length, uint32_t allowance, size_t calls);

enum { ORDINARY = 0, TWO_LAYERS = 1, HALVES = 2 };
enum { LEFTOVER = 7 };                                   // what a table and a board hold before
enum { LEAST_SIDE = 7, GREATEST_SIDE = 10, TURNS = 3 };  // the squares
enum { TALL_WIDTH = 10, TALL_HEIGHT = 60 };              // the tall grid,
enum { FIRST_LAYERS = 20, LIMIT = 120 };                 // run whole if by its first layers it takes so many seconds at most
static const double LEAST_SECONDS = 0.2;                 // shorter jobs are repeated
static const double MICRO = 1e-6;
static const uint64_t HASH_START = 14695981039346656037u, HASH_FACTOR = 1099511628211u; // FNV-1a's

struct grid {
    size_t w, h, cells, layer, entries;
    uint8_t *givens, *board;
    uint16_t *table;
};

static void fail(const char *why)
{
    fprintf(stderr, "bench: %s\n", why);
    exit(EXIT_FAILURE);
}

static void *lend(size_t bytes)
{
    void *memory = malloc(bytes);
    if (memory == NULL)
        fail("not enough memory");
    memset(memory, LEFTOVER, bytes);
    return memory;
}

// A free grid, with a table of so many layers.
static struct grid free_grid(size_t w, size_t h, size_t layers)
{
    struct grid g = {.w = w, .h = h, .cells = w * h, .layer = (size_t)1 << 2 * w};
    g.entries = layers * g.layer;
    g.givens = lend(g.cells);
    memset(g.givens, 0, g.cells);
    g.board = lend(g.cells);
    g.table = lend(g.entries * sizeof *g.table);
    return g;
}

static void give_back(struct grid g)
{
    free(g.givens);
    free(g.board);
    free(g.table);
}

static size_t work(size_t kind, struct grid g, uint32_t allowance, size_t calls)
{
    return work_in_calls(kind, g.w, g.h, g.givens, g.cells, g.table, g.entries, g.board, g.cells, allowance, calls);
}

// The layers that a job of a kind fills, each as often as it is filled.
static size_t layers_filled(size_t kind, size_t h)
{
    return kind == ORDINARY ? h : h * (h + 1) / 2;
}

// The whole job, in as many calls as its units take: a unit for each entry filled, and one for each row.
static size_t solve(size_t kind, struct grid g, uint32_t allowance)
{
    size_t units = layers_filled(kind, g.h) * g.layer + g.h;
    return work(kind, g, allowance, (units + allowance - 1) / allowance);
}

static size_t product(struct grid g)
{
    return solve(ORDINARY, g, UINT32_MAX);
}

static size_t plain(struct grid g)
{
    return plain_solve(g.w, g.h, g.givens, g.table, g.board);
}

static double user_seconds(void)
{
    struct rusage used;
    getrusage(RUSAGE_SELF, &used);
    return (double)used.ru_utime.tv_sec + MICRO * (double)used.ru_utime.tv_usec;
}

// What a job takes, if less than the least so far.
static void measure(size_t way(struct grid), struct grid g, size_t *score, double *least)
{
    double start = user_seconds(), spent = 0;
    int runs = 0;
    while (spent < LEAST_SECONDS) {
        *score = way(g);
        runs++;
        spent = user_seconds() - start;
    }
    if (*least == 0 || spent / runs < *least)
        *least = spent / runs;
}

static void print_row(const char *name, size_t w, size_t h, double product_seconds, double plain_seconds)
{
    printf("%2zu by %2zu, %-12s %12.4f %12.4f %12.2f\n", w, h, name, product_seconds, plain_seconds, plain_seconds / product_seconds);
    fflush(stdout);
}

static void square(size_t side)
{
    struct grid a = free_grid(side, side, side), b = free_grid(side, side, side);
    double product_seconds = 0, plain_seconds = 0;
    size_t score = 0, plain_score = 0;
    for (int turn = 0; turn < TURNS; turn++) {
        measure(product, a, &score, &product_seconds);
        measure(plain, b, &plain_score, &plain_seconds);
    }
    if (score != plain_score || memcmp(a.table, b.table, a.entries * sizeof *a.table) != 0 || memcmp(a.board, b.board, a.cells) != 0)
        fail("the product and plain C differ on a square");
    print_row("ordinary", side, side, product_seconds, plain_seconds);
    give_back(a);
    give_back(b);
}

// Whether the layers of rows r and r + 1, counted from 0, are the same in a table of two layers and in a whole one.
static bool same_layers(struct grid two, struct grid whole, size_t r)
{
    for (size_t k = r; k < r + HALVES; k++)
        if (memcmp(two.table + (k + 1) % HALVES * two.layer, whole.table + k * whole.layer, two.layer * sizeof *two.table) != 0)
            return false;
    return true;
}

// The tall grid by two layers. Row k's layer is filled again before each of the rows 1 to k: plain C fills each layer once, and its time counts
// so many times.
static void tall(void)
{
    struct grid two = free_grid(TALL_WIDTH, TALL_HEIGHT, HALVES), whole = free_grid(TALL_WIDTH, TALL_HEIGHT, TALL_HEIGHT);
    size_t h = TALL_HEIGHT, layers = layers_filled(TWO_LAYERS, h);
    double plain_seconds = 0;
    for (size_t after = 0; after < h; after++) {
        double start = user_seconds();
        plain_layer(whole.w, h, whole.givens, after, whole.table);
        plain_seconds += (double)(h - after) * (user_seconds() - start);
    }
    size_t plain_score = plain_choose(whole.w, h, whole.givens, whole.table, whole.board);

    double start = user_seconds();
    size_t answer = work(TWO_LAYERS, two, (uint32_t)(FIRST_LAYERS * two.layer), 1);
    double product_seconds = (user_seconds() - start) * (double)layers / FIRST_LAYERS;
    if (answer != UNFINISHED || !same_layers(two, whole, h - FIRST_LAYERS))
        fail("the product and plain C differ on the tall grid's first layers");
    bool run_whole = product_seconds <= LIMIT;
    if (run_whole) {
        start = user_seconds();
        size_t score = solve(TWO_LAYERS, two, UINT32_MAX);
        product_seconds = user_seconds() - start;
        if (score != plain_score || !same_layers(two, whole, h - HALVES) || memcmp(two.board, whole.board, two.cells) != 0)
            fail("the product and plain C differ on the tall grid");
    }
    print_row("two layers", two.w, h, product_seconds, plain_seconds);
    if (run_whole)
        printf("   product: the whole job, run once\n");
    else
        printf("   product: not run whole; its first %d layers of %zu, multiplied out, come to more than %d s\n", FIRST_LAYERS, layers, LIMIT);
    printf("   plain C: not run whole; each of the %zu layers filled once, multiplied out to %zu\n", h, layers);
    give_back(two);
    give_back(whole);
}

static void seconds(void)
{
    printf("%-23s %12s %12s %12s\n", "", "product", "plain C", "C / product");
    for (size_t side = LEAST_SIDE; side <= GREATEST_SIDE; side++)
        square(side);
    tall();
}

static void print_answer(struct grid g, size_t score)
{
    uint64_t hash = HASH_START;
    for (size_t k = 0; k < g.entries; k++)
        hash = (hash ^ g.table[k]) * HASH_FACTOR;
    for (size_t k = 0; k < g.cells; k++)
        hash = (hash ^ g.board[k]) * HASH_FACTOR;
    printf("score %zu, hash %016" PRIx64 "\n", score, hash);
}

static size_t number(const char *text)
{
    return strtoul(text, NULL, 0);
}

int main(int count, char **words)
{
    enum { MODE = 1, WIDTH, HEIGHT, ALLOWANCE, WORDS };
    if (count == WIDTH && strcmp(words[MODE], "seconds") == 0) {
        seconds();
        return EXIT_SUCCESS;
    }
    bool is_product = count == WORDS && strcmp(words[MODE], "product") == 0;
    if (!is_product && (count != ALLOWANCE || strcmp(words[MODE], "plain") != 0))
        fail("expected product W H ALLOWANCE, plain W H, or seconds");
    struct grid g = free_grid(number(words[WIDTH]), number(words[HEIGHT]), number(words[HEIGHT]));
    print_answer(g, is_product ? solve(ORDINARY, g, (uint32_t)number(words[ALLOWANCE])) : plain(g));
    give_back(g);
    return EXIT_SUCCESS;
}

// The product's job as a C programmer would write it plainly: the score table from the last layer up, one entry after the other, each by the
// search for the best row that skips what can't stand; then the rows of the board.
#include "plain.h"

#include <stdbool.h>

enum {
    GIVEN_DEAD = 1,
    GIVEN_LIVE = 2,
    NONE = 65535,             // the entry for none
    GREATEST = 600,           // a number above it counts as none
    SIDE = 3,                 // a pattern is three windows of three cells, the top one first
    WINDOW = (1 << SIDE) - 1,
    TOP = 2 * SIDE,
    MIDDLE = SIDE,
    PATTERNS = 1 << SIDE * SIDE,
    CENTRE = 1 << SIDE * SIDE / 2,
    BIRTH = 3,                // Conway's rule: with so many live neighbours a cell is live next,
    SURVIVAL = 2,             // and with so many it stays live
    RING = 2,                 // the columns beside the grid, 0 and w + 1
    MAX_WIDTH = 10,
    COLUMNS = MAX_WIDTH + RING
};

struct marks {
    unsigned live, dead; // the cells of a row that are given so
};

struct choice {
    unsigned row, sum; // the sum is NONE where no row can stand
};

// Whether a pattern leaves its middle cell as it is.
static bool stays[PATTERNS];

__attribute__((constructor)) static void make_patterns(void)
{
    for (unsigned p = 0; p < PATTERNS; p++) {
        bool live = p & CENTRE;
        int neighbours = __builtin_popcount(p) - live;
        stays[p] = live == (neighbours == BIRTH || (live && neighbours == SURVIVAL));
    }
}

// The cells of a row in columns j - 1, j and j + 1.
static unsigned window(size_t w, unsigned row, size_t j)
{
    return row << (SIDE - 1) >> (w + 1 - j) & WINDOW;
}

// The part of column j's pattern that rows a and b give.
static unsigned upper(size_t w, unsigned a, unsigned b, size_t j)
{
    return window(w, a, j) << TOP | window(w, b, j) << MIDDLE;
}

static bool agree(size_t w, unsigned a, unsigned b, unsigned c)
{
    for (size_t j = 0; j < w + RING; j++)
        if (!stays[upper(w, a, b, j) | window(w, c, j)])
            return false;
    return true;
}

static struct marks marks_of(size_t w, const uint8_t *givens)
{
    struct marks m = {0, 0};
    for (size_t k = 0; k < w; k++) {
        unsigned cell = 1u << (w - 1 - k);
        if (givens[k] == GIVEN_LIVE)
            m.live |= cell;
        if (givens[k] == GIVEN_DEAD)
            m.dead |= cell;
    }
    return m;
}

static bool keeps(struct marks m, unsigned row)
{
    return (row & m.live) == m.live && !(row & m.dead);
}

// The free live cells of a row that keeps its marks.
static unsigned worth(struct marks m, unsigned row)
{
    return (unsigned)__builtin_popcount(row & ~m.live);
}

// The next row that differs from c in columns 1 to j + 1.
static unsigned next_row(size_t w, unsigned c, size_t j)
{
    size_t rest = j + 1 < w ? w - (j + 1) : 0;
    return ((c >> rest) + 1) << rest;
}

// The row below a and b with the greatest sum of its worth and its number, the greatest among equals.
static struct choice best_row(size_t w, unsigned a, unsigned b, struct marks m, const uint16_t *numbers)
{
    unsigned above[COLUMNS];
    for (size_t j = 0; j < w + RING; j++)
        above[j] = upper(w, a, b, j);
    struct choice best = {0, NONE};
    unsigned c = 0;
    while (c < 1u << w) {
        size_t j = 0;
        while (j < w + RING && stays[above[j] | window(w, c, j)])
            j++;
        if (j < w + RING) {
            c = next_row(w, c, j);
            continue;
        }
        if (keeps(m, c) && numbers[c] <= GREATEST) {
            unsigned sum = worth(m, c) + numbers[c];
            if (best.sum == NONE || best.sum <= sum)
                best = (struct choice){c, sum};
        }
        c++;
    }
    return best;
}

void plain_layer(size_t w, size_t h, const uint8_t *givens, size_t after, uint16_t *table)
{
    unsigned rows = 1u << w;
    size_t entries = (size_t)rows * rows;
    size_t below = h - after; // the rows above the row below b
    uint16_t *layer = table + (below - 1) * entries;
    if (after == 0) {
        for (unsigned a = 0; a < rows; a++)
            for (unsigned b = 0; b < rows; b++)
                layer[a * rows + b] = agree(w, a, b, 0) && agree(w, b, 0, 0) ? 0 : NONE;
        return;
    }
    struct marks m = marks_of(w, givens + below * w);
    for (unsigned a = 0; a < rows; a++)
        for (unsigned b = 0; b < rows; b++)
            layer[a * rows + b] = (uint16_t)best_row(w, a, b, m, layer + entries + b * rows).sum;
}

size_t plain_choose(size_t w, size_t h, const uint8_t *givens, const uint16_t *table, uint8_t *board)
{
    size_t rows = (size_t)1 << w, score = 0;
    unsigned above = 0, last = 0;
    for (size_t k = 0; k < h; k++) {
        struct marks m = marks_of(w, givens + k * w);
        struct choice best = best_row(w, above, last, m, table + (k * rows + last) * rows);
        if (best.sum == NONE)
            return NO_BOARD;
        for (size_t j = 0; j < w; j++)
            board[k * w + j] = best.row >> (w - 1 - j) & 1;
        score += worth(m, best.row);
        above = last;
        last = best.row;
    }
    return score;
}

size_t plain_solve(size_t w, size_t h, const uint8_t *givens, uint16_t *table, uint8_t *board)
{
    for (size_t after = 0; after < h; after++)
        plain_layer(w, h, givens, after, table);
    return plain_choose(w, h, givens, table, board);
}

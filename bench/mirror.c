// Solves the free square of an even side by a job of mirror boards, and prints its score, its user seconds and its board. It is for sides whose
// table is more than a program's stack holds, from 18 on; crate mirror_cases has the others. Fails where the board isn't a still mirror board of
// that score.
//   (cd crates/solver_c && rt lib)
//   mkdir -p target/bench
//   gcc -std=c11 -O2 -Wall -Wextra -o target/bench/mirror bench/mirror.c crates/solver_c/out/libsolver_c.a
//   target/bench/mirror 18
#include <stdbool.h>
#include <stdint.h>
#include <stdio.h>
#include <stdlib.h>
#include <string.h>
#include <sys/resource.h>

// The product: see crate solver_c. A slice is passed as its start and its length.
size_t work_in_calls(size_t kind, size_t w, size_t h, const uint8_t *givens, size_t givens_length, uint16_t *table, size_t table_length,
                     uint8_t *board, size_t board_length, uint32_t allowance, size_t calls);

enum { MIRROR = 2 };
enum { WIDEST = 20, LEFTOVER = 7 };
static const double MICRO = 1e-6;

static void fail(const char *why)
{
    fprintf(stderr, "mirror: %s\n", why);
    exit(EXIT_FAILURE);
}

static void *lend(size_t bytes)
{
    void *memory = malloc(bytes);
    if (memory == NULL)
        fail("not enough memory");
    memset(memory, LEFTOVER, bytes);
    return memory;
}

// A cell of the plane: dead outside the board.
static int cell(const uint8_t *board, int side, int row, int column)
{
    bool inside = 0 <= row && row < side && 0 <= column && column < side;
    return inside ? board[row * side + column] : 0;
}

// Whether Conway's rule keeps a cell's state, by a count of its neighbours.
static bool keeps(const uint8_t *board, int side, int row, int column)
{
    int centre = cell(board, side, row, column), live = -centre;
    for (int r = row - 1; r <= row + 1; r++)
        for (int c = column - 1; c <= column + 1; c++)
            live += cell(board, side, r, c);
    return centre == (live == 3 || (live == 2 && centre == 1));
}

static void judge(const uint8_t *board, int side, size_t score)
{
    size_t live = 0;
    for (int r = 0; r < side; r++)
        for (int c = 0; c < side; c++) {
            if (1 < board[r * side + c])
                fail("a cell is no state");
            if (board[r * side + c] != board[r * side + side - 1 - c])
                fail("the board is no mirror board");
            live += board[r * side + c];
        }
    if (live != score)
        fail("the score isn't the number of live cells");
    for (int r = -1; r <= side; r++)
        for (int c = -1; c <= side; c++)
            if (!keeps(board, side, r, c))
                fail("the board isn't still");
}

static void print(const uint8_t *board, int side)
{
    for (int r = 0; r < side; r++) {
        for (int c = 0; c < side; c++)
            putchar(board[r * side + c] == 1 ? 'O' : '.');
        putchar('\n');
    }
}

int main(int count, char **words)
{
    int side = count == 2 ? atoi(words[1]) : 0;
    if (side < 2 || WIDEST < side || side % 2 != 0)
        fail("expected an even side, 2 to 20");
    size_t w = (size_t)side, cells = w * w, entries = w << w; // side layers of 4 to the half of the side
    uint8_t *givens = lend(cells), *board = lend(cells);
    uint16_t *table = lend(entries * sizeof *table);
    memset(givens, 0, cells);
    size_t score = work_in_calls(MIRROR, w, w, givens, cells, table, entries, board, cells, UINT32_MAX, 1);
    if (cells < score)
        fail("no score");
    struct rusage used;
    getrusage(RUSAGE_SELF, &used);
    judge(board, side, score);
    printf("side %d: score %zu, mirror, still, %.2f s\n", side, score, (double)used.ru_utime.tv_sec + MICRO * (double)used.ru_utime.tv_usec);
    print(board, side);
    free(givens);
    free(board);
    free(table);
    return EXIT_SUCCESS;
}

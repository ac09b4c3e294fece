// The product's job in plain C. Grids have w by h cells, w up to 10; their givens are 0 free, 1 given dead, 2 given live; tables hold h layers.
#include <stddef.h>
#include <stdint.h>

// Answers that are no score, the same as solver_c's.
enum { UNFINISHED = 2001, NO_BOARD = 2002 };

// Fills the layer that has so many rows after it, over the one with a row less, which is filled.
void plain_layer(size_t w, size_t h, const uint8_t *givens, size_t after, uint16_t *table);

// Chooses the rows of the board by a table that is filled. The score, or NO_BOARD.
size_t plain_choose(size_t w, size_t h, const uint8_t *givens, const uint16_t *table, uint8_t *board);

// All layers, then the rows.
size_t plain_solve(size_t w, size_t h, const uint8_t *givens, uint16_t *table, uint8_t *board);

/* make_set FILE: writes the set of the response below. Put your own register, chains and cells in its place. */
#include "canceller.h"

#include <stdio.h>
#include <string.h>

/* The register: its width, its tap word, the word of the inputs that are inverted, and for each chain the word of those that it
 * drives. */
static const uint64_t m = 3, taps = 3, inversion = 0;
static const uint64_t spread[] = {1, 4};

/* The response: a line for each slice, the first one clocked in first; in it a cell for each chain, 0, 1 or X. */
static const char *const slices[] = {
    "1X",
    "10",
};

/* The ties, 7 bytes for each tied cell, by slice and then by chain: its slice, its chain and its symbol's number, 2 bytes each, low
 * byte first, and 0 where it holds the symbol or 1 where it holds its opposite. Here every unknown cell is free. With the tie
 * {0, 0, 1, 0, 7, 0, 0} slice 0's cell of chain 1 would hold symbol 7. */
static const uint8_t *const ties = NULL;
static const size_t ties_len = 0;

enum { N = sizeof spread / sizeof spread[0], S = sizeof slices / sizeof slices[0], B = (N + 7) / 8 };

static uint8_t values[S * B], marks[S * B], out[CANCELLER_SET_MAX];

int main(int argc, char **argv) {
    for (int t = 0; t < S; t++) {
        if (strlen(slices[t]) != N || strspn(slices[t], "01X") != N) {
            fprintf(stderr, "slice %d has not one cell, 0, 1 or X, for each chain\n", t);
            return 2;
        }
        for (int c = 0; c < N; c++) {
            uint8_t bit = (uint8_t)(1 << c % 8);
            if (slices[t][c] == '1') values[B * t + c / 8] |= bit;
            if (slices[t][c] == 'X') marks[B * t + c / 8] |= bit;
        }
    }
    canceller_written w = canceller_write_set(m, taps, inversion, spread, N, values, sizeof values, marks, sizeof marks, S, ties,
                                              ties_len, out, sizeof out);
    if (w.refusal) {
        fprintf(stderr, "refused: %d\n", (int)w.refusal);
        return 2;
    }
    FILE *file = argc == 2 ? fopen(argv[1], "wb") : NULL;
    if (!file || fwrite(out, 1, (size_t)w.length, file) != w.length || fclose(file)) {
        fprintf(stderr, "usage: make_set FILE, a file that can be written\n");
        return 2;
    }
    printf("%d bytes\n", (int)w.length);
    return 0;
}

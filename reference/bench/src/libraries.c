/* M4RI and PARI on the canceller's columns, for the benchmark. Each call builds the matrix from 64-bit columns, finds the
 * combinations that are even with every column, and gives how many there are. Built with -DHAVE_M4RI and -DHAVE_PARI. */
#include <stdint.h>
#include <stdlib.h>
#include <string.h>

#ifdef HAVE_M4RI
#include <m4ri/m4ri.h>

/* A matrix with a row of 64 bits for each column. */
static mzd_t *matrix(const uint64_t *columns, size_t count) {
    mzd_t *a = mzd_init((rci_t)count, 64);
    for (size_t i = 0; i < count; i++) a->rows[i][0] = columns[i];
    return a;
}

/* The kernel, by M4RI's own call. */
long bench_m4ri(const uint64_t *columns, size_t count) {
    mzd_t *a = matrix(columns, count);
    mzd_t *kernel = mzd_kernel_left_pluq(a, 0);
    long words = kernel ? kernel->ncols : 0;
    if (kernel) mzd_free(kernel);
    mzd_free(a);
    return words;
}

/* The most careful use: the rows brought to echelon form by the method of the four Russians, and the rank read off. */
long bench_m4ri_careful(const uint64_t *columns, size_t count) {
    mzd_t *a = matrix(columns, count);
    rci_t rank = mzd_echelonize_m4ri(a, 1, 0);
    mzd_free(a);
    return 64 - rank;
}
#endif

#ifdef HAVE_PARI
#include <pari/pari.h>

static int started;

/* 64 columns of `count` bits, and the kernel over GF(2). */
long bench_pari(const uint64_t *columns, size_t count) {
    if (!started) {
        pari_init_opts(256000000, 2, INIT_DFTm);
        started = 1;
    }
    pari_sp before = avma;
    long words = (long)((count + 63) / 64);
    GEN a = cgetg(65, t_MAT);
    for (int j = 0; j < 64; j++) {
        GEN v = cgetg(words + 2, t_VECSMALL);
        v[1] = (long)count;
        for (long i = 0; i < words; i++) v[i + 2] = 0;
        gel(a, j + 1) = v;
    }
    for (size_t i = 0; i < count; i++) {
        uint64_t c = columns[i];
        while (c) {
            int j = __builtin_ctzll(c);
            c &= c - 1;
            gel(a, j + 1)[2 + (long)(i / 64)] |= (long)(1UL << (i % 64));
        }
    }
    GEN kernel = F2m_ker(a);
    long found = lg(kernel) - 1;
    avma = before;
    return found;
}

/* The most careful use: the columns as the 64-bit columns of a matrix of 64 rows, and its rank. */
long bench_pari_careful(const uint64_t *columns, size_t count) {
    if (!started) {
        pari_init_opts(256000000, 2, INIT_DFTm);
        started = 1;
    }
    pari_sp before = avma;
    GEN a = cgetg((long)count + 1, t_MAT);
    for (size_t i = 0; i < count; i++) {
        GEN v = cgetg(3, t_VECSMALL);
        v[1] = 64;
        v[2] = (long)columns[i];
        gel(a, (long)i + 1) = v;
    }
    long rank = F2m_rank(a);
    avma = before;
    return 64 - rank;
}
#endif

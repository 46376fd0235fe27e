/* judge SET SIGNATURE: plans the set and judges the signature, a decimal number. Ends with 0 where it passes, 1 where it fails
 * and 2 where the input is refused or can't be read. */
#include "canceller.h"

#include <errno.h>
#include <stdio.h>
#include <stdlib.h>

/* One byte more than the longest set has, so that a longer file is refused for its length. */
static uint8_t set[CANCELLER_SET_MAX + 1], plan[CANCELLER_PLAN_MAX];
static uint64_t working[CANCELLER_WORKING], words[CANCELLER_WIDTH_MAX];

/* Digits only: strtoull alone would take "x" as 0, and "-1". */
static int read_signature(const char *text, uint64_t *signature) {
    for (const char *c = text; *c; c++)
        if (*c < '0' || *c > '9') return 0;
    errno = 0;
    *signature = strtoull(text, NULL, 10);
    return *text && !errno;
}

static int read_file(const char *path, size_t *length) {
    FILE *file = fopen(path, "rb");
    if (!file) return 0;
    *length = fread(set, 1, sizeof set, file);
    int failed = ferror(file);
    fclose(file);
    return !failed;
}

static int refused(uint64_t number) {
    fprintf(stderr, "refused: %d\n", (int)number);
    return 2;
}

static int judge(size_t set_len, uint64_t signature) {
    canceller_planned p = canceller_plan(set, set_len, working, sizeof working / 8, words, sizeof words / 8);
    if (p.refusal) return refused(p.refusal);
    canceller_written w = canceller_write_plan(p.m, words, (size_t)p.q, p.expected, plan, sizeof plan);
    if (w.refusal) return refused(w.refusal);
    canceller_judged j = canceller_judge(plan, (size_t)w.length, signature);
    if (j.refusal) return refused(j.refusal);
    if (j.failed) {
        printf("fails at word %d\n", (int)j.index);
        return 1;
    }
    printf("passes\n");
    return 0;
}

int main(int argc, char **argv) {
    uint64_t signature;
    size_t set_len;
    if (argc != 3) {
        fprintf(stderr, "usage: judge SET SIGNATURE\n");
        return 2;
    }
    if (!read_signature(argv[2], &signature)) {
        fprintf(stderr, "%s is not a signature: a number from 0 to 2^64 - 1\n", argv[2]);
        return 2;
    }
    if (!read_file(argv[1], &set_len)) {
        fprintf(stderr, "%s can't be read\n", argv[1]);
        return 2;
    }
    return judge(set_len, signature);
}

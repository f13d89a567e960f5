/* Comparing what a call answers with what it should. */
#ifndef CHECK_H
#define CHECK_H
#include <stdio.h>
#include <stdlib.h>

static int wrong;

static inline void expect(const char *what, uint64_t got, uint64_t wanted)
{
    if (got != wanted) {
        printf("%s: got %llu, wanted %llu\n", what, (unsigned long long)got, (unsigned long long)wanted);
        wrong++;
    }
}

/* The word of a refusal. */
static inline uint64_t refusal(uint64_t number) { return UINT64_C(1) << 63 | number; }
#endif

/* report.c - the report program in plain C11 over the independent implementation
 * (baseline.c), to compare and to measure ours with; perf/report builds and runs it.
 * It reads and prints map by map, so its memory does not grow with the input. */
#include "baseline.h"
#include <inttypes.h>
#include <stdio.h>

enum { MAX_SLOTS = 1024, MAX_FILE = 14345, COUNTS = 6, BAD_CALL = 1, BAD_FILE = 11 };

static uint32_t table[6 * MAX_SLOTS], store[16 * MAX_SLOTS];
static uint8_t file[MAX_FILE];

/* The next two bytes as a number, the lower first, or -1 where they are not there. */
static long two(void)
{
    const int low = getchar(), high = getchar();
    return high == EOF ? -1 : low | (long)high << 8;
}

/* Counts the map of a file; 0, or the number of the refusal, as the bench program gives it. */
static uint32_t count(size_t length, uint32_t *counts)
{
    if (length < 3) return BAD_FILE;
    const uint32_t n = file[0], slots = file[1] | (uint32_t)file[2] << 8;
    if (slots > MAX_SLOTS) return BAD_CALL;
    uint64_t answer = base_load(n, slots, table, 6 * slots, file, length);
    if (answer == 0) answer = base_count(n, slots, table, 6 * slots, store, 16 * slots, counts, COUNTS);
    return answer >> 63 ? (uint32_t)(answer & 255) : 0;
}

static void print(const uint32_t *counts)
{
    for (int e = 0; e < COUNTS; e++) printf("%" PRIu32 "%c", counts[e], e + 1 < COUNTS ? ' ' : '\n');
}

/* Prints a line for each map; 0 where a byte is missing or too many, or a length is too large. */
static int report(void)
{
    uint32_t counts[COUNTS], totals[COUNTS] = { 0 };
    long maps = two();
    if (maps < 0) return 0;
    for (; maps > 0; maps--) {
        const long length = two();
        if (length < 0 || length > MAX_FILE || fread(file, 1, (size_t)length, stdin) != (size_t)length) return 0;
        const uint32_t number = count((size_t)length, counts);
        if (number) printf("refused %" PRIu32 "\n", number);
        else print(counts);
        for (int e = 0; e < COUNTS && !number; e++) totals[e] += counts[e];
    }
    if (getchar() != EOF) return 0;
    print(totals);
    return 1;
}

int main(void)
{
    if (!report()) printf("refused %d\n", BAD_FILE);
    return fflush(stdout) != 0;
}

/* apply SCHEME MAP DART [OTHER]: applies the scheme in the file SCHEME to the map in the file MAP at a dart, or at two, and prints the
 * answer, the cells before and after, and the live records after.
 *
 * MAP is text: `n N` and `slots S`, then a line for each live dart: its slot, its links a0 to an, its tag; # starts a comment.
 * Unused records and the working store are filled with a pattern, so that a kernel that consults them is seen. */
#include "gmap.h"
#include <inttypes.h>
#include <stdio.h>
#include <stdlib.h>
#include <string.h>

enum { MOST = 1024, LONGEST = 548, RECORD = 6, ROW = 16, TAG = 5 };

static uint32_t n, slots, table[RECORD * MOST], before[RECORD * MOST], store[ROW * MOST];

static void fail(const char *path, const char *why)
{
    fprintf(stderr, "%s: %s\n", path, why);
    exit(2);
}

/* Reads a line without its comment; false at the end of the file, true also for a line with nothing in it. */
static int line_of(FILE *file, char *line, int room)
{
    if (!fgets(line, room, file)) return 0;
    line[strcspn(line, "#\n")] = 0;
    return 1;
}

static void read_map(const char *path)
{
    char line[256];
    FILE *file = fopen(path, "r");
    if (!file) fail(path, "cannot be opened");
    while (line_of(file, line, sizeof line)) {
        uint32_t v[7];
        if (sscanf(line, " n %" SCNu32, &n) == 1) continue;
        if (sscanf(line, " slots %" SCNu32, &slots) == 1) {
            if (slots > MOST) fail(path, "more than 1024 slots");
            for (uint32_t w = 0; w < RECORD * slots; w++) table[w] = w % RECORD ? 0xDEAD0000u + w : 0;
            continue;
        }
        int got = sscanf(line, "%" SCNu32 "%" SCNu32 "%" SCNu32 "%" SCNu32 "%" SCNu32 "%" SCNu32, v, v + 1, v + 2, v + 3, v + 4, v + 5);
        if (got <= 0) continue;
        if (got != (int)n + 3 || v[0] >= slots) fail(path, "a record is not slot, links, tag");
        uint32_t *record = table + RECORD * v[0];
        record[0] = 1;
        for (uint32_t i = 0; i < 4; i++) record[1 + i] = i <= n ? v[1 + i] : v[0];
        record[TAG] = v[n + 2];
    }
    fclose(file);
}

static size_t read_scheme(const char *path, uint8_t *bytes, size_t room)
{
    FILE *file = fopen(path, "rb");
    if (!file) fail(path, "cannot be opened");
    size_t length = fread(bytes, 1, room, file);
    fclose(file);
    return length;
}

static uint32_t dart_of(const char *word)
{
    if (!word[0] || strspn(word, "0123456789") != strlen(word) || strlen(word) > 9) fail(word, "no dart's number");
    return (uint32_t)strtoul(word, NULL, 10);
}

/* How many orbits the links in `set` (bit i for ai) part the live darts into. */
static uint32_t cells(const uint32_t *t, uint32_t set)
{
    static uint8_t seen[MOST];
    static uint32_t queue[MOST];
    uint32_t found = 0;
    memset(seen, 0, sizeof seen);
    for (uint32_t x = 0; x < slots; x++) {
        if (t[RECORD * x] != 1 || seen[x]) continue;
        uint32_t size = 1;
        found++;
        queue[0] = x;
        seen[x] = 1;
        for (uint32_t head = 0; head < size; head++)
            for (uint32_t i = 0; i <= n; i++) {
                uint32_t y = t[RECORD * queue[head] + 1 + i];
                if (!(set >> i & 1) || seen[y]) continue;
                seen[y] = 1;
                queue[size++] = y;
            }
    }
    return found;
}

static void print_cells(const char *when, const uint32_t *t)
{
    uint32_t all = (1u << (n + 1)) - 1;
    printf("%s: points %" PRIu32 ", edges %" PRIu32 ", faces %" PRIu32, when, cells(t, all & ~1u), cells(t, all & ~2u), cells(t, all & ~4u));
    if (n == 3) printf(", volumes %" PRIu32, cells(t, all & ~8u));
    printf(", pieces %" PRIu32 "\n", cells(t, all));
}

static void print_records(void)
{
    printf("slot %s tag\n", n == 2 ? "a0 a1 a2" : "a0 a1 a2 a3");
    for (uint32_t x = 0; x < slots; x++) {
        const uint32_t *record = table + RECORD * x;
        if (record[0] != 1) continue;
        printf("%4" PRIu32, x);
        for (uint32_t i = 0; i <= n; i++) printf(" %2" PRIu32, record[1 + i]);
        printf(" %" PRIu32 "\n", record[TAG]);
    }
}

int main(int argc, char **argv)
{
    uint8_t scheme[LONGEST + 1];
    if (argc != 4 && argc != 5) fail("usage", "apply SCHEME MAP DART [OTHER]");
    uint32_t dart = dart_of(argv[3]), other = argc == 5 ? dart_of(argv[4]) : 0;
    size_t length = read_scheme(argv[1], scheme, sizeof scheme);
    read_map(argv[2]);
    if (gmap_check_table(n, slots, table, RECORD * slots) != 0) fail(argv[2], "not well-formed");
    if (gmap_check_scheme(scheme, length) != 0) fail(argv[1], "not accepted");
    memcpy(before, table, sizeof table);
    memset(store, 0x5A, sizeof store);

    uint64_t answer = argc == 4 ? gmap_edit(n, slots, table, RECORD * slots, store, ROW * slots, scheme, length, dart)
                                : gmap_edit2(n, slots, table, RECORD * slots, store, ROW * slots, scheme, length, dart, other);
    if (gmap_number(answer) != 0) printf("refused %" PRIu32 "\n", gmap_number(answer));
    else printf("done: orbit %" PRIu32 ", added %" PRIu32 ", deleted %" PRIu32 "\n", gmap_orbit(answer), gmap_added(answer), gmap_deleted(answer));
    for (uint32_t w = 0; w < ROW * slots; w++)
        if (store[w] != 0) fail("working store", "not zero");
    for (uint32_t x = 0; x < slots; x++) {
        const uint32_t *now = table + RECORD * x, *then = before + RECORD * x, zero[RECORD] = { 0 };
        if (now[0] == 0 && memcmp(now, then[0] ? zero : then, sizeof zero)) fail("an unused record", "changed, or not zero once deleted");
    }
    if (gmap_check_table(n, slots, table, RECORD * slots) != 0) fail("the map", "not well-formed afterwards");
    print_cells("before", before);
    print_cells("after", table);
    print_records();
    return 0;
}

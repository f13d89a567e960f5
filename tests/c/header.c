/* What gmap.h has beside the calls: the words of the answers, the beginning of a file, more room after refusal 10, the places of the
 * counts, the version. */
#include "gmap.h"
#include "check.h"
#include <string.h>

#if !defined GMAP_VERSION || GMAP_VERSION < 300 || GMAP_VERSION >= 400
#error "this program is written for version 3.0 of gmap.h"
#endif

enum { N = 3, MORE = 4 };

static const uint8_t V[20] = { 2, 2, 0, 2, 2, 2, 0, 2, 255, 2, 3, 255, 255, 1, 2, 0, 1, 0, 0, 1 };

/* Each answer has words of its own, and a number that is no answer has others. */
static void words(void)
{
    const char *none = gmap_words(GMAP_SHORT_OUTPUT + 1);
    for (uint32_t a = GMAP_DONE; a <= GMAP_SHORT_OUTPUT; a++) {
        expect("words: some", strlen(gmap_words(a)) > 3, 1);
        expect("words: not those of no answer", strcmp(gmap_words(a), none) != 0, 1);
        for (uint32_t b = 0; b < a; b++) expect("words: its own", strcmp(gmap_words(a), gmap_words(b)) != 0, 1);
    }
    expect("words: no answer", strcmp(gmap_words(UINT32_MAX), none), 0);
    expect("words: done", strcmp(gmap_words(GMAP_DONE), "done"), 0);
    expect("words: of an answer",
           strcmp(gmap_words(gmap_number(gmap_check_scheme(V, 3))), "the scheme's bytes are damaged, or it is for another number of darts"), 0);
}

/* The beginning of a file says which table it is for, of any size, and a file too short says nothing. */
static void beginning(void)
{
    static const uint8_t large[3] = { 3, 0, 4 }, odd[4] = { 9, 255, 254, 7 };
    expect("n", gmap_file_n(large, 3), 3);
    expect("slots", gmap_file_slots(large, 3), GMAP_MAX_SLOTS);
    expect("n, not one the kernel takes", gmap_file_n(odd, 4), 9);
    expect("slots, the lower byte first", gmap_file_slots(odd, 4), 65279);
    for (size_t length = 0; length < 3; length++) {
        uint32_t table[GMAP_RECORD];
        expect("n, too short", gmap_file_n(large, length), 0);
        expect("slots, too short", gmap_file_slots(large, length), 0);
        expect("load, too short", gmap_load(gmap_file_n(large, length), gmap_file_slots(large, length), table, 0, large, length), refusal(1));
    }
}

/* The sample map E in three slots has no room for V. Enlarged as the header says, it is the same map, and has. */
static void more_room(void)
{
    static const uint32_t darts[2 * GMAP_RECORD] = { 1, 1, 0, 0, 0, 7, 1, 0, 1, 1, 1, 9 };
    uint32_t table[GMAP_RECORD * N], larger[GMAP_RECORD * MORE], again[GMAP_RECORD * MORE], store[GMAP_STORE * MORE];
    uint32_t slots = N, more = MORE;
    uint8_t file[64];
    memset(table, 0, sizeof table);
    memset(larger, 0x5A, sizeof larger);
    memcpy(table, darts, sizeof darts);
    expect("no room", gmap_edit(2, slots, table, GMAP_RECORD * slots, store, GMAP_STORE * slots, V, sizeof V, 0), refusal(GMAP_NO_ROOM));

    memcpy(larger, table, sizeof *table * GMAP_RECORD * slots);
    memset(larger + GMAP_RECORD * slots, 0, sizeof *larger * GMAP_RECORD * (more - slots));
    expect("enlarged", gmap_check_table(2, more, larger, GMAP_RECORD * more), 0);
    expect("enlarged, the same darts", memcmp(larger, darts, sizeof darts), 0);
    expect("room", gmap_edit(2, more, larger, GMAP_RECORD * more, store, GMAP_STORE * more, V, sizeof V, 0), 2 | UINT64_C(2) << 21);

    size_t length = (size_t)gmap_length(gmap_write(2, more, larger, GMAP_RECORD * more, file, sizeof file));
    expect("file length", length, gmap_file_length(2, 4));
    expect("file, n", gmap_file_n(file, length), 2);
    expect("file, slots", gmap_file_slots(file, length), MORE);
    expect("load", gmap_load(gmap_file_n(file, length), gmap_file_slots(file, length), again, GMAP_RECORD * more, file, length), 0);
    expect("check", gmap_check_table(2, more, again, GMAP_RECORD * more), 0);
    expect("load, the same", memcmp(again, larger, sizeof again), 0);
}

/* Two faces of two edges each, which meet at one of them: no two counts are equal, so each is found at its own place. */
static void places_of_counts(void)
{
    enum { DARTS = 8 };
    static const uint32_t links[DARTS][3] = { { 1, 0, 0 }, { 0, 2, 1 }, { 3, 1, 5 }, { 2, 3, 4 }, { 5, 4, 3 }, { 4, 6, 2 }, { 7, 5, 6 }, { 6, 7, 7 } };
    uint32_t table[GMAP_RECORD * DARTS], store[GMAP_STORE * DARTS], counts[GMAP_COUNTS] = { 9, 9, 9, 9, 9, 9 };
    for (uint32_t x = 0; x < DARTS; x++) {
        uint32_t record[GMAP_RECORD] = { 1, links[x][0], links[x][1], links[x][2], x, 0 };
        memcpy(table + GMAP_RECORD * x, record, sizeof record);
    }
    expect("count", gmap_count(2, DARTS, table, GMAP_RECORD * DARTS, store, GMAP_STORE * DARTS, counts, GMAP_COUNTS), 0);
    expect("count, live darts", counts[GMAP_LIVE], 8);
    expect("count, vertices", counts[GMAP_VERTICES], 4);
    expect("count, edges", counts[GMAP_EDGES], 3);
    expect("count, faces", counts[GMAP_FACES], 2);
    expect("count, pieces", counts[GMAP_PIECES], 1);
    expect("count, volumes", counts[GMAP_VOLUMES], 0);
}

int main(void)
{
    words();
    beginning();
    more_room();
    places_of_counts();
    if (wrong == 0) puts("header: all as wanted");
    return wrong != 0;
}

/* controller PART ARCHIVE: a shift at a small cell, as an integrator would write it.
 *
 * It loads the part's map file and checks it, splits an edge, drops a piece, adds a flange, trims it in a table that is full, sews it to
 * a flange of another lot, joins the two ends by a strip, half of which is of each lot, and writes the archive's map file. Before the
 * first edit and after the last it counts the part's vertices, edges, faces and pieces.
 * A part that is broken is shown as it was loaded, with the links that break it, and the shift ends there.
 * Every answer of the kernel is printed in words; the exit status is 0 only where the archive file was written.
 *
 *   tools/archive libkernel.a
 *   cc -Iinclude examples/controller/controller.c libkernel.a -o controller */
#include "gmap.h"
#include "operations.h"
#include <inttypes.h>
#include <stdio.h>
#include <stdlib.h>
#include <string.h>

/* Every buffer is as large as the largest part needs, so nothing is allocated while the cell runs. */
static uint32_t table[GMAP_RECORD * GMAP_MAX_SLOTS];
static uint32_t store[GMAP_STORE * GMAP_MAX_SLOTS];
static uint8_t file[GMAP_MAX_FILE + 1];
static uint32_t n, slots;

/* The table before the last edit, to compare lots and unused slots with. New darts cannot be told by it: one may stand in a slot that was
 * live, in the place of a dart that the same edit deleted. How many are new and how many are gone, the answer says. */
static uint32_t before[GMAP_RECORD * GMAP_MAX_SLOTS];

/* The part's dart that the operator points at for each operation; for sewing and joining two darts, one on each edge. */
enum { EDGE = 8, PIECE = 0, FLANGE = 10, SEAM = 1, OTHER_SEAM = 23, END = 15, OTHER_END = 18 };

/* Prints an answer, with the node of a refused scheme, and says whether the call was done. */
static int told(const char *what, uint64_t answer)
{
    uint32_t number = gmap_number(answer);
    if (number == GMAP_DONE) printf("%s: done", what);
    else printf("%s: refused %" PRIu32 ", %s", what, number, gmap_words(number));
    if (number == GMAP_BAD_HOOK || number == GMAP_BAD_INCIDENCE || number == GMAP_BAD_CYCLE) printf(" (node %" PRIu32 ")", gmap_node(answer));
    if (number == GMAP_BAD_CYCLE) printf(" (dimensions %" PRIu32 " and %" PRIu32 ")", gmap_i(answer), gmap_j(answer));
    printf("\n");
    return number == GMAP_DONE;
}

/* The number of unused slots of a table. */
static uint32_t unused_in(const uint32_t *of)
{
    uint32_t unused = 0;
    for (uint32_t x = 0; x < slots; x++) unused += of[GMAP_RECORD * x + GMAP_STATE] == 0;
    return unused;
}

/* Prints the answer of an edit, with its counts and the room before and after it, and says whether it was done. */
static int edited(const char *what, uint64_t answer)
{
    if (!told(what, answer)) return 0;
    printf("  %" PRIu32 " darts matched, %" PRIu32 " added, %" PRIu32 " deleted; ", gmap_orbit(answer), gmap_added(answer), gmap_deleted(answer));
    printf("%" PRIu32 " unused slots before, %" PRIu32 " after\n", unused_in(before), unused_in(table));
    return 1;
}

/* Keeps the table as it is now. */
static void keep_table(void) { memcpy(before, table, sizeof before); }

/* After an edit that found too little room, gives the part twice the slots, or as many as there may be, and says whether to try again.
 * The records stay as they are, and those that come are unused. */
static int made_room(const char *what, uint64_t answer)
{
    if (gmap_number(answer) != GMAP_NO_ROOM || slots == GMAP_MAX_SLOTS) return 0;
    told(what, answer);
    uint32_t more = slots > GMAP_MAX_SLOTS / 2 ? GMAP_MAX_SLOTS : 2 * slots;
    memset(table + GMAP_RECORD * slots, 0, sizeof *table * GMAP_RECORD * (more - slots));
    slots = more;
    printf("  the part gets %" PRIu32 " slots\n", slots);
    return 1;
}

/* Applies a stored operation where the operator points. */
static int apply(const char *what, const uint8_t *scheme, size_t length, uint32_t dart)
{
    uint64_t answer;
    do {
        keep_table();
        answer = gmap_edit(n, slots, table, GMAP_RECORD * slots, store, GMAP_STORE * slots, scheme, length, dart);
    } while (made_room(what, answer));
    return edited(what, answer);
}

/* Applies a stored operation with two hooks where the operator points at two darts. */
static int apply_at_two(const char *what, const uint8_t *scheme, size_t length, uint32_t dart, uint32_t other)
{
    uint64_t answer;
    do {
        keep_table();
        answer = gmap_edit2(n, slots, table, GMAP_RECORD * slots, store, GMAP_STORE * slots, scheme, length, dart, other);
    } while (made_room(what, answer));
    return edited(what, answer);
}

/* Whether there is a dart x. A link of a broken part may be any number, so this is asked before the record that it leads to is read. */
static int live(uint32_t x) { return x < slots && table[GMAP_RECORD * x + GMAP_STATE] == 1; }

/* The i-link of a dart that there is. */
static uint32_t link_of(uint32_t x, uint32_t i) { return table[GMAP_RECORD * x + GMAP_LINK + i]; }

/* The number of darts of a lot in the slots from `from` on of a table. */
static uint32_t darts_of(uint32_t lot, const uint32_t *of, uint32_t from)
{
    uint32_t darts = 0;
    for (uint32_t x = from; x < slots; x++) darts += of[GMAP_RECORD * x + GMAP_STATE] == 1 && of[GMAP_RECORD * x + GMAP_TAG] == lot;
    return darts;
}

/* Lists the lots on the part, as the label printer would, each with its number of darts, and with the number before where it has changed. */
static void print_lots(void)
{
    for (uint32_t x = 0; x < slots; x++) {
        uint32_t lot = table[GMAP_RECORD * x + GMAP_TAG], darts = darts_of(lot, table, 0), old = darts_of(lot, before, 0);
        if (!live(x) || darts_of(lot, table, x) != darts) continue; /* it is listed at its first dart */
        printf("  lot %" PRIu32 ": %" PRIu32 " darts", lot, darts);
        if (darts != old) printf(", %" PRIu32 " before", old);
        printf("\n");
    }
}

/* Lists the links of a broken part that lead nowhere or not back, as the drawing office would mark them, and says whether there are any. */
static int print_bad_links(void)
{
    int found = 0;
    for (uint32_t x = 0; x < slots; x++)
        for (uint32_t i = 0; live(x) && i <= n; i++) {
            uint32_t y = link_of(x, i);
            if (live(y) && link_of(y, i) == x) continue;
            printf("  dart %" PRIu32 ": a%" PRIu32 " leads to %" PRIu32 ", ", x, i, y);
            if (y >= slots) printf("and the table has %" PRIu32 " slots\n", slots);
            else printf(live(y) ? "which does not lead back\n" : "which is unused\n");
            found = 1;
        }
    return found;
}

/* Lists the darts of a part without bad links from which two links in turn, each taken twice, lead elsewhere and not back. */
static void print_tears(void)
{
    for (uint32_t x = 0; x < slots; x++)
        for (uint32_t i = 0; live(x) && i <= n; i++)
            for (uint32_t j = i + 2; j <= n; j++) {
                uint32_t y = link_of(link_of(link_of(link_of(x, i), j), i), j);
                if (y != x) printf("  dart %" PRIu32 ": a%" PRIu32 " a%" PRIu32 " a%" PRIu32 " a%" PRIu32 " lead to %" PRIu32 "\n", x, i, j, i, j, y);
            }
}

/* Loads the part, well-formed or not; its file begins with the table it is for. */
static int load_part(const char *path)
{
    FILE *in = fopen(path, "rb");
    if (!in) {
        perror(path);
        return 0;
    }
    size_t length = fread(file, 1, sizeof file, in);
    int damaged = ferror(in);
    if (damaged) perror(path);
    fclose(in);
    if (damaged) return 0;
    if (length < 3) {
        printf("%s: too short for a map file\n", path);
        return 0;
    }
    n = gmap_file_n(file, length);
    slots = gmap_file_slots(file, length);
    if (slots > GMAP_MAX_SLOTS) {
        printf("%s: for a table of %" PRIu32 " slots, and this cell has %d\n", path, slots, GMAP_MAX_SLOTS);
        return 0;
    }
    return told("load the part", gmap_load(n, slots, table, GMAP_RECORD * slots, file, length));
}

/* Checks the part. The table of a broken one stays as loaded, so what is wrong with it can be shown. */
static int check_part(void)
{
    if (told("check the table", gmap_check_table(n, slots, table, GMAP_RECORD * slots))) return 1;
    if (!print_bad_links()) print_tears();
    return 0;
}

/* Counts the part, and says how many vertices, edges and faces it has, and in how many pieces. */
static int count_part(void)
{
    uint32_t counts[GMAP_COUNTS];
    if (!told("count the part", gmap_count(n, slots, table, GMAP_RECORD * slots, store, GMAP_STORE * slots, counts, GMAP_COUNTS))) return 0;
    printf("  %" PRIu32 " vertices, %" PRIu32 " edges, %" PRIu32 " faces in %" PRIu32 " %s\n", counts[GMAP_VERTICES], counts[GMAP_EDGES],
           counts[GMAP_FACES], counts[GMAP_PIECES], counts[GMAP_PIECES] == 1 ? "piece" : "pieces");
    return 1;
}

static int write_archive(const char *path)
{
    uint64_t answer = gmap_write(n, slots, table, GMAP_RECORD * slots, file, sizeof file);
    if (!told("write the archive file", answer)) return 0;
    size_t length = (size_t)gmap_length(answer);
    printf("  %zu bytes\n", length);
    FILE *out = fopen(path, "wb");
    if (!out || fwrite(file, 1, length, out) != length || fclose(out) != 0) {
        perror(path);
        return 0;
    }
    return 1;
}

int main(int argc, char **argv)
{
    if (argc != 3) {
        fprintf(stderr, "usage: controller PART ARCHIVE\n");
        return 2;
    }
    if (!load_part(argv[1])) return 1;
    keep_table();
    print_lots();
    if (!check_part() || !count_part()) return 1;

    /* Schemes are tested again by every edit; this finds a damaged one before the operator can pick it. */
    if (!told("check the stored operation", gmap_check_scheme(add_flange, sizeof add_flange))) return 1;

    if (!apply("split the edge", split_edge, sizeof split_edge, EDGE)) return 1;
    if (!apply("drop the piece", drop_piece, sizeof drop_piece, PIECE)) return 1;
    print_lots();

    /* The piece is gone, so pointing at it again is refused, and a refused edit changes no record. */
    apply("drop it again", drop_piece, sizeof drop_piece, PIECE);

    /* The flange takes slots that the dropped piece left, and the lot of the sheet that it grows on. */
    if (!apply("add a flange", add_flange, sizeof add_flange, FLANGE)) return 1;
    print_lots();

    /* The table is full. A smaller flange replaces this one all the same: its darts take slots that come free in the same edit. */
    if (!apply("trim the flange", trim_flange, sizeof trim_flange, FLANGE)) return 1;
    print_lots();

    /* A side of the flange and one of the piece of lot 4713 become one edge, and each keeps its lot; then neither edge is free any more. */
    if (!apply_at_two("sew the two flanges", sew_edges, sizeof sew_edges, SEAM, OTHER_SEAM)) return 1;
    print_lots();
    apply_at_two("sew them again", sew_edges, sizeof sew_edges, SEAM, OTHER_SEAM);

    /* The strip grows on both ends: its scheme names the end that each half grows on as the donor of the lot. */
    if (!apply_at_two("join the two ends", join_flanges_by_strip, sizeof join_flanges_by_strip, END, OTHER_END)) return 1;
    print_lots();
    return count_part() && write_archive(argv[2]) ? 0 : 1;
}

/* Scheme check, edit at one dart and at two, load, write and count through the C interface: the samples P4 to P13, every answer of each
 * call, the order of refusals and of the pairs of a refusal 5, what each call leaves in each buffer, whose tag and which slot a new dart
 * takes, and the counts of maps whose cells are known. */
#include "gmap.h"
#include "check.h"
#include <string.h>

enum { N = 8, UNUSED = 5, JUNK = 0x5A };

static const uint8_t V[20] = { 2, 2, 0, 2, 2, 2, 0, 2, 255, 2, 3, 255, 255, 1, 2, 0, 1, 0, 0, 1 };
static const uint8_t W[13] = { 2, 0, 2, 2, 2, 1, 0, 0, 1, 1, 0, 0, 1 };
static const uint8_t X[15] = { 2, 3, 0, 1, 2, 1, 1, 0, 1, 2, 255, 255, 255, 0, 0 };
static const uint8_t P5[17] = { 2, 2, 0, 2, 2, 2, 0, 2, 255, 2, 3, 255, 255, 1, 2, 0, 0 };
static const uint8_t P6[23] = { 2, 2, 0, 2, 2, 2, 0, 2, 255, 2, 3, 255, 255, 1, 255, 0, 2, 0, 0, 1, 2, 1, 1 };
static const uint8_t P7[20] = { 2, 2, 0, 1, 2, 2, 0, 1, 0, 1, 3, 255, 255, 0, 2, 0, 1, 1, 1, 1 };
static const uint8_t unreached[7] = { 2, 0, 2, 2, 2, 0, 0 };
static const uint8_t added_hook[6] = { 2, 0, 1, 3, 0, 0 };

/* Schemes with a second hook. Two free edges are sewn: */
enum { SEW_WORD = 5, SEW_WORD2 = 8, SEW_HOOK = 10, SEAM_HOOK = 16 };
static const uint8_t sew[22] = { 34, 1, 0, 2, 2, 0, 0, 2, 0, 0, 1, 2, 2, 0, 0, 2, 1, 1, 1, 2, 0, 1 };
/* ... with a face of two edges between them, which is added: */
static const uint8_t seam[34] = { 34, 1, 0, 4, 2, 0, 0, 2, 0, 0, 3, 255, 0, 3, 255, 0, 1, 2, 2, 0, 0, 2, 1, 1, 3, 1, 2, 3, 2, 0, 2, 2, 1, 3 };
/* Two corners exchange their sides; the hooks are nodes 0 and 2, and node 3 is reached from the second alone: */
static const uint8_t swap[22] = { 34, 0, 4, 2, 2, 2, 2, 2, 2, 1, 0, 1, 1, 2, 3, 2, 1, 0, 2, 1, 1, 3 };
/* Two pieces go: */
static const uint8_t drop[23] = { 34, 3, 0, 1, 2, 2, 1, 0, 1, 2, 255, 255, 255, 1, 0, 1, 2, 255, 255, 255, 1, 0, 0 };
/* With n = 3, two faces are sewn: */
static const uint8_t sew3[27] = { 35, 2, 0, 1, 2, 2, 0, 1, 0, 1, 2, 0, 1, 0, 1, 1, 2, 3, 0, 0, 3, 1, 1, 1, 3, 0, 1 };
/* Refused: node 1 is reached from neither hook (3); two edges would be sewn with their 0-links apart (5): */
static const uint8_t no_way[16] = { 34, 1, 0, 3, 2, 0, 0, 2, 255, 255, 2, 0, 0, 2, 0, 0 };
static const uint8_t torn[25] = { 34, 1, 0, 2, 2, 0, 0, 2, 0, 255, 1, 2, 2, 0, 0, 2, 1, 1, 2, 0, 1, 1, 2, 0, 1 };

/* Schemes with donors. V, whose added node has node 0 for a donor: */
enum { V_DONOR = 15, GROW_DONOR = 5, RENEW_DONOR = 6, SEAM_DONOR = 13, SEAM_DONOR2 = 17 };
static const uint8_t V_donor[21] = { 18, 2, 0, 2, 2, 2, 0, 2, 255, 2, 3, 255, 255, 1, 2, 0, 0, 1, 0, 0, 1 };
/* A lone dart is added at an edge; its donor is the other dart of the edge, a later node: */
static const uint8_t grow[24] = { 18, 0, 3, 2, 3, 2, 2, 1, 0, 0, 2, 4, 0, 0, 2, 0, 1, 1, 1, 1, 1, 2, 1, 1 };
/* The other dart of an edge goes, and one that is added in its place has it for a donor: */
static const uint8_t renew[33] = { 18, 0, 3, 2, 1, 3, 1, 4, 0, 0, 1, 1, 1, 1, 2, 0, 0, 2, 1, 1, 4, 0, 0, 2, 1, 2, 2, 2, 0, 0, 2, 2, 2 };
/* A piece goes, and a copy of it is added: */
static const uint8_t renew_piece[23] = { 18, 3, 0, 1, 2, 2, 1, 0, 1, 2, 255, 255, 255, 3, 255, 255, 255, 0, 1, 2, 0, 0, 0 };
/* The seam, with the hook that each side grows on for a donor; the second has its other hook after the added nodes: */
static const uint8_t seam_lots[36] = { 50, 1, 0, 4, 2, 0, 0, 2, 0, 0, 3, 255, 0, 0, 3, 255, 0, 1, 1, 2, 2, 0, 0, 2, 1, 1, 3, 1, 2, 3, 2, 0, 2, 2, 1, 3 };
static const uint8_t seam_last[36] = { 50, 1, 0, 4, 2, 0, 0, 3, 255, 0, 0, 3, 255, 0, 3, 2, 0, 0, 3, 2, 2, 0, 0, 2, 3, 3, 3, 1, 1, 2, 2, 0, 1, 2, 2, 3 };
/* With n = 3, a lone dart is added: */
static const uint8_t grow3[20] = { 19, 0, 2, 2, 3, 0, 0, 4, 0, 1, 1, 1, 1, 1, 2, 1, 1, 3, 1, 1 };

/* Schemes that delete and add. The darts of an edge go, and each of the two that are added has the other's tag: */
static const uint8_t exchange[41] = { 18, 0, 4, 1, 1, 3, 1, 3, 0, 5, 0, 0, 1, 1, 0, 0, 1, 1, 1, 2, 0, 0, 2, 1, 1,
                                      5, 0, 2, 3, 1, 2, 2, 1, 3, 3, 2, 2, 2, 2, 3, 3 };
/* ... of two pieces, where the new ones have each other's tags: */
static const uint8_t exchange2[39] = { 50, 3, 0, 1, 2, 4, 1, 0, 1, 2, 255, 255, 255, 1, 0, 1, 2, 255, 255, 255,
                                       3, 255, 255, 255, 0, 1, 2, 1, 3, 255, 255, 255, 0, 1, 2, 0, 1, 0, 0 };
/* A piece goes, and its dual is added: its 0-links become 2-links, and with n = 3 the 0-links 3-links, the 1-links 2-links: */
static const uint8_t dual[22] = { 2, 3, 0, 1, 2, 2, 1, 0, 1, 2, 255, 255, 255, 3, 255, 255, 255, 2, 1, 0, 0, 0 };
static const uint8_t dual3[27] = { 3, 4, 0, 1, 2, 3, 2, 1, 0, 1, 2, 3, 255, 255, 255, 255, 3, 255, 255, 255, 255, 3, 2, 1, 0, 0, 0 };
/* An edge goes, with both sides, and one like it comes beside the map; what was next to it on one side is joined to what was on the other: */
static const uint8_t take_off[28] = { 2, 2, 0, 2, 3, 1, 0, 2, 255, 255, 2, 255, 255, 255, 1, 3, 255, 255, 0, 2, 1, 1, 0, 1, 1, 1, 2, 2 };

/* The file of the sample map E: n, N, then slots, tags and links, each after their count. */
enum { SLOT = 5, TAG = 11, LINK = 21 };
static const uint8_t file[33] = { 2, N, 0, 2, 0, 0, 0, 1, 0, 2, 0, 7, 0, 0, 0, 9, 0, 0, 0, 2, 0, 1, 0, 0, 0, 0, 0, 0, 0, 1, 0, 1, 0 };

/* With n = 3: darts 2 and 5, joined by a0 and a3. */
static const uint8_t file3[37] = { 3, N, 0, 2, 0, 2, 0, 5, 0, 2, 0, 4, 3, 2, 1, 255, 255, 255, 255, 2, 0, 5, 0, 2, 0, 2, 0, 5, 0, 2, 0, 5, 0, 5, 0, 2, 0 };

static uint32_t table[GMAP_RECORD * N], before[GMAP_RECORD * N], store[GMAP_STORE * N];
static uint8_t out[64];
static uint32_t counts[GMAP_COUNTS + 2];

static uint64_t refused(uint64_t number, uint64_t node, uint64_t i, uint64_t j)
{
    return refusal(number) | node << 8 | i << 16 | j << 24;
}
static uint64_t edited(uint64_t orbit, uint64_t added, uint64_t deleted) { return orbit | added << 21 | deleted << 42; }

/* The sample map E; unused words hold anything, and so do store and output. */
static void sample(void)
{
    static const uint32_t darts[12] = { 1, 1, 0, 0, 0, 7, 1, 0, 1, 1, 1, 9 };
    for (uint32_t w = 0; w < GMAP_RECORD * N; w++) table[w] = w % GMAP_RECORD ? 900u + w : 0;
    memcpy(table, darts, sizeof darts);
    memcpy(before, table, sizeof table);
    memset(store, JUNK, sizeof store);
    memset(out, JUNK, sizeof out);
}

static int all(const void *buffer, size_t length, uint8_t byte)
{
    const uint8_t *b = buffer;
    while (length > 0 && *b == byte) b++, length--;
    return length == 0;
}

static uint64_t edit(uint32_t n, uint32_t slots, const uint8_t *scheme, size_t length, uint32_t dart)
{
    return gmap_edit(n, slots, table, GMAP_RECORD * slots, store, GMAP_STORE * slots, scheme, length, dart);
}

/* An edit of the table as it stands that is refused: no record changes, and the store is zero, save after 1. */
static void refuse(const char *what, uint64_t answer, uint64_t wanted, uint32_t slots)
{
    expect(what, answer, wanted);
    expect("  table unchanged", memcmp(table, before, sizeof table) == 0, 1);
    expect("  store", all(store, 4 * GMAP_STORE * slots, gmap_number(wanted) == 1 ? JUNK : 0), 1);
    expect("  store beyond its length", all(store + GMAP_STORE * slots, sizeof store - 4 * GMAP_STORE * slots, JUNK), 1);
    memset(store, JUNK, sizeof store);
}

static void record(const char *what, uint32_t x, uint32_t a0, uint32_t a1, uint32_t a2, uint32_t a3, uint32_t tag)
{
    uint32_t wanted[GMAP_RECORD] = { 1, a0, a1, a2, a3, tag };
    for (uint32_t w = 0; w < GMAP_RECORD; w++) expect(what, table[GMAP_RECORD * x + w], wanted[w]);
}

static void schemes(void)
{
    uint8_t longer[600] = { 2, 0, 17 };
    expect("P4", gmap_check_scheme(V, sizeof V), 0);
    expect("W", gmap_check_scheme(W, sizeof W), 0);
    expect("X", gmap_check_scheme(X, sizeof X), 0);
    expect("P5", gmap_check_scheme(P5, sizeof P5), refused(4, 0, 0, 0));
    expect("P6", gmap_check_scheme(P6, sizeof P6), refused(5, 0, 0, 2));
    expect("P7", gmap_check_scheme(P7, sizeof P7), refused(5, 1, 0, 2));
    expect("a node not reached", gmap_check_scheme(unreached, sizeof unreached), refused(3, 1, 0, 0));
    expect("the hook is added", gmap_check_scheme(added_hook, sizeof added_hook), refused(3, 0, 0, 0));
    expect("node of a refusal", gmap_node(refused(5, 1, 0, 2)), 1);
    expect("pair of a refusal", gmap_i(refused(5, 1, 1, 3)) * 10 + gmap_j(refused(5, 1, 1, 3)), 13);
    for (size_t length = 0; length < sizeof V; length++) expect("V cut short", gmap_check_scheme(V, length), refusal(2));
    expect("17 nodes", gmap_check_scheme(longer, 3 + 17 + 2), refusal(2));
    memset(longer, 0, sizeof longer);
    memcpy(longer, V, sizeof V);
    expect("a byte too many", gmap_check_scheme(longer, sizeof V + 1), refusal(2));
    expect("600 bytes", gmap_check_scheme(longer, sizeof longer), refusal(2));
}

/* Node 1 is added, with all dimensions in its right word, in every order. Two of them close a cycle unless they stand side by side, and
 * the first pair that closes none is refused. */
static void pairs(void)
{
    static const uint8_t tried[3][2] = { { 0, 2 }, { 0, 3 }, { 1, 3 } };
    for (uint8_t n = 2; n <= 3; n++)
        for (uint32_t order = 0; order < 1u << 2 * (n + 1); order++) {
            uint8_t scheme[27] = { n, n + 1 }, at[4], k = n + 1, *word = scheme + 5 + 4 * k;
            uint32_t seen = 0, first = 0, tries = n == 2 ? 1 : 3;
            scheme[2 + k] = 2;
            scheme[3 + k] = 2;
            scheme[4 + 3 * k] = 3;
            for (uint8_t p = 0; p < k; p++) {
                scheme[2 + p] = scheme[4 + k + p] = scheme[4 + 2 * k + p] = p;
                scheme[5 + 3 * k + p] = 255;
                word[p] = order >> 2 * p & 3;
                at[word[p]] = p;
                seen |= 1u << word[p];
            }
            if (seen != (1u << k) - 1) continue;
            while (first < tries && abs(at[tried[first][0]] - at[tried[first][1]]) > 1) first++;
            expect("pairs", gmap_check_scheme(scheme, 7 + 5 * k), first < tries ? refused(5, 1, tried[first][0], tried[first][1]) : 0);
        }
}

static void edits(void)
{
    sample();
    expect("P8", edit(2, N, V, sizeof V, 0), edited(2, 2, 0));
    record("P8, dart 0", 0, 2, 0, 0, 0, 7);
    record("P8, dart 1", 1, 3, 1, 1, 1, 9);
    record("P8, dart 2", 2, 0, 3, 2, 2, 7);
    record("P8, dart 3", 3, 1, 2, 3, 3, 9);
    expect("P8, other records", memcmp(table + 4 * GMAP_RECORD, before + 4 * GMAP_RECORD, 4 * 4 * GMAP_RECORD) == 0, 1);
    expect("P8, store", all(store, sizeof store, 0), 1);

    sample();
    refuse("P9, N = 3", edit(2, 3, V, sizeof V, 0), refusal(10), 3);
    expect("P9, N = 4", edit(2, 4, V, sizeof V, 0), edited(2, 2, 0));
    sample();
    expect("P10", edit(2, N, W, sizeof W, 0), edited(1, 0, 0));
    expect("P10, nothing changed", memcmp(table, before, sizeof table) == 0, 1);
    expect("P10, store", all(store, sizeof store, 0), 1);
    sample();
    table[GMAP_LINK] = 0;
    table[GMAP_RECORD + GMAP_LINK] = 1;
    memcpy(before, table, sizeof table);
    refuse("P11", edit(2, N, W, sizeof W, 0), refusal(9), N);
    sample();
    expect("P12", edit(2, N, X, sizeof X, 0), edited(2, 0, 2));
    expect("P12, both records zero", all(table, 2 * 4 * GMAP_RECORD, 0), 1);
    expect("P12, other records", memcmp(table + 2 * GMAP_RECORD, before + 2 * GMAP_RECORD, 6 * 4 * GMAP_RECORD) == 0, 1);

    sample();
    refuse("1, n", edit(1, N, V, sizeof V, 0), refusal(1), N);
    refuse("1, store", gmap_edit(2, N, table, GMAP_RECORD * N, store, GMAP_STORE * N - 1, V, sizeof V, 0), refusal(1), N);
    refuse("1, table", gmap_edit(2, N, table, GMAP_RECORD * N - 1, store, GMAP_STORE * N, V, sizeof V, 0), refusal(1), N);
    refuse("1 before 2", edit(4, N, V, 3, 0), refusal(1), N);
    refuse("2", edit(2, N, V, 19, 0), refusal(2), N);
    refuse("2 before 8", edit(2, N, V, 19, 99), refusal(2), N);
    refuse("3 before 6", edit(3, N, unreached, sizeof unreached, 0), refused(3, 1, 0, 0), N);
    refuse("4", edit(2, N, P5, sizeof P5, 0), refused(4, 0, 0, 0), N);
    refuse("5 before 8", edit(2, N, P7, sizeof P7, 99), refused(5, 1, 0, 2), N);
    refuse("6 before 8", edit(3, N, V, sizeof V, 99), refusal(6), N);
    refuse("8, unused", edit(2, N, V, sizeof V, 5), refusal(8), N);
    refuse("8, N", edit(2, N, V, sizeof V, N), refusal(8), N);
    refuse("8, 2^32 - 1", edit(2, N, V, sizeof V, UINT32_MAX), refusal(8), N);
    refuse("8 before 10", edit(2, 3, V, sizeof V, 2), refusal(8), 3);
    table[GMAP_RECORD * 5] = 2;
    memcpy(before, table, sizeof table);
    refuse("6 before 7", edit(3, N, V, sizeof V, 0), refusal(6), N);
    refuse("7 before 8", edit(2, N, V, sizeof V, 5), refusal(7), N);
}

/* A scheme with another byte somewhere. */
static const uint8_t *but(const uint8_t *scheme, size_t length, size_t at, uint8_t byte)
{
    static uint8_t changed[64];
    memcpy(changed, scheme, length);
    changed[at] = byte;
    return changed;
}

static void schemes_with_two_hooks(void)
{
    static const uint8_t no_node[] = { 0, 2, 3, 15, 16, 34, 254, 255 }, no_left_node[] = { 0, 2, 3, 4, 255 };
    static const uint8_t added_first[] = { 34, 0, 2, 3, 2, 1, 0, 0 };
    static const uint8_t no_way_one_hook[] = { 2, 0, 4, 2, 2, 2, 2, 2, 1, 0, 1, 1, 2, 3, 2, 1, 0, 2, 1, 1, 3 };
    static const uint8_t lacks[] = { 34, 1, 0, 2, 2, 0, 0, 2, 0, 0, 1, 2, 2, 0, 0, 2, 1, 1, 1, 2, 0, 0 };

    expect("two hooks", gmap_check_scheme(sew, sizeof sew), 0);
    expect("two hooks, nodes are added", gmap_check_scheme(seam, sizeof seam), 0);
    expect("two hooks, nodes reached from the second", gmap_check_scheme(swap, sizeof swap), 0);
    expect("two hooks, both deleted", gmap_check_scheme(drop, sizeof drop), 0);
    expect("two hooks, n = 3", gmap_check_scheme(sew3, sizeof sew3), 0);
    for (uint32_t first = 0; first < 256; first++)
        expect("first byte", gmap_check_scheme(but(sew, sizeof sew, 0, (uint8_t)first), sizeof sew), (first & ~17u) == 34 ? 0 : refusal(2));
    expect("V with the mark", gmap_check_scheme(but(V, sizeof V, 0, 34), sizeof V), refusal(2));
    for (size_t length = 0; length < sizeof sew; length++) expect("two hooks, cut short", gmap_check_scheme(sew, length), refusal(2));
    expect("two hooks, a byte too many", gmap_check_scheme(but(sew, sizeof sew, sizeof sew, 0), sizeof sew + 1), refusal(2));
    for (size_t e = 0; e < sizeof no_node; e++)
        expect("no second hook", gmap_check_scheme(but(sew, sizeof sew, SEW_HOOK, no_node[e]), sizeof sew), refusal(2));
    for (size_t e = 0; e < sizeof no_left_node; e++)
        expect("no second hook, or an added one", gmap_check_scheme(but(seam, sizeof seam, SEAM_HOOK, no_left_node[e]), sizeof seam), refusal(2));

    expect("3, node 0 is added", gmap_check_scheme(added_first, sizeof added_first), refused(3, 0, 0, 0));
    expect("3, node 0's word", gmap_check_scheme(but(sew, sizeof sew, SEW_WORD, 1), sizeof sew), refused(3, 0, 0, 0));
    expect("3, the second hook's word", gmap_check_scheme(but(sew, sizeof sew, SEW_WORD2, 1), sizeof sew), refused(3, 1, 0, 0));
    expect("3, the second hook without a word", gmap_check_scheme(but(sew, sizeof sew, SEW_WORD2, 255), sizeof sew), refused(3, 1, 0, 0));
    uint8_t both[sizeof sew];
    memcpy(both, but(sew, sizeof sew, SEW_WORD, 1), sizeof sew);
    expect("3, node 0 before the second hook", gmap_check_scheme(but(both, sizeof both, SEW_WORD2, 1), sizeof both), refused(3, 0, 0, 0));
    expect("3, reached from neither", gmap_check_scheme(no_way, sizeof no_way), refused(3, 1, 0, 0));
    expect("3, the second hook before the unreached", gmap_check_scheme(but(no_way, sizeof no_way, 11, 1), sizeof no_way), refused(3, 2, 0, 0));
    expect("3, reached from the second hook, which is not named", gmap_check_scheme(no_way_one_hook, sizeof no_way_one_hook), refused(3, 2, 0, 0));
    expect("4 at the second hook", gmap_check_scheme(lacks, sizeof lacks), refused(4, 1, 0, 0));
    expect("5 between the hooks", gmap_check_scheme(torn, sizeof torn), refused(5, 0, 0, 2));
}

static void schemes_with_donors(void)
{
    static const uint8_t no_left_node[] = { 1, 2, 3, 15, 16, 17, 18, 254, 255 };
    static const uint8_t twice[] = { 18, 2, 0, 2, 2, 2, 0, 2, 255, 2, 0, 3, 255, 255, 1, 2, 0, 0, 1, 0, 0, 1 };
    static const uint8_t misplaced[] = { 18, 2, 0, 2, 2, 2, 0, 2, 255, 2, 0, 3, 255, 255, 1, 2, 0, 1, 0, 0, 1 };
    static const uint8_t added_first[] = { 18, 0, 2, 3, 1, 2, 0, 0 };

    expect("donors", gmap_check_scheme(V_donor, sizeof V_donor), 0);
    expect("donors, a later node", gmap_check_scheme(grow, sizeof grow), 0);
    expect("donors, a deleted node", gmap_check_scheme(renew, sizeof renew), 0);
    expect("donors, the hook is deleted", gmap_check_scheme(renew_piece, sizeof renew_piece), 0);
    expect("donors, two hooks", gmap_check_scheme(seam_lots, sizeof seam_lots), 0);
    expect("donors, two hooks, added nodes between", gmap_check_scheme(seam_last, sizeof seam_last), 0);
    expect("donors, n = 3", gmap_check_scheme(grow3, sizeof grow3), 0);
    expect("donors, no node is added", gmap_check_scheme(but(W, sizeof W, 0, 18), sizeof W), 0);
    expect("donors, no node is added, all are deleted", gmap_check_scheme(but(X, sizeof X, 0, 18), sizeof X), 0);
    for (uint32_t first = 0; first < 256; first++)
        expect("donors, first byte", gmap_check_scheme(but(V_donor, sizeof V_donor, 0, (uint8_t)first), sizeof V_donor),
               first == 18 ? 0 : first == 19 ? refused(4, 1, 0, 0) : refusal(2));
    expect("donors, V has none", gmap_check_scheme(but(V, sizeof V, 0, 18), sizeof V), refusal(2));
    expect("donors, seam has none", gmap_check_scheme(but(seam, sizeof seam, 0, 50), sizeof seam), refusal(2));
    expect("donors, after a preserved node too", gmap_check_scheme(twice, sizeof twice), refusal(2));
    expect("donors, after a preserved node alone", gmap_check_scheme(misplaced, sizeof misplaced), refusal(2));
    for (size_t length = 0; length < sizeof V_donor; length++) expect("donors, cut short", gmap_check_scheme(V_donor, length), refusal(2));
    for (size_t length = 0; length < sizeof seam_lots; length++) expect("donors, cut short", gmap_check_scheme(seam_lots, length), refusal(2));
    expect("donors, a byte too many", gmap_check_scheme(but(V_donor, sizeof V_donor, sizeof V_donor, 0), sizeof V_donor + 1), refusal(2));
    for (size_t e = 0; e < sizeof no_left_node; e++)
        expect("no donor, or an added one", gmap_check_scheme(but(V_donor, sizeof V_donor, V_DONOR, no_left_node[e]), sizeof V_donor), refusal(2));
    for (uint32_t donor = 0; donor < 256; donor++)
        expect("each donor of grow", gmap_check_scheme(but(grow, sizeof grow, GROW_DONOR, (uint8_t)donor), sizeof grow),
               donor == 0 || donor == 2 ? 0 : refusal(2));
    for (uint32_t donor = 0; donor < 256; donor++)
        expect("each second donor of seam", gmap_check_scheme(but(seam_lots, sizeof seam_lots, SEAM_DONOR2, (uint8_t)donor), sizeof seam_lots),
               donor < 2 ? 0 : refusal(2));
    expect("3, node 0 is added, with a donor", gmap_check_scheme(added_first, sizeof added_first), refused(3, 0, 0, 0));
    expect("2 before 3, its own donor", gmap_check_scheme(but(added_first, sizeof added_first, 4, 0), sizeof added_first), refusal(2));
    expect("3, the second hook's word, after donors", gmap_check_scheme(but(seam_last, sizeof seam_last, 16, 1), sizeof seam_last), refused(3, 3, 0, 0));
    expect("4, donors", gmap_check_scheme(but(V_donor, sizeof V_donor, 13, 255), sizeof V_donor), refused(4, 1, 0, 0));
}

/* The longest scheme in the form with these marks in its first byte. Sixty-four left arcs need six left nodes, so with donors ten nodes
 * are added, and without them none. */
static size_t longest(uint8_t *scheme, uint32_t marks)
{
    uint32_t left = marks & 16 ? 6 : 16;
    uint8_t *b = scheme;
    *b++ = (uint8_t)(3 + marks), *b++ = 4;
    for (uint8_t i = 0; i < 4; i++) *b++ = i;
    *b++ = 16;
    for (uint32_t v = 0; v < 16; v++) {
        *b++ = v < left ? 2 : 3;
        for (uint32_t p = 0; p < 8; p++) *b++ = v >= left && p < 4 ? 255 : (uint8_t)(p % 4);
        if (v >= left) *b++ = (uint8_t)(v % left);
    }
    if (marks & 32) *b++ = (uint8_t)(left - 1);
    *b++ = 64;
    for (uint32_t a = 0, i = 0; i < 4; i++)
        for (uint32_t v = 0; v < left; v++)
            for (uint32_t w = v; w < (left == 16 ? v + 1 : left) && a < 64; w++, a++) *b++ = (uint8_t)i, *b++ = (uint8_t)v, *b++ = (uint8_t)w;
    *b++ = 64;
    for (uint32_t a = 0; a < 64; a++) *b++ = (uint8_t)(a / 16), *b++ = (uint8_t)(a % 16), *b++ = (uint8_t)(a % 16);
    return (size_t)(b - scheme);
}

static void longest_schemes(void)
{
    static const struct { uint32_t marks; size_t length; uint64_t number, node; } form[] = {
        { 0, 537, 3, 1 }, { 32, 538, 3, 1 }, { 16, 547, 4, 0 }, { 48, GMAP_MAX_SCHEME, 4, 0 },
    };
    for (size_t e = 0; e < sizeof form / sizeof form[0]; e++) {
        uint8_t scheme[GMAP_MAX_SCHEME + 1] = { 0 };
        expect("the longest scheme in the form, length", longest(scheme, form[e].marks), form[e].length);
        expect("the longest scheme in the form", gmap_check_scheme(scheme, form[e].length), refused(form[e].number, form[e].node, 0, 0));
        expect("the longest scheme, cut short", gmap_check_scheme(scheme, form[e].length - 1), refusal(2));
        expect("a longer scheme", gmap_check_scheme(scheme, form[e].length + 1), refusal(2));
    }
}

/* Two edges, 0-1 and 4-6, or with i = 1 two corners; all other links are loops. Unused words hold anything, and so does the store. */
static void two_edges(uint32_t i)
{
    static const uint32_t from[4] = { 0, 1, 4, 6 }, to[4] = { 1, 0, 6, 4 }, tag[4] = { 7, 9, 11, 13 };
    sample();
    for (uint32_t e = 0; e < 4; e++) {
        uint32_t x = from[e], record[GMAP_RECORD] = { 1, x, x, x, x, tag[e] };
        record[GMAP_LINK + i] = to[e];
        memcpy(table + GMAP_RECORD * x, record, sizeof record);
    }
    memcpy(before, table, sizeof table);
}

/* The records of the slots that are not in the list are as before, and the store is zero. */
static void others(const char *what, uint32_t slots)
{
    for (uint32_t x = 0; x < N; x++)
        if (!(slots >> x & 1)) expect(what, memcmp(table + GMAP_RECORD * x, before + GMAP_RECORD * x, 4 * GMAP_RECORD) == 0, 1);
    expect(what, all(store, sizeof store, 0), 1);
}

static uint64_t edit2(uint32_t n, uint32_t slots, const uint8_t *scheme, size_t length, uint32_t dart, uint32_t other)
{
    return gmap_edit2(n, slots, table, GMAP_RECORD * slots, store, GMAP_STORE * slots, scheme, length, dart, other);
}

static void edits_at_two_darts(void)
{
    enum { EDGES = 1 << 0 | 1 << 1 | 1 << 4 | 1 << 6 };
    two_edges(0);
    expect("sew 0 and 6", edit2(2, N, sew, sizeof sew, 0, 6), edited(2, 0, 0));
    record("sew, dart 0", 0, 1, 0, 6, 0, 7);
    record("sew, dart 1", 1, 0, 1, 4, 1, 9);
    record("sew, dart 4", 4, 6, 4, 1, 4, 11);
    record("sew, dart 6", 6, 4, 6, 0, 6, 13);
    others("sew, other records and store", EDGES);
    expect("sew, check", gmap_check_table(2, N, table, GMAP_RECORD * N), 0);
    memcpy(before, table, sizeof table);
    memset(store, JUNK, sizeof store);
    refuse("9, no edge is free any more", edit2(2, N, sew, sizeof sew, 0, 6), refusal(9), N);

    two_edges(0);
    expect("sew 0 and 4, the other way round", edit2(2, N, sew, sizeof sew, 0, 4), edited(2, 0, 0));
    record("the other way round, dart 0", 0, 1, 0, 4, 0, 7);
    record("the other way round, dart 1", 1, 0, 1, 6, 1, 9);
    record("the other way round, dart 4", 4, 6, 4, 0, 4, 11);
    record("the other way round, dart 6", 6, 4, 6, 1, 6, 13);
    others("the other way round, other records and store", EDGES);

    two_edges(0);
    expect("seam", edit2(2, N, seam, sizeof seam, 0, 6), edited(2, 4, 0));
    record("seam, dart 0", 0, 1, 0, 2, 0, 7);
    record("seam, dart 1", 1, 0, 1, 5, 1, 9);
    record("seam, dart 4", 4, 6, 4, 7, 4, 11);
    record("seam, dart 6", 6, 4, 6, 3, 6, 13);
    record("seam, new dart 2", 2, 5, 3, 0, 2, 7);
    record("seam, new dart 3", 3, 7, 2, 6, 3, 7);
    record("seam, new dart 5", 5, 2, 7, 1, 5, 9);
    record("seam, new dart 7", 7, 3, 5, 4, 7, 9);
    others("seam, store", 255);
    expect("seam, check", gmap_check_table(2, N, table, GMAP_RECORD * N), 0);

    two_edges(0);
    expect("seam from the other side", edit2(2, N, seam, sizeof seam, 6, 0), edited(2, 4, 0));
    record("seam from the other side, new dart 2", 2, 5, 3, 4, 2, 11);
    record("seam from the other side, new dart 3", 3, 7, 2, 1, 3, 11);
    record("seam from the other side, new dart 5", 5, 2, 7, 6, 5, 13);
    record("seam from the other side, new dart 7", 7, 3, 5, 0, 7, 13);

    two_edges(0);
    refuse("10", edit2(2, 7, seam, sizeof seam, 0, 6), refusal(10), 7);
    two_edges(0);
    expect("two pieces go", edit2(2, N, drop, sizeof drop, 0, 4), edited(2, 0, 4));
    for (uint32_t x = 0; x < N; x++)
        if (EDGES >> x & 1) expect("two pieces go, records", all(table + GMAP_RECORD * x, 4 * GMAP_RECORD, 0), 1);
    others("two pieces go, other records and store", EDGES);

    two_edges(1);
    expect("swap", edit2(2, N, swap, sizeof swap, 0, 6), edited(1, 0, 0));
    record("swap, dart 0", 0, 0, 6, 0, 0, 7);
    record("swap, dart 1", 1, 1, 4, 1, 1, 9);
    record("swap, dart 4", 4, 4, 1, 4, 4, 11);
    record("swap, dart 6", 6, 6, 0, 6, 6, 13);
    others("swap, other records and store", EDGES);

    two_edges(0);
    expect("n = 3", edit2(3, N, sew3, sizeof sew3, 1, 4), edited(2, 0, 0));
    record("n = 3, dart 0", 0, 1, 0, 0, 6, 7);
    record("n = 3, dart 1", 1, 0, 1, 1, 4, 9);
    record("n = 3, dart 4", 4, 6, 4, 4, 1, 11);
    record("n = 3, dart 6", 6, 4, 6, 6, 0, 13);
    others("n = 3, other records and store", EDGES);
}

static void edits_with_donors(void)
{
    sample();
    expect("donor 0", edit(2, N, V_donor, sizeof V_donor, 0), edited(2, 2, 0));
    uint32_t with_donor[GMAP_RECORD * N];
    memcpy(with_donor, table, sizeof table);
    sample();
    expect("no donor", edit(2, N, V, sizeof V, 0), edited(2, 2, 0));
    expect("donor 0 is as no donor", memcmp(table, with_donor, sizeof table), 0);
    sample();
    expect("no node is added", edit(2, N, but(W, sizeof W, 0, 18), sizeof W, 0), edited(1, 0, 0));
    others("no node is added, nothing changed", 0);

    sample();
    expect("the other dart of the edge", edit(2, N, grow, sizeof grow, 0), edited(1, 1, 0));
    record("the other dart, new dart 2", 2, 2, 2, 2, 2, 9);
    others("the other dart, other records and store", 1 << 2);
    sample();
    expect("the other dart, from dart 1", edit(2, N, grow, sizeof grow, 1), edited(1, 1, 0));
    record("from dart 1, new dart 2", 2, 2, 2, 2, 2, 7);
    others("from dart 1, other records and store", 1 << 2);
    sample();
    expect("the dart itself", edit(2, N, but(grow, sizeof grow, GROW_DONOR, 0), sizeof grow, 0), edited(1, 1, 0));
    record("the dart itself, new dart 2", 2, 2, 2, 2, 2, 7);

    sample();
    expect("the donor goes", edit(2, N, renew, sizeof renew, 0), edited(1, 1, 1));
    record("the donor goes, dart 0", 0, 1, 0, 0, 0, 7);
    record("the donor goes, the new dart in its slot", 1, 0, 1, 1, 1, 9);
    others("the donor goes, other records and store", 3);
    sample();
    expect("another node goes", edit(2, N, but(renew, sizeof renew, RENEW_DONOR, 0), sizeof renew, 0), edited(1, 1, 1));
    record("another node goes, the new dart in its slot", 1, 0, 1, 1, 1, 7);
    sample();
    expect("the piece goes", edit(2, N, renew_piece, sizeof renew_piece, 1), edited(2, 2, 2));
    record("the piece goes, new dart 0", 0, 1, 0, 0, 0, 7);
    record("the piece goes, new dart 1", 1, 0, 1, 1, 1, 9);
    others("the piece goes, other records and store", 3);
    two_edges(0);
    expect("donors, n = 3", edit(3, N, grow3, sizeof grow3, 6), edited(1, 1, 0));
    record("donors, n = 3, new dart 2", 2, 2, 2, 2, 2, 13);
    others("donors, n = 3, other records and store", 1 << 2);

    sample();
    refuse("donors, 2, an added node", edit(2, N, but(V_donor, sizeof V_donor, V_DONOR, 1), sizeof V_donor, 0), refusal(2), N);
    refuse("donors, 2, no node", edit(2, N, but(V_donor, sizeof V_donor, V_DONOR, 2), sizeof V_donor, 0), refusal(2), N);
    refuse("donors, 2, none there", edit(2, N, but(V, sizeof V, 0, 18), sizeof V, 0), refusal(2), N);
    refuse("donors, 2, two hooks", edit(2, N, seam_lots, sizeof seam_lots, 0), refusal(2), N);
    refuse("donors, 2 before 6 and 8", edit(3, N, but(V_donor, sizeof V_donor, V_DONOR, 1), sizeof V_donor, 99), refusal(2), N);
    refuse("donors, 6", edit(3, N, V_donor, sizeof V_donor, 0), refusal(6), N);
    refuse("donors, 8", edit(2, N, V_donor, sizeof V_donor, UNUSED), refusal(8), N);
    refuse("donors, 10", edit(2, 3, V_donor, sizeof V_donor, 0), refusal(10), 3);
}

/* A seam between 0 and 6: each of its darts has the tag of the dart that it is joined to. */
static void seam_of_two_lots(const char *what, const uint8_t *scheme, size_t length)
{
    two_edges(0);
    expect(what, edit2(2, N, scheme, length, 0, 6), edited(2, 4, 0));
    record(what, 0, 1, 0, 2, 0, 7);
    record(what, 1, 0, 1, 5, 1, 9);
    record(what, 4, 6, 4, 7, 4, 11);
    record(what, 6, 4, 6, 3, 6, 13);
    record(what, 2, 5, 3, 0, 2, 7);
    record(what, 3, 7, 2, 6, 3, 13);
    record(what, 5, 2, 7, 1, 5, 9);
    record(what, 7, 3, 5, 4, 7, 11);
    others(what, 255);
    expect(what, gmap_check_table(2, N, table, GMAP_RECORD * N), 0);
}

static void edits_with_donors_at_two_darts(void)
{
    static const uint32_t new_darts[4] = { 2, 3, 5, 7 };
    uint8_t exchanged[sizeof seam_lots];
    seam_of_two_lots("seam of two lots", seam_lots, sizeof seam_lots);
    seam_of_two_lots("seam of two lots, the second hook last", seam_last, sizeof seam_last);

    two_edges(0);
    expect("two lots from the other side", edit2(2, N, seam_lots, sizeof seam_lots, 6, 0), edited(2, 4, 0));
    record("two lots from the other side, new dart 2", 2, 5, 3, 4, 2, 11);
    record("two lots from the other side, new dart 3", 3, 7, 2, 1, 3, 9);
    record("two lots from the other side, new dart 5", 5, 2, 7, 6, 5, 13);
    record("two lots from the other side, new dart 7", 7, 3, 5, 0, 7, 7);

    memcpy(exchanged, but(seam_lots, sizeof seam_lots, SEAM_DONOR, 1), sizeof exchanged);
    exchanged[SEAM_DONOR2] = 0;
    two_edges(0);
    expect("lots exchanged", edit2(2, N, exchanged, sizeof exchanged, 0, 6), edited(2, 4, 0));
    static const uint32_t tags[4] = { 13, 7, 11, 9 };
    for (uint32_t e = 0; e < 4; e++) expect("lots exchanged, tags", table[GMAP_RECORD * new_darts[e] + GMAP_TAG], tags[e]);

    two_edges(0);
    expect("both of the first lot", edit2(2, N, but(seam_lots, sizeof seam_lots, SEAM_DONOR2, 0), sizeof seam_lots, 0, 6), edited(2, 4, 0));
    uint32_t with_donors[GMAP_RECORD * N];
    memcpy(with_donors, table, sizeof table);
    two_edges(0);
    expect("no donors", edit2(2, N, seam, sizeof seam, 0, 6), edited(2, 4, 0));
    expect("no donors is as node 0", memcmp(table, with_donors, sizeof table), 0);

    two_edges(0);
    refuse("edit2, donors, 2, an added node", edit2(2, N, but(seam_lots, sizeof seam_lots, SEAM_DONOR, 2), sizeof seam_lots, 0, 6), refusal(2), N);
    refuse("edit2, donors, 2, no node", edit2(2, N, but(seam_lots, sizeof seam_lots, SEAM_DONOR2, 4), sizeof seam_lots, 0, 6), refusal(2), N);
    refuse("edit2, donors, 2, none there", edit2(2, N, but(seam, sizeof seam, 0, 50), sizeof seam, 0, 6), refusal(2), N);
    refuse("edit2, donors, 2, one hook", edit2(2, N, V_donor, sizeof V_donor, 0, 6), refusal(2), N);
    refuse("edit2, donors, 8", edit2(2, N, seam_lots, sizeof seam_lots, 0, UNUSED), refusal(8), N);
    refuse("edit2, donors, 9", edit2(2, N, seam_lots, sizeof seam_lots, 0, 0), refusal(9), N);
    refuse("edit2, donors, 10", edit2(2, 7, seam_lots, sizeof seam_lots, 0, 6), refusal(10), 7);
}

/* Four darts, at these slots: the i-link of the dart at place e leads to that at place e ^ by[i], and the tags are 7, 9, 11, 13. Each of the
 * slots in the list `lone` has a dart by itself; other records hold anything, and so does the store. */
static void four(const uint32_t at[4], const uint32_t by[4], uint32_t lone)
{
    sample();
    table[GMAP_STATE] = table[GMAP_RECORD + GMAP_STATE] = 0;
    for (uint32_t x = 0; x < N; x++) {
        uint32_t record[GMAP_RECORD] = { 1, x, x, x, x, 100 + x };
        if (lone >> x & 1) memcpy(table + GMAP_RECORD * x, record, sizeof record);
    }
    for (uint32_t e = 0; e < 4; e++) {
        uint32_t record[GMAP_RECORD] = { 1, at[e ^ by[0]], at[e ^ by[1]], at[e ^ by[2]], at[e ^ by[3]], 7 + 2 * e };
        memcpy(table + GMAP_RECORD * at[e], record, sizeof record);
    }
    memcpy(before, table, sizeof table);
}

/* An edit of the first slots that is done, and leaves this table: every record is compared, and the store. */
static void leaves(const char *what, uint64_t answer, uint64_t counts, const uint32_t *wanted, uint32_t slots)
{
    expect(what, answer, counts);
    for (uint32_t w = 0; w < GMAP_RECORD * N; w++)
        if (table[w] != wanted[w]) expect(what, table[w], wanted[w]);
    expect("  store", all(store, 4 * GMAP_STORE * slots, 0), 1);
    expect("  store beyond its length", all(store + GMAP_STORE * slots, sizeof store - 4 * GMAP_STORE * slots, JUNK), 1);
    memset(store, JUNK, sizeof store);
}

/* New darts take the lowest slots of those unused and those freed, and the tags and links used are the old ones. */
static void edits_that_free_slots(void)
{
    static const uint32_t apart[4] = { 1, 2, 4, 6 }, full[4] = { 0, 1, 2, 3 };
    static const uint32_t by[4] = { 1, 3, 2, 0 }, by3[4] = { 1, 2, 0, 3 }, edges[4] = { 1, 0, 0, 0 };

    sample();
    expect("tags exchanged", edit(2, N, exchange, sizeof exchange, 0), edited(1, 2, 2));
    record("tags exchanged, the first new dart", 0, 1, 0, 0, 0, 9);
    record("tags exchanged, the second, whose donor's slot is taken", 1, 0, 1, 1, 1, 7);
    others("tags exchanged, other records and store", 3);
    sample();
    expect("tags exchanged, from dart 1", edit(2, N, exchange, sizeof exchange, 1), edited(1, 2, 2));
    record("from dart 1, the first new dart", 0, 1, 0, 0, 0, 7);
    record("from dart 1, the second", 1, 0, 1, 1, 1, 9);
    others("from dart 1, other records and store", 3);
    two_edges(0);
    expect("tags of two pieces exchanged", edit2(2, N, exchange2, sizeof exchange2, 0, 6), edited(2, 4, 4));
    record("two pieces, the first new dart", 0, 2, 0, 0, 0, 13);
    record("two pieces, the second, whose donor's slot is taken", 1, 3, 1, 1, 1, 7);
    record("two pieces, the third", 2, 0, 2, 2, 2, 11);
    record("two pieces, the fourth, whose donor's slot is taken", 3, 1, 3, 3, 3, 9);
    for (uint32_t x = 4; x < 8; x += 2) expect("two pieces, slots not taken", all(table + GMAP_RECORD * x, 4 * GMAP_RECORD, 0), 1);
    others("two pieces, other records and store", 15 | 1 << 4 | 1 << 6);

    four(apart, by, 0);
    expect("a freed slot before an unused one", edit(2, N, dual, sizeof dual, 6), edited(4, 4, 4));
    record("its dual, the new dart of 1", 0, 2, 3, 1, 0, 7);
    record("its dual, the new dart of 2", 1, 3, 2, 0, 1, 9);
    record("its dual, the new dart of 4", 2, 0, 1, 3, 2, 11);
    record("its dual, the new dart of 6", 3, 1, 0, 2, 3, 13);
    for (uint32_t x = 4; x < 8; x += 2) expect("its dual, slots not taken", all(table + GMAP_RECORD * x, 4 * GMAP_RECORD, 0), 1);
    others("its dual, other records and store", 15 | 1 << 4 | 1 << 6);
    four(full, by3, 0);
    expect("n = 3, every record anew", edit(3, 4, dual3, sizeof dual3, 0), edited(4, 4, 4));
    record("every record anew, dart 0", 0, 3, 0, 2, 1, 7);
    record("every record anew, dart 1", 1, 2, 1, 3, 0, 9);
    record("every record anew, dart 2", 2, 1, 2, 0, 3, 11);
    record("every record anew, dart 3", 3, 0, 3, 1, 2, 13);
    expect("every record anew, other records", memcmp(table + 4 * GMAP_RECORD, before + 4 * GMAP_RECORD, 4 * 4 * GMAP_RECORD) == 0, 1);
    expect("every record anew, store", all(store, 4 * GMAP_STORE * 4, 0), 1);
    four(full, edges, 0);
    expect("a full table at two darts", edit2(2, 4, exchange2, sizeof exchange2, 1, 3), edited(2, 4, 4));
    record("a full table, dart 0", 0, 2, 0, 0, 0, 11);
    record("a full table, dart 1", 1, 3, 1, 1, 1, 7);
    record("a full table, dart 2", 2, 0, 2, 2, 2, 13);
    record("a full table, dart 3", 3, 1, 3, 3, 3, 9);
    expect("a full table, other records", memcmp(table + 4 * GMAP_RECORD, before + 4 * GMAP_RECORD, 4 * 4 * GMAP_RECORD) == 0, 1);
    expect("a full table, store", all(store, 4 * GMAP_STORE * 4, 0), 1);

    static const uint32_t edge[N][3] = { { 5, 3, 2 }, { 1, 5, 1 }, { 7, 6, 0 }, { 3, 0, 3 }, { 4, 7, 4 }, { 0, 1, 7 }, { 6, 2, 6 }, { 2, 4, 5 } };
    static const uint32_t after[N] = { 0, 4, 2, 6, 1, 5, 3, 7 }; /* the 1-links */
    sample();
    for (uint32_t x = 0; x < N; x++) {
        uint32_t record[GMAP_RECORD] = { 1, edge[x][0], edge[x][1], edge[x][2], x, 100 + x };
        memcpy(table + GMAP_RECORD * x, record, sizeof record);
    }
    expect("2-links of darts that go", edit(2, N, take_off, sizeof take_off, 5), edited(4, 4, 4));
    for (uint32_t x = 0; x < N; x++) record("2-links of darts that go, records", x, edge[x][0], after[x], edge[x][2], x, 100 + x);
    expect("2-links of darts that go, store", all(store, sizeof store, 0), 1);
}

/* A scheme for E: its two darts are nodes 0 and 1, the last `gone` of which are deleted, and lone darts are added. */
static size_t replacing(uint8_t *scheme, uint8_t n, uint32_t hooks, uint8_t gone, uint8_t added)
{
    uint8_t *b = scheme, *count, kept = 2 - gone;
    *b++ = (uint8_t)(hooks == 2 ? n + 32 : n), *b++ = 0, *b++ = 2 + added;
    for (uint8_t v = 0; v < 2 + added; v++) *b++ = v >= 2 ? 3 : v >= kept ? 1 : 2;
    if (hooks == 2) *b++ = 1;
    *b++ = 1 + 2 * n;
    *b++ = 0, *b++ = 0, *b++ = 1;
    for (uint8_t i = 1; i <= n; i++)
        for (uint8_t v = 0; v < 2; v++) *b++ = i, *b++ = v, *b++ = v;
    count = b++, *count = 0;
    if (gone == 0) *b++ = 0, *b++ = 0, *b++ = 1, ++*count;
    for (uint8_t i = 0; i <= n; i++)
        for (uint8_t v = 0; v < 2 + added; v++)
            if (v >= 2 || (v < kept && (i > 0 || gone > 0))) *b++ = i, *b++ = v, *b++ = v, ++*count;
    return (size_t)(b - scheme);
}

/* E in each number of slots, with none, one or both of its darts deleted and each number of darts added: done where these are not more
 * than the unused slots and the deleted darts together, and else refused with 10. */
static void room(void)
{
    for (uint32_t turn = 0; turn < 7 * 3 * 15 * 4; turn++) {
        uint32_t slots = 2 + turn % 7, gone = turn / 7 % 3, added = turn / 21 % 15, n = 2 + turn / 315 % 2, hooks = 1 + turn / 630, left = added;
        uint8_t scheme[256];
        size_t length = replacing(scheme, (uint8_t)n, hooks, (uint8_t)gone, (uint8_t)added);
        uint32_t wanted[GMAP_RECORD * N];
        sample();
        memcpy(wanted, table, sizeof table);
        memset(wanted + GMAP_RECORD * (2 - gone), 0, 4 * GMAP_RECORD * gone);
        if (gone == 1) wanted[GMAP_LINK] = 0;
        for (uint32_t x = 0; x < slots && left > 0; x++) {
            uint32_t record[GMAP_RECORD] = { 1, x, x, x, x, 7 };
            if (wanted[GMAP_RECORD * x]) continue;
            memcpy(wanted + GMAP_RECORD * x, record, sizeof record);
            left--;
        }
        uint64_t answer = hooks == 2 ? edit2(n, slots, scheme, length, 0, 1) : edit(n, slots, scheme, length, 0);
        if (left > 0) refuse("no room", answer, refusal(10), slots);
        else leaves("room", answer, edited(1, added, gone), wanted, slots);
    }
}

/* A scheme that deletes one piece or two and adds some: the right word of each added node, and its donor. */
typedef struct { const char *what; uint8_t n, hooks, added; uint32_t by[4]; struct { uint8_t word[4], donor; } node[3]; } renewal;

static size_t renewing(uint8_t *scheme, const renewal *r)
{
    uint8_t *b = scheme, k = r->n + 1;
    *b++ = (uint8_t)(r->n + 16 + (r->hooks == 2 ? 32 : 0)), *b++ = k;
    for (uint8_t i = 0; i < k; i++) *b++ = i;
    *b++ = r->hooks + r->added;
    for (uint8_t v = 0; v < r->hooks; v++) {
        *b++ = 1;
        for (uint8_t p = 0; p < 2 * k; p++) *b++ = p < k ? p : 255;
    }
    for (uint8_t a = 0; a < r->added; a++) {
        *b++ = 3;
        for (uint8_t p = 0; p < 2 * k; p++) *b++ = p < k ? 255 : r->node[a].word[p - k];
        *b++ = r->node[a].donor;
    }
    if (r->hooks == 2) *b++ = 1;
    *b++ = 0, *b++ = 0;
    return (size_t)(b - scheme);
}

/* The four darts at these slots, beside lone darts, are renewed. The orbit has all four places, or two where there are two hooks, and then
 * the second hook falls on the dart two places on. */
static void renewed(const renewal *r, const uint32_t at[4], uint32_t lone)
{
    uint8_t scheme[64];
    size_t length = renewing(scheme, r);
    uint32_t size = r->hooks == 2 ? 2 : 4, now[4][3], available = 0, x = 0, wanted[GMAP_RECORD * N];
    four(at, r->by, lone);
    uint64_t answer = r->hooks == 2 ? edit2(r->n, N, scheme, length, at[0], at[2]) : edit(r->n, N, scheme, length, at[0]);
    for (uint32_t y = 0; y < N; y++) available += !(lone >> y & 1);
    if (size * r->added > available) {
        refuse(r->what, answer, refusal(10), N);
        return;
    }
    memcpy(wanted, before, sizeof before);
    for (uint32_t e = 0; e < 4; e++) memset(wanted + GMAP_RECORD * at[e], 0, 4 * GMAP_RECORD);
    for (uint32_t u = 0; u < N; u++)
        for (uint32_t e = 0; e < size; e++)
            for (uint32_t a = 0; a < r->added && at[e] == u; a++) {
                while (lone >> x & 1) x++;
                now[e][a] = x++;
            }
    for (uint32_t e = 0; e < size; e++)
        for (uint32_t a = 0; a < r->added; a++) {
            uint32_t *record = wanted + GMAP_RECORD * now[e][a];
            record[GMAP_STATE] = 1;
            record[GMAP_LINK + 3] = now[e][a];
            for (uint32_t p = 0; p <= r->n; p++) record[GMAP_LINK + r->node[a].word[p]] = now[e ^ r->by[p]][a];
            record[GMAP_TAG] = 7 + 2 * (r->node[a].donor ? e ^ 2 : e);
        }
    leaves(r->what, answer, edited(size, size * r->added, 4), wanted, N);
    expect(r->what, gmap_check_table(r->n, N, table, GMAP_RECORD * N), 0);
}

/* Renewals of four darts in every order of slots, beside lone darts in every other slot or not, up to full tables; they end at the first
 * that is wrong. */
static void renewals(void)
{
    static const renewal list[] = {
        { "a piece to its dual", 2, 1, 1, { 1, 3, 2, 0 }, { { { 2, 1, 0 }, 0 } } },
        { "a piece to two", 2, 1, 2, { 1, 3, 2, 0 }, { { { 0, 1, 2 }, 0 }, { { 2, 1, 0 }, 0 } } },
        { "a piece to its dual, n = 3", 3, 1, 1, { 1, 2, 0, 3 }, { { { 3, 2, 1, 0 }, 0 } } },
        { "two pieces to one", 2, 2, 1, { 1, 0, 0, 0 }, { { { 0, 1, 2 }, 1 } } },
        { "two pieces to two, tags exchanged", 2, 2, 2, { 1, 0, 0, 0 }, { { { 0, 1, 2 }, 1 }, { { 2, 1, 0 }, 0 } } },
        { "two pieces to three, n = 3", 3, 2, 3, { 1, 0, 0, 1 }, { { { 0, 1, 2, 3 }, 1 }, { { 3, 2, 1, 0 }, 0 }, { { 0, 1, 2, 3 }, 1 } } },
    };
    for (uint32_t order = 0; order < 1 << 12; order++) {
        uint32_t at[4] = { order & 7, order >> 3 & 7, order >> 6 & 7, order >> 9 }, taken = 0, different = 1;
        for (uint32_t e = 0; e < 4; e++) different &= ~taken >> at[e], taken |= 1u << at[e];
        for (uint32_t lone = 0; lone < 1 << N && different; lone++)
            for (size_t e = 0; e < sizeof list / sizeof list[0] && wrong == 0; e++)
                if (!(lone & taken)) renewed(&list[e], at, lone);
    }
}

static void refusals_at_two_darts(void)
{
    static const uint32_t nowhere[] = { UNUSED, N, N + 1, GMAP_MAX_SLOTS, UINT32_MAX };
    two_edges(0);
    refuse("edit2, 1, n", edit2(4, N, sew, sizeof sew, 0, 6), refusal(1), N);
    refuse("edit2, 1, n = 34", edit2(34, N, sew, sizeof sew, 0, 6), refusal(1), N);
    refuse("edit2, 1, no slots", gmap_edit2(2, 0, table, 0, store, 0, sew, sizeof sew, 0, 6), refusal(1), N);
    refuse("edit2, 1, store", gmap_edit2(2, N, table, GMAP_RECORD * N, store, GMAP_STORE * N - 1, sew, sizeof sew, 0, 6), refusal(1), N);
    refuse("edit2, 1, table", gmap_edit2(2, N, table, GMAP_RECORD * N - 1, store, GMAP_STORE * N, sew, sizeof sew, 0, 6), refusal(1), N);
    refuse("edit2, 1 before 2", edit2(1, N, V, sizeof V, 0, 6), refusal(1), N);
    for (size_t length = 0; length < sizeof sew; length++) refuse("edit2, 2", edit2(2, N, sew, length, 0, 6), refusal(2), N);
    refuse("edit2, 2, one hook", edit2(2, N, V, sizeof V, 0, 6), refusal(2), N);
    refuse("edit2, 2, one hook, before 3", edit2(2, N, unreached, sizeof unreached, 0, 6), refusal(2), N);
    refuse("edit2, 2, one hook, before 6 and 8", edit2(3, N, W, sizeof W, 99, 99), refusal(2), N);
    refuse("edit, 2, two hooks", edit(2, N, sew, sizeof sew, 0), refusal(2), N);
    refuse("edit, 2, two hooks, before 3", edit(2, N, no_way, sizeof no_way, 0), refusal(2), N);
    refuse("edit, 2, two hooks, before 6 and 8", edit(3, N, sew, sizeof sew, 99), refusal(2), N);
    refuse("edit, 1 before 2, two hooks", edit(1, N, sew, sizeof sew, 0), refusal(1), N);
    refuse("edit2, 3, node 0", edit2(2, N, but(sew, sizeof sew, SEW_WORD, 1), sizeof sew, 0, 6), refused(3, 0, 0, 0), N);
    refuse("edit2, 3, the second hook", edit2(2, N, but(sew, sizeof sew, SEW_WORD2, 1), sizeof sew, 0, 6), refused(3, 1, 0, 0), N);
    refuse("edit2, 3 before 6", edit2(3, N, no_way, sizeof no_way, 0, 6), refused(3, 1, 0, 0), N);
    refuse("edit2, 4", edit2(2, N, but(sew, sizeof sew, sizeof sew - 1, 0), sizeof sew, 0, 6), refused(4, 1, 0, 0), N);
    refuse("edit2, 5 before 8", edit2(2, N, torn, sizeof torn, 99, 99), refused(5, 0, 0, 2), N);
    refuse("edit2, 6 before 8", edit2(3, N, sew, sizeof sew, 99, 99), refusal(6), N);
    refuse("edit2, 6, n = 3", edit2(2, N, sew3, sizeof sew3, 0, 6), refusal(6), N);
    for (size_t e = 0; e < sizeof nowhere / sizeof nowhere[0]; e++) {
        refuse("edit2, 8, the first dart", edit2(2, N, sew, sizeof sew, nowhere[e], 6), refusal(8), N);
        refuse("edit2, 8, the second dart", edit2(2, N, sew, sizeof sew, 0, nowhere[e]), refusal(8), N);
        refuse("edit2, 8 before 9", edit2(2, N, sew, sizeof sew, nowhere[e], nowhere[e]), refusal(8), N);
    }
    refuse("edit2, 8 before 10", edit2(2, 7, seam, sizeof seam, 0, 5), refusal(8), 7);
    for (uint32_t x = 0; x < N; x++)
        if (table[GMAP_RECORD * x] == 1) refuse("edit2, 9, one dart twice", edit2(2, N, sew, sizeof sew, x, x), refusal(9), N);
    refuse("edit2, 9, two darts of one edge", edit2(2, N, sew, sizeof sew, 0, 1), refusal(9), N);
    refuse("edit2, 9 before 10", edit2(2, 7, seam, sizeof seam, 0, 0), refusal(9), 7);
    refuse("edit2, 9, the second hook's arc is not there", edit2(2, N, swap, sizeof swap, 0, 6), refusal(9), N);

    uint32_t lone[GMAP_RECORD] = { 1, UNUSED, UNUSED, UNUSED, UNUSED, 5 };
    memcpy(table + GMAP_RECORD * UNUSED, lone, sizeof lone);
    memcpy(before, table, sizeof table);
    refuse("edit2, 9, the second orbit is smaller", edit2(2, N, sew, sizeof sew, 0, UNUSED), refusal(9), N);
    refuse("edit2, 9, the second orbit is larger", edit2(2, N, sew, sizeof sew, UNUSED, 0), refusal(9), N);
    table[GMAP_RECORD * 7] = 2;
    memcpy(before, table, sizeof table);
    refuse("edit2, 6 before 7", edit2(3, N, sew, sizeof sew, 0, 6), refusal(6), N);
    refuse("edit2, 7 before 8", edit2(2, N, sew, sizeof sew, 99, 99), refusal(7), N);
}

static void writes(void)
{
    sample();
    expect("P13, room for 32", gmap_write(2, N, table, GMAP_RECORD * N, out, 32), refusal(12));
    expect("P13, output unchanged", all(out, sizeof out, JUNK), 1);
    expect("P13, length", gmap_length(gmap_write(2, N, table, GMAP_RECORD * N, out, sizeof out)), 33);
    expect("P13, file length", gmap_file_length(2, 2), 33);
    expect("write, output beyond", all(out + 33, sizeof out - 33, JUNK), 1);
    expect("write, as in the file", memcmp(out, file, sizeof file), 0);
    expect("write, table", memcmp(table, before, sizeof table) == 0, 1);
    expect("write, 1", gmap_write(2, N + 1, table, GMAP_RECORD * N, out, 0), refusal(1));
    expect("write, 7 before 12", gmap_write(2, 1, table, GMAP_RECORD, out, 0), refusal(7));
}

static uint64_t load(uint32_t n, uint32_t slots, const uint8_t *bytes, size_t length)
{
    return gmap_load(n, slots, table, GMAP_RECORD * slots, bytes, length);
}

/* A load into a table of rubbish that is refused: after 1 the table is as it was, after 11 its `slots` records are zero. */
static void unloaded(const char *what, uint64_t answer, uint32_t wanted, uint32_t slots)
{
    expect(what, answer, refusal(wanted));
    expect("  table", all(table, 4 * GMAP_RECORD * slots, wanted == 1 ? JUNK : 0), 1);
    expect("  beyond the table", all(table + GMAP_RECORD * slots, sizeof table - 4 * GMAP_RECORD * slots, JUNK), 1);
    memset(table, JUNK, sizeof table);
}

/* The sample file E with another number of two bytes somewhere. */
static const uint8_t *with(size_t at, uint32_t number)
{
    static uint8_t changed[sizeof file];
    memcpy(changed, file, sizeof file);
    changed[at] = (uint8_t)number;
    changed[at + 1] = (uint8_t)(number >> 8);
    return changed;
}

static void loads_of_wrong_size(void)
{
    memset(table, JUNK, sizeof table);
    unloaded("load, n = 0", load(0, N, file, sizeof file), 1, N);
    unloaded("load, n = 1", load(1, N, file, sizeof file), 1, N);
    unloaded("load, n = 4", load(4, N, file, sizeof file), 1, N);
    unloaded("load, n = 2^32 - 1", load(UINT32_MAX, N, file, sizeof file), 1, N);
    unloaded("load, N = 0", load(2, 0, file, sizeof file), 1, N);
    unloaded("load, a word too few", gmap_load(2, N, table, GMAP_RECORD * N - 1, file, sizeof file), 1, N);
    unloaded("load, a word too many", gmap_load(2, N - 1, table, GMAP_RECORD * (N - 1) + 1, file, sizeof file), 1, N);
    unloaded("load, no table", gmap_load(2, N, table, 0, file, sizeof file), 1, N);
    unloaded("load, a slot too many", gmap_load(2, N, table, GMAP_RECORD * (N - 1), file, sizeof file), 1, N);
    unloaded("load, a slot too few", gmap_load(2, N - 1, table, GMAP_RECORD * N, file, sizeof file), 1, N);
    unloaded("load, 1 before 11", gmap_load(2, N, table, GMAP_RECORD * N - 1, file, 3), 1, N);

    static uint32_t large[GMAP_RECORD * (GMAP_MAX_SLOTS + 1)];
    static const uint8_t none[9] = { 2, 0, 4 };
    memset(large, JUNK, sizeof large);
    expect("load, N = 1025", gmap_load(2, GMAP_MAX_SLOTS + 1, large, GMAP_RECORD * (GMAP_MAX_SLOTS + 1), none, sizeof none), refusal(1));
    expect("load, N = 1025, table", all(large, sizeof large, JUNK), 1);
    expect("load, N = 1024", gmap_load(2, GMAP_MAX_SLOTS, large, GMAP_RECORD * GMAP_MAX_SLOTS, none, sizeof none), 0);
    expect("load, N = 1024, table", all(large, 4 * GMAP_RECORD * GMAP_MAX_SLOTS, 0), 1);
    expect("load, N = 1024, beyond the table", all(large + GMAP_RECORD * GMAP_MAX_SLOTS, 4 * GMAP_RECORD, JUNK), 1);
}

static void loads_out_of_form(void)
{
    static const struct { const char *what; size_t at; uint32_t number; } numbers[] = {
        { "load, the file's n", 0, N << 8 | 3 },
        { "load, the file's N", 1, N - 1 }, { "load, the file's N, upper byte", 1, N | 256 },
        { "load, a slot too few", SLOT - 2, 1 }, { "load, a slot too many", SLOT - 2, 3 }, { "load, slots, upper byte", SLOT - 2, 258 },
        { "load, a tag too few", TAG - 2, 1 }, { "load, a tag too many", TAG - 2, 3 }, { "load, tags, upper byte", TAG - 2, 258 },
        { "load, a dart's links too few", LINK - 2, 1 }, { "load, a dart's links too many", LINK - 2, 3 }, { "load, links, upper byte", LINK - 2, 258 },
        { "load, a slot twice", SLOT + 2, 0 }, { "load, slots not ascending", SLOT, 2 },
        { "load, slot N", SLOT + 2, N }, { "load, slot 65535", SLOT + 2, 65535 },
    };
    uint8_t longer[sizeof file + 1] = { 0 };
    memcpy(longer, file, sizeof file);
    memset(table, JUNK, sizeof table);
    for (size_t e = 0; e < sizeof numbers / sizeof numbers[0]; e++)
        unloaded(numbers[e].what, load(2, N, with(numbers[e].at, numbers[e].number), sizeof file), 11, N);
    for (size_t length = 0; length < sizeof file; length++) unloaded("load, cut short", load(2, N, file, length), 11, N);
    unloaded("load, a byte too many", load(2, N, longer, sizeof longer), 11, N);
    unloaded("load, another n", load(3, N, file, sizeof file), 11, N);
    unloaded("load, another N", load(2, N - 1, file, sizeof file), 11, N - 1);
    unloaded("load, n = 3, another n", load(2, N, file3, sizeof file3), 11, N);
    unloaded("load, n = 3, cut short", load(3, N, file3, sizeof file3 - 1), 11, N);
    unloaded("load, n = 3, the length of n = 2", load(3, N, file3, sizeof file), 11, N);
}

static void loads(void)
{
    static const uint8_t none[9] = { 2, N };
    uint8_t again[sizeof file3];
    memset(table, JUNK, sizeof table);
    expect("load", load(2, N, file, sizeof file), 0);
    record("load, dart 0", 0, 1, 0, 0, 0, 7);
    record("load, dart 1", 1, 0, 1, 1, 1, 9);
    expect("load, unused records", all(table + 2 * GMAP_RECORD, 6 * 4 * GMAP_RECORD, 0), 1);
    expect("load, check", gmap_check_table(2, N, table, GMAP_RECORD * N), 0);
    expect("write back", gmap_write(2, N, table, GMAP_RECORD * N, again, sizeof again), sizeof file);
    expect("byte for byte", memcmp(again, file, sizeof file) == 0, 1);

    memset(table, JUNK, sizeof table);
    expect("load, n = 3", load(3, N, file3, sizeof file3), 0);
    record("load, n = 3, dart 2", 2, 5, 2, 2, 5, 0x01020304);
    record("load, n = 3, dart 5", 5, 2, 5, 5, 2, UINT32_MAX);
    for (uint32_t x = 0; x < N; x++)
        if (x != 2 && x != 5) expect("load, n = 3, unused records", all(table + GMAP_RECORD * x, 4 * GMAP_RECORD, 0), 1);
    expect("load, n = 3, check", gmap_check_table(3, N, table, GMAP_RECORD * N), 0);
    expect("n = 3, write back", gmap_write(3, N, table, GMAP_RECORD * N, again, sizeof again), sizeof file3);
    expect("n = 3, byte for byte", memcmp(again, file3, sizeof file3) == 0, 1);

    memset(table, JUNK, sizeof table);
    expect("load, no dart", load(2, N, none, sizeof none), 0);
    expect("load, no dart, table", all(table, sizeof table, 0), 1);
    expect("load, no dart, check", gmap_check_table(2, N, table, GMAP_RECORD * N), 0);
}

/* A count of the table as it stands. */
static uint64_t count(uint32_t n, uint32_t slots, size_t length)
{
    return gmap_count(n, slots, table, GMAP_RECORD * slots, store, GMAP_STORE * slots, counts, length);
}

/* A count that is refused: the output stays, and table and store are as after an edit that is refused. */
static void uncounted(const char *what, uint64_t answer, uint32_t wanted, uint32_t slots)
{
    refuse(what, answer, refusal(wanted), slots);
    expect("  output", all(counts, sizeof counts, JUNK), 1);
    memset(counts, JUNK, sizeof counts);
}

static void refusals_of_counts(void)
{
    static uint32_t large[GMAP_RECORD * (GMAP_MAX_SLOTS + 1)], more[GMAP_STORE * (GMAP_MAX_SLOTS + 1)];
    memset(counts, JUNK, sizeof counts);
    for (uint32_t good = 0; good < 2; good++) { /* 1 is before 7 and 12, so it is given for a broken map and a short output too */
        sample();
        if (!good) table[GMAP_RECORD * UNUSED] = 2;
        memcpy(before, table, sizeof table);
        size_t length = good ? GMAP_COUNTS : 0;
        uncounted("count, n = 0", count(0, N, length), 1, N);
        uncounted("count, n = 1", count(1, N, length), 1, N);
        uncounted("count, n = 4", count(4, N, length), 1, N);
        uncounted("count, n = 2^32 - 1", count(UINT32_MAX, N, length), 1, N);
        uncounted("count, N = 0", count(2, 0, length), 1, N);
        uncounted("count, a word too few", gmap_count(2, N, table, GMAP_RECORD * N - 1, store, GMAP_STORE * N, counts, length), 1, N);
        uncounted("count, a slot too few", gmap_count(2, N - 1, table, GMAP_RECORD * N, store, GMAP_STORE * (N - 1), counts, length), 1, N);
        uncounted("count, a word of the store too few", gmap_count(2, N, table, GMAP_RECORD * N, store, GMAP_STORE * N - 1, counts, length), 1, N);
        uncounted("count, a word of the store too many",
                  gmap_count(2, N - 1, table, GMAP_RECORD * (N - 1), store, GMAP_STORE * (N - 1) + 1, counts, length), 1, N);
        uncounted("count, no store", gmap_count(2, N, table, GMAP_RECORD * N, store, 0, counts, length), 1, N);
    }
    memset(more, JUNK, sizeof more);
    expect("count, N = 1025",
           gmap_count(2, GMAP_MAX_SLOTS + 1, large, GMAP_RECORD * (GMAP_MAX_SLOTS + 1), more, GMAP_STORE * (GMAP_MAX_SLOTS + 1), counts, GMAP_COUNTS),
           refusal(1));
    expect("count, N = 1025, store", all(more, sizeof more, JUNK), 1);
    expect("count, N = 1025, output", all(counts, sizeof counts, JUNK), 1);

    sample();
    for (size_t length = 0; length < GMAP_COUNTS; length++) uncounted("count, 12", count(2, N, length), 12, N);
    table[GMAP_RECORD * UNUSED] = 2;
    memcpy(before, table, sizeof table);
    for (size_t length = 0; length <= GMAP_COUNTS; length++) uncounted("count, 7 before 12", count(2, N, length), 7, N);
    sample();
    table[GMAP_LINK + 3] = 1;
    table[GMAP_RECORD + GMAP_LINK + 3] = 0;
    memcpy(before, table, sizeof table);
    uncounted("count, 7, a3 with n = 2", count(2, N, GMAP_COUNTS), 7, N);
    expect("count, a3 with n = 3", count(3, N, GMAP_COUNTS), 0);
}

/* A map that is counted: its darts and their links, before they are put in slots. */
enum { MOST = 96, ROOM = 101 };
static uint32_t links[MOST][4], darts;

static void join(uint32_t i, uint32_t x, uint32_t y)
{
    links[x][i] = y;
    links[y][i] = x;
}

/* Adds a closed chain of edges, of which edge e has darts 2e and 2e + 1, and returns its first dart. No edges are a lone dart. */
static uint32_t face(uint32_t edges)
{
    uint32_t first = darts, last = edges == 0 ? first + 1 : first + 2 * edges;
    for (; darts < last; darts++)
        for (uint32_t i = 0; i < 4; i++) links[darts][i] = darts;
    for (uint32_t e = 0; e < edges; e++) {
        join(0, first + 2 * e, first + 2 * e + 1);
        join(1, first + 2 * e + 1, first + (2 * e + 2) % (2 * edges));
    }
    return first;
}

/* Adds a cube, its bottom first, then its top, and returns its first dart; its four sides go around both. */
static uint32_t cube(void)
{
    uint32_t bottom = face(4), top = face(4), side[4];
    for (uint32_t s = 0; s < 4; s++) side[s] = face(4);
    for (uint32_t s = 0; s < 4; s++) {
        uint32_t next = side[(s + 1) % 4];
        join(2, bottom + 2 * s, side[s]);
        join(2, bottom + 2 * s + 1, side[s] + 1);
        join(2, top + 2 * s, side[s] + 5);
        join(2, top + 2 * s + 1, side[s] + 4);
        join(2, side[s] + 2, next + 7);
        join(2, side[s] + 3, next + 6);
    }
    return bottom;
}

/* Counts the map with its darts in other slots, in tables with unused records and without, whatever these and the store hold, and into
 * outputs of six words and of more. */
static void counted(const char *what, uint32_t n, const uint32_t wanted[GMAP_COUNTS])
{
    static uint32_t map[GMAP_RECORD * ROOM], same[GMAP_RECORD * ROOM], work[GMAP_STORE * ROOM];
    for (uint32_t turn = 0; turn < 24; turn++) {
        uint32_t slots = turn & 1 || darts == 0 ? ROOM : darts, held = turn >> 1 & 3, order = turn >> 3;
        size_t length = turn & 2 ? GMAP_COUNTS : sizeof counts / sizeof counts[0];
        for (uint32_t w = 0; w < GMAP_RECORD * slots; w++)
            map[w] = w % GMAP_RECORD == GMAP_STATE || held == 0 ? 0 : held == 1 ? UINT32_MAX : held == 2 ? w % slots : 1;
        for (uint32_t x = 0; x < darts; x++) {
            uint32_t at[5] = { x, links[x][0], links[x][1], links[x][2], links[x][3] };
            for (uint32_t e = 0; e < 5; e++)
                    at[e] = order == 0 ? at[e] : order == 1 ? slots - 1 - at[e] : slots == ROOM ? 7 * at[e] % ROOM : (at[e] + 1) % darts;
            uint32_t record[GMAP_RECORD] = { 1, at[1], at[2], at[3], at[4], x };
            memcpy(map + GMAP_RECORD * at[0], record, sizeof record);
        }
        memcpy(same, map, sizeof map);
        memset(work, held == 0 ? 0 : held == 1 ? 0xFF : JUNK, sizeof work);
        memset(counts, JUNK, sizeof counts);
        expect(what, gmap_count(n, slots, map, GMAP_RECORD * slots, work, GMAP_STORE * slots, counts, length), 0);
        for (uint32_t e = 0; e < GMAP_COUNTS; e++) expect(what, counts[e], wanted[e]);
        expect("  output beyond the counts", all(counts + GMAP_COUNTS, sizeof counts - 4 * GMAP_COUNTS, JUNK), 1);
        expect("  table", memcmp(map, same, sizeof map) == 0, 1);
        expect("  store", all(work, 4 * GMAP_STORE * slots, 0), 1);
    }
}

/* Counts the map for n = 3, and for n = 2 where no 3-link joins two darts; then the next map is made. */
static void cells(const char *what, uint32_t vertices, uint32_t edges, uint32_t faces, uint32_t pieces, uint32_t volumes)
{
    uint32_t sheets[GMAP_COUNTS] = { darts, vertices, edges, faces, pieces, 0 };
    uint32_t space[GMAP_COUNTS] = { darts, vertices, edges, faces, pieces, volumes };
    int flat = 1;
    for (uint32_t x = 0; x < darts; x++) flat &= links[x][3] == x;
    if (flat) counted(what, 2, sheets);
    counted(what, 3, space);
    darts = 0;
}

static void counts_of_cells(void)
{
    uint32_t one, other;
    cells("count, no dart", 0, 0, 0, 0, 0);
    face(0);
    cells("count, a lone dart", 1, 1, 1, 1, 1);
    for (uint32_t e = 0; e < 5; e++) face(0);
    cells("count, five lone darts", 5, 5, 5, 5, 5);
    face(0), face(0), join(0, 0, 1);
    cells("count, an edge", 2, 1, 1, 1, 1);
    face(0), face(0), join(1, 0, 1);
    cells("count, a corner", 1, 2, 1, 1, 1);
    face(0), face(0), join(2, 0, 1);
    cells("count, two darts joined by a2", 1, 1, 2, 1, 1);
    face(0), face(0), join(3, 0, 1);
    cells("count, two darts joined by a3", 1, 1, 1, 1, 2);
    face(4);
    cells("count, a square", 4, 4, 1, 1, 1);
    face(4), face(3), face(0);
    cells("count, a square, a triangle, a lone dart", 8, 8, 3, 3, 3);
    one = face(4), other = face(4);
    join(2, one + 2, other + 7), join(2, one + 3, other + 6);
    cells("count, two squares that meet", 6, 7, 2, 1, 1);
    one = face(4);
    join(2, one + 2, one + 7), join(2, one + 3, one + 6), join(2, one, one + 5), join(2, one + 1, one + 4);
    cells("count, a torus of one square", 1, 2, 1, 1, 1);
    one = face(4), other = face(4);
    for (uint32_t e = 0; e < 8; e++) join(3, one + e, other + e);
    cells("count, a sheet with its back", 4, 4, 1, 1, 2);
    cube();
    cells("count, a cube", 8, 12, 6, 1, 1);
    cube(), cube();
    cells("count, two cubes", 16, 24, 12, 2, 2);
    one = cube(), other = cube();
    for (uint32_t e = 0; e < 8; e++) join(3, one + 8 + e, other + e);
    cells("count, two cubes, one on the other", 12, 20, 11, 1, 2);
}

/* The largest tables: one face of all darts, and lone darts alone. */
static void largest_counts(void)
{
    enum { ALL = GMAP_MAX_SLOTS };
    static uint32_t map[GMAP_RECORD * ALL], work[GMAP_STORE * ALL];
    for (uint32_t n = 2; n <= 3; n++)
        for (uint32_t lone = 0; lone < 2; lone++) {
            for (uint32_t x = 0; x < ALL; x++) {
                uint32_t next = x % 2 ? (x + 1) % ALL : (x + ALL - 1) % ALL, record[GMAP_RECORD] = { 1, lone ? x : x ^ 1, lone ? x : next, x, x, 0 };
                memcpy(map + GMAP_RECORD * x, record, sizeof record);
            }
            uint32_t wanted[GMAP_COUNTS] = { ALL, lone ? ALL : ALL / 2, lone ? ALL : ALL / 2, lone ? ALL : 1, lone ? ALL : 1, n == 2 ? 0 : lone ? ALL : 1 };
            memset(work, JUNK, sizeof work);
            memset(counts, JUNK, sizeof counts);
            expect("count, 1024 darts", gmap_count(n, ALL, map, GMAP_RECORD * ALL, work, GMAP_STORE * ALL, counts, GMAP_COUNTS), 0);
            for (uint32_t e = 0; e < GMAP_COUNTS; e++) expect("count, 1024 darts", counts[e], wanted[e]);
            expect("count, 1024 darts, store", all(work, sizeof work, 0), 1);
        }
}

/* The table is a broken map as it was loaded: check, edit, write and count answer 7 and leave every buffer, and a good file goes over it. */
static void broken(const char *what, uint32_t n, const uint8_t *scheme, size_t length, const uint8_t *good, size_t good_length)
{
    memcpy(before, table, sizeof table);
    memset(store, JUNK, sizeof store);
    memset(out, JUNK, sizeof out);
    memset(counts, JUNK, sizeof counts);
    expect(what, gmap_check_table(n, N, table, GMAP_RECORD * N), refusal(7));
    expect("  table as loaded", memcmp(table, before, sizeof table) == 0, 1);
    refuse(what, edit(n, N, scheme, length, 0), refusal(7), N);
    refuse(what, edit(n, N, scheme, length, UINT32_MAX), refusal(7), N);
    refuse(what, edit(n, N, scheme, length - 1, 0), refusal(2), N);
    refuse(what, n == 2 ? edit2(2, N, sew, sizeof sew, 0, 1) : edit2(3, N, sew3, sizeof sew3, 0, 1), refusal(7), N);
    expect(what, gmap_write(n, N, table, GMAP_RECORD * N, out, sizeof out), refusal(7));
    expect("  table as loaded", memcmp(table, before, sizeof table) == 0, 1);
    expect("  output", all(out, sizeof out, JUNK), 1);
    uncounted(what, count(n, N, GMAP_COUNTS), 7, N);
    expect("  a good file over it", load(n, N, good, good_length), 0);
    expect("  check", gmap_check_table(n, N, table, GMAP_RECORD * N), 0);
}

/* The sample map E with another i-link of dart 0, which breaks it. */
static void broken_link(uint32_t i, uint32_t to)
{
    uint32_t link[3] = { 1, 0, 0 };
    link[i] = to;
    memset(table, JUNK, sizeof table);
    expect("broken", load(2, N, with(LINK + 2 * i, to), sizeof file), 0);
    record("broken, dart 0", 0, link[0], link[1], link[2], 0, 7);
    record("broken, dart 1", 1, 0, 1, 1, 1, 9);
    expect("broken, unused records", all(table + 2 * GMAP_RECORD, 6 * 4 * GMAP_RECORD, 0), 1);
    broken("broken", 2, V, sizeof V, file, sizeof file);
}

static void loads_of_broken_maps(void)
{
    static const uint32_t nowhere[] = { N, N + 1, GMAP_MAX_SLOTS, 65535, UNUSED };
    static const uint8_t look3[] = { 3, 0, 1, 2, 0, 0 };
    for (uint32_t i = 0; i < 3; i++) {
        for (size_t e = 0; e < sizeof nowhere / sizeof nowhere[0]; e++) broken_link(i, nowhere[e]);
        broken_link(i, i == 0 ? 0 : 1); /* to a dart that does not lead back */
    }
    uint8_t three[sizeof file3];
    memcpy(three, file3, sizeof three);
    three[sizeof three - 1] = 255;
    memset(table, JUNK, sizeof table);
    expect("broken, n = 3", load(3, N, three, sizeof three), 0);
    record("broken, n = 3, dart 2", 2, 5, 2, 2, 5, 0x01020304);
    record("broken, n = 3, dart 5", 5, 2, 5, 5, 0xFF02, UINT32_MAX);
    broken("broken, n = 3", 3, look3, sizeof look3, file3, sizeof file3);
}

int main(void)
{
    schemes();
    pairs();
    edits();
    schemes_with_two_hooks();
    schemes_with_donors();
    longest_schemes();
    edits_at_two_darts();
    refusals_at_two_darts();
    edits_with_donors();
    edits_with_donors_at_two_darts();
    edits_that_free_slots();
    room();
    renewals();
    writes();
    loads_of_wrong_size();
    loads_out_of_form();
    loads();
    loads_of_broken_maps();
    refusals_of_counts();
    counts_of_cells();
    largest_counts();
    if (wrong == 0) puts("calls: all as wanted");
    return wrong != 0;
}

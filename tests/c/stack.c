/* How deep each call goes on the stack: every call runs on a painted stack of its own, and must stay within GMAP_STACK.
 * A first run of the same call on the common stack lets the dynamic linker do its work, which is not counted. */
#define _XOPEN_SOURCE 700
#include "gmap.h"
#include "check.h"
#include <string.h>
#include <ucontext.h>

enum { ROOM = 65536, PAINT = 0xA5, N = GMAP_MAX_SLOTS };

static uint32_t table[GMAP_RECORD * N], store[GMAP_STORE * N];
static uint8_t file[GMAP_MAX_FILE], scheme[GMAP_MAX_SCHEME];
static size_t scheme_len;
static uint32_t n;
static _Alignas(64) unsigned char stack[ROOM];

static uint64_t answer;
static void nothing(void) { answer = 0; }
static void check_table(void) { answer = gmap_check_table(n, N, table, GMAP_RECORD * N); }
static void check_scheme(void) { answer = gmap_check_scheme(scheme, scheme_len); }
static void edit(void) { answer = gmap_edit(n, N, table, GMAP_RECORD * N, store, GMAP_STORE * N, scheme, scheme_len, 0); }
static uint32_t other;
static void edit2(void) { answer = gmap_edit2(n, N, table, GMAP_RECORD * N, store, GMAP_STORE * N, scheme, scheme_len, 0, other); }
static void load_file(void) { answer = gmap_load(n, N, table, GMAP_RECORD * N, file, gmap_file_length(n, N)); }
static void write_file(void) { answer = gmap_write(n, N, table, GMAP_RECORD * N, file, sizeof file); }
static uint32_t counts[GMAP_COUNTS];
static size_t counts_len = GMAP_COUNTS;
static void count(void) { answer = gmap_count(n, N, table, GMAP_RECORD * N, store, GMAP_STORE * N, counts, counts_len); }

/* Closed chains of edges through the first slots, `live` darts in each, with other links loops. */
static void polygons(uint32_t count, uint32_t live)
{
    memset(table, 0, sizeof table);
    for (uint32_t x = 0; x < count * live; x++) {
        uint32_t first = x - x % live, next = (x - first + (x % 2 ? 1 : live - 1)) % live;
        uint32_t record[GMAP_RECORD] = { 1, x ^ 1, first + next, x, x, x };
        memcpy(table + GMAP_RECORD * x, record, sizeof record);
    }
}
static void polygon(uint32_t live) { polygons(1, live); }

/* Sixteen darts in a row, 1-links and 2-links in turn, and the longest accepted scheme, whose left side is just that. */
static void longest(void)
{
    polygon(16);
    uint8_t *b = scheme, *count;
    *b++ = 3, *b++ = 3, *b++ = 0, *b++ = 2, *b++ = 3, *b++ = 16;
    for (uint32_t v = 0; v < 16; v++) {
        memset(b, 255, 7);
        *b = 2;
        if (v == 0) b[1] = 0, b[2] = 2;
        if (v < 2) b[3] = 3;
        b += 7;
        uint32_t *link = table + GMAP_RECORD * v + GMAP_LINK;
        link[0] = v;
        link[1] = v ^ 1;
        link[2] = v == 0 || v == 15 ? v : ((v - 1) ^ 1) + 1;
    }
    count = b++, *count = 0;
    for (uint8_t i = 0; i < 4; i++)
        for (uint8_t v = 0; v < 16; v++) {
            uint8_t to = (uint8_t)(i == 1 ? v ^ 1 : i == 2 && v > 0 && v < 15 ? ((v - 1) ^ 1) + 1 : v);
            if (to < v || (i != 1 && v == 0) || (i == 3 && v == 1)) continue;
            *b++ = i, *b++ = v, *b++ = to, ++*count;
        }
    *b++ = 64;
    for (uint8_t i = 0; i < 4; i++)
        for (uint8_t v = 0; v < 16; v++) *b++ = i, *b++ = v, *b++ = v;
    scheme_len = (size_t)(b - scheme);
}

/* The longest scheme in the form: six left nodes with 64 arcs, ten added nodes with their donors, a second hook. */
static void longest_form(void)
{
    uint8_t *b = scheme;
    *b++ = 51, *b++ = 4, *b++ = 0, *b++ = 1, *b++ = 2, *b++ = 3, *b++ = 16;
    for (uint8_t v = 0; v < 16; v++) {
        *b++ = v < 6 ? 2 : 3;
        for (uint8_t p = 0; p < 8; p++) *b++ = v >= 6 && p < 4 ? 255 : p % 4;
        if (v >= 6) *b++ = v % 6;
    }
    *b++ = 5, *b++ = 64;
    uint32_t arcs = 0;
    for (uint8_t i = 0; i < 4; i++)
        for (uint8_t v = 0; v < 6; v++)
            for (uint8_t w = v; w < 6 && arcs < 64; w++, arcs++) *b++ = i, *b++ = v, *b++ = w;
    *b++ = 64;
    for (uint8_t i = 0; i < 4; i++)
        for (uint8_t v = 0; v < 16; v++) *b++ = i, *b++ = v, *b++ = v;
    scheme_len = (size_t)(b - scheme);
}

static void use(const uint8_t *bytes, size_t length)
{
    memcpy(scheme, bytes, length);
    scheme_len = length;
}

static size_t depth(void (*call)(void))
{
    ucontext_t here, there;
    memset(stack, PAINT, sizeof stack);
    getcontext(&there);
    there.uc_stack.ss_sp = stack;
    there.uc_stack.ss_size = sizeof stack;
    there.uc_link = &here;
    makecontext(&there, call, 0);
    swapcontext(&here, &there);
    size_t low = 0;
    while (low < sizeof stack && stack[low] == PAINT) low++;
    return sizeof stack - low;
}

static void measure(const char *what, void (*call)(void), uint32_t wanted)
{
    static uint32_t before[GMAP_RECORD * N];
    memcpy(before, table, sizeof table);
    call();
    memcpy(table, before, sizeof table);
    size_t used = depth(nothing);
    used = depth(call) - used;
    expect(what, gmap_number(answer), wanted);
    printf("%-40s %5zu bytes\n", what, used);
    if (used > GMAP_STACK) {
        printf("%s: deeper than GMAP_STACK, %d bytes\n", what, GMAP_STACK);
        wrong++;
    }
}

int main(void)
{
    static const uint8_t split[] = { 2, 2, 0, 2, 2, 2, 0, 2, 255, 2, 3, 255, 255, 1, 2, 0, 1, 0, 0, 1 };
    static const uint8_t drop[] = { 2, 3, 0, 1, 2, 1, 1, 0, 1, 2, 255, 255, 255, 0, 0 };
    static const uint8_t sew[] = { 34, 1, 0, 2, 2, 0, 0, 2, 0, 0, 1, 2, 2, 0, 0, 2, 1, 1, 1, 2, 0, 1 };
    static const uint8_t sew_faces[] = { 34, 2, 0, 1, 2, 2, 0, 1, 0, 1, 2, 0, 1, 0, 1, 1, 2, 2, 0, 0, 2, 1, 1, 1, 2, 0, 1 };
    static const uint8_t sew3[] = { 35, 2, 0, 1, 2, 2, 0, 1, 0, 1, 2, 0, 1, 0, 1, 1, 2, 3, 0, 0, 3, 1, 1, 1, 3, 0, 1 };
    static const uint8_t look[] = { 2, 0, 2, 2, 2, 1, 0, 0, 1, 1, 0, 0, 1 };
    static const uint8_t split_donor[] = { 18, 2, 0, 2, 2, 2, 0, 2, 255, 2, 3, 255, 255, 1, 2, 0, 0, 1, 0, 0, 1 };
    static const uint8_t renew_piece[] = { 18, 3, 0, 1, 2, 2, 1, 0, 1, 2, 255, 255, 255, 3, 255, 255, 255, 0, 1, 2, 0, 0, 0 };
    static const uint8_t exchange[] = { 50, 3, 0, 1, 2, 4, 1, 0, 1, 2, 255, 255, 255, 1, 0, 1, 2, 255, 255, 255, 3, 255, 255, 255, 0, 1, 2, 1,
                                        3, 255, 255, 255, 0, 1, 2, 0, 1, 0, 0 };
    static const uint8_t tube[] = { 50, 2, 0, 1, 6, 2, 0, 1, 0, 1, 2, 0, 1, 0, 1, 3, 255, 255, 0, 255, 0, 3, 255, 255, 255, 2, 0, 3, 255, 255, 255, 2, 1,
                                    3, 255, 255, 0, 255, 1, 1, 2, 2, 0, 0, 2, 1, 1, 5, 0, 3, 4, 1, 2, 3, 1, 4, 5, 2, 0, 2, 2, 1, 5 };
    for (n = 2; n <= 3; n++) {
        polygon(N);
        measure(n == 2 ? "check_table n=2" : "check_table n=3", check_table, 0);
        measure(n == 2 ? "write n=2" : "write n=3", write_file, 0);
        measure(n == 2 ? "load n=2" : "load n=3", load_file, 0);
        file[0] = 9;
        measure(n == 2 ? "load n=2, refused 11" : "load n=3, refused 11", load_file, 11);
        polygons(4, N / 4);
        measure(n == 2 ? "count n=2" : "count n=3", count, 0);
    }
    n = 2;
    counts_len = 0;
    measure("count, refused 12", count, 12);
    table[0] = 2;
    measure("count, refused 7", count, 7);
    longest();
    expect("length of the longest accepted scheme", scheme_len, 447);
    n = 3;
    measure("check_scheme, longest accepted", check_scheme, 0);
    measure("edit n=3, longest accepted scheme", edit, 0);
    n = 2;
    measure("edit, refused 6", edit, 6);
    polygon(N / 2);
    use(split, sizeof split);
    measure("check_scheme, small", check_scheme, 0);
    measure("edit n=2, split an edge", edit, 0);
    use(look, sizeof look);
    measure("edit n=2, look at an edge", edit, 0);
    polygon(N);
    use(drop, sizeof drop);
    measure("edit n=2, drop a piece of 1024 darts", edit, 0);
    polygon(N);
    use(split, sizeof split);
    measure("edit, refused 10", edit, 10);
    table[0] = 2;
    measure("edit, refused 7", edit, 7);
    table[0] = 1;
    scheme_len--;
    measure("edit, refused 2", edit, 2);
    polygons(2, N / 2);
    other = N / 2;
    use(sew, sizeof sew);
    measure("check_scheme, two hooks", check_scheme, 0);
    measure("edit2 n=2, sew two edges", edit2, 0);
    polygons(2, N / 2);
    use(sew_faces, sizeof sew_faces);
    measure("edit2 n=2, sew two faces of 512 darts", edit2, 0);
    polygons(2, N / 2);
    use(sew3, sizeof sew3);
    n = 3;
    measure("edit2 n=3, sew two faces of 512 darts", edit2, 0);
    polygons(2, N / 2);
    other = 0;
    measure("edit2, refused 9", edit2, 9);
    other = N;
    measure("edit2, refused 8", edit2, 8);
    scheme_len--;
    measure("edit2, refused 2", edit2, 2);
    longest_form();
    expect("length of the longest scheme in the form", scheme_len, GMAP_MAX_SCHEME);
    measure("check_scheme, longest form", check_scheme, 4);
    n = 2;
    polygon(N / 2);
    use(split_donor, sizeof split_donor);
    measure("check_scheme, donors", check_scheme, 0);
    measure("edit n=2, split an edge, donors", edit, 0);
    polygon(N);
    use(renew_piece, sizeof renew_piece);
    measure("edit n=2, renew a piece of 1024 darts", edit, 0);
    polygons(2, N / 2);
    other = N / 2;
    use(exchange, sizeof exchange);
    measure("edit2 n=2, renew two pieces of 512 darts", edit2, 0);
    polygons(2, N / 6 / 2 * 2);
    other = N / 6 / 2 * 2;
    use(tube, sizeof tube);
    measure("check_scheme, two hooks and donors", check_scheme, 0);
    measure("edit2 n=2, tube of 680 new darts", edit2, 0);
    scheme[sizeof tube - 1] = 4;
    measure("edit2, donors, refused 4", edit2, 4);
    return wrong != 0;
}

/* perf.c - base_* and gmap_* side by side in one process; perf/run builds and runs it.
 *   perf [REPS]     median times (ns), interleaved base/gmap, and their ratio
 *   perf instr      one call of each under callgrind, for perf/run --instructions
 * State is restored outside the timed part; both use the same buffers.  The two
 * answers of a row, and the counts, must be equal and as wanted, or the run ends there. */
#define _GNU_SOURCE
#include "baseline.h"
#include "gmap.h"
#include <stdio.h>
#include <stdlib.h>
#include <string.h>
#include <time.h>
#include <unistd.h>
#include <sys/syscall.h>
#if defined(__linux__)
#include <linux/perf_event.h>
#include <sys/ioctl.h>
#endif
#if defined(__has_include)
#if __has_include(<valgrind/callgrind.h>)
#include <valgrind/callgrind.h>
#define HAVE_CALLGRIND 1
#endif
#endif

typedef uint8_t u8; typedef uint32_t u32; typedef uint64_t u64;
#define N 1024u
#define PIN __attribute__((noinline))

/* --------------------------------------------------------------- the clock */
static u64 now(void)
{
    struct timespec t;
    clock_gettime(CLOCK_MONOTONIC, &t);
    return (u64)t.tv_sec * 1000000000u + (u64)t.tv_nsec;
}
static int cmpd(const void *a, const void *b) { double x = *(const double *)a, y = *(const double *)b; return x < y ? -1 : x > y; }
static double median(double *v, u32 n) { qsort(v, n, sizeof *v, cmpd); return n & 1 ? v[n / 2] : (v[n / 2 - 1] + v[n / 2]) / 2; }
static double clock_cost;
static int pfd = -1;
static void counter_open(void)
{
#if defined(__linux__) && defined(SYS_perf_event_open)
    struct perf_event_attr a; memset(&a, 0, sizeof a);
    a.type = PERF_TYPE_HARDWARE; a.size = sizeof a; a.config = PERF_COUNT_HW_INSTRUCTIONS;
    a.exclude_kernel = 1; a.exclude_hv = 1; a.disabled = 1;
    pfd = (int)syscall(SYS_perf_event_open, &a, 0, -1, -1, 0);
#endif
}

/* ------------------------------------------------------------------- state */
static u32 table[6 * N + 64], table0[6 * N], store[16 * N + 64];
static u8 scheme[700], file[16384], out[16384];
static u32 scheme_len, file_len, out_len, dim, dart, other, store_len, slots = N;
static u32 counts[GMAP_COUNTS], counts_len = GMAP_COUNTS;
typedef enum { CT, CS, ED, E2, LD, LC, WR, CO, CALLS } call;
static const char *const call_names[CALLS] = { "check_table", "check_scheme", "edit", "edit2", "load", "load + check", "write", "count" };

static PIN u64 base_call(call c)
{
    switch (c) {
    case CT: return base_check_table(dim, slots, table, 6 * slots);
    case CS: return base_check_scheme(scheme, scheme_len);
    case ED: return base_edit(dim, slots, table, 6 * slots, store, store_len, scheme, scheme_len, dart);
    case E2: return base_edit2(dim, slots, table, 6 * slots, store, store_len, scheme, scheme_len, dart, other);
    case LD: return base_load(dim, slots, table, 6 * slots, file, file_len);
    case LC: { u64 a = base_load(dim, slots, table, 6 * slots, file, file_len); return a ? a : base_check_table(dim, slots, table, 6 * slots); }
    case CO: return base_count(dim, slots, table, 6 * slots, store, store_len, counts, counts_len);
    default: return base_write(dim, slots, table, 6 * slots, out, out_len);
    }
}
static PIN u64 gmap_call(call c)
{
    switch (c) {
    case CT: return gmap_check_table(dim, slots, table, 6 * slots);
    case CS: return gmap_check_scheme(scheme, scheme_len);
    case ED: return gmap_edit(dim, slots, table, 6 * slots, store, store_len, scheme, scheme_len, dart);
    case E2: return gmap_edit2(dim, slots, table, 6 * slots, store, store_len, scheme, scheme_len, dart, other);
    case LD: return gmap_load(dim, slots, table, 6 * slots, file, file_len);
    case LC: { u64 a = gmap_load(dim, slots, table, 6 * slots, file, file_len); return a ? a : gmap_check_table(dim, slots, table, 6 * slots); }
    case CO: return gmap_count(dim, slots, table, 6 * slots, store, store_len, counts, counts_len);
    default: return gmap_write(dim, slots, table, 6 * slots, out, out_len);
    }
}
static void restore(call c)
{
    memcpy(table, table0, sizeof table0);
    if (c == ED || c == E2 || c == CO) memset(store, 0x5A, 64 * N);
}

/* -------------------------------------------------------------------- maps */
static u32 L;
static void zero(void) { memset(table0, 0, sizeof table0); L = 0; }
#define AL(x, i) table0[6 * (x) + 1 + (i)]
static void dart_at(u32 x) { u32 *r = table0 + 6 * x; r[0] = 1; for (u32 i = 0; i < 4; i++) r[1 + i] = x; r[5] = x * 2654435761u; }
static void join(u32 x, u32 y, u32 i) { AL(x, i) = y; AL(y, i) = x; }
static u32 polygon(u32 edges)          /* darts first .. first + 2 edges - 1 */
{
    u32 f = L;
    for (u32 e = 0; e < 2 * edges; e++) dart_at(L++);
    for (u32 e = 0; e < edges; e++) { join(f + 2 * e, f + 2 * e + 1, 0); join(f + 2 * e + 1, f + (2 * e + 2) % (2 * edges), 1); }
    return f;
}
/* A torus of w x h squares: edge e of a square is darts 2e, 2e+1; edges S E N W. */
static u32 torus(u32 w, u32 h)
{
    u32 f = L;
    for (u32 q = 0; q < w * h; q++) polygon(4);
    for (u32 y = 0; y < h; y++)
        for (u32 x = 0; x < w; x++) {
            u32 a = f + 8 * (y * w + x), e = f + 8 * (y * w + (x + 1) % w), n = f + 8 * ((y + 1) % h * w + x);
            join(a + 2, e + 7, 2); join(a + 3, e + 6, 2);     /* E to W */
            join(a + 4, n + 1, 2); join(a + 5, n + 0, 2);     /* N to S */
        }
    return f;
}
static void mirror(u32 f, u32 m) { for (u32 x = 0; x < m; x++) join(f + x, f + m + x, 3); }
static void mirrored(u32 w, u32 m) { u32 f = torus(w, 8); torus(w, 8); mirror(f, m); }
static u32 moved[N];                   /* where shuffle put each slot */
static void shuffle(void)              /* slots in no order */
{
    static u32 t[6 * N];
    u64 s = 12345;
    for (u32 x = 0; x < N; x++) moved[x] = x;
    for (u32 x = N; x > 1; x--) {
        s = s * 6364136223846793005u + 1442695040888963407u;
        u32 y = (u32)((s >> 33) % x), z = moved[x - 1];
        moved[x - 1] = moved[y];
        moved[y] = z;
    }
    for (u32 x = 0; x < N; x++) {
        u32 *r = t + 6 * moved[x];
        memcpy(r, table0 + 6 * x, 24);
        if (r[0]) for (u32 i = 0; i < 4; i++) r[1 + i] = moved[r[1 + i]];
    }
    memcpy(table0, t, sizeof t);
    for (dart = 0; table0[6 * dart] != 1; dart++) ;
}

/* ----------------------------------------------------------------- schemes */
static void text(const char *t)        /* as in the catalogue of tests/differential/fuzz.c */
{
    u8 *b = scheme; u32 k = 0; u8 *count;
    const char *hook = strstr(t, ";h"), *donor = strstr(t, ";d");
    *b++ = (u8)(*t++ - '0' + (hook ? 32 : 0) + (donor ? 16 : 0)); t++;
    if (donor) donor += 2;
    count = b++;
    while (*t != ';') { *b++ = (u8)(*t++ - '0'); k++; }
    *count = (u8)k; t++;
    count = b++; *count = 0;
    while (*t != ';') {
        char kd = *t++;
        ++*count;
        *b++ = kd == 'D' ? 1 : kd == 'P' ? 2 : 3;
        for (u32 p = 0; p < k; p++) *b++ = kd == 'A' ? 255 : *t == '_' ? (t++, 255) : (u8)(*t++ - '0');
        if (kd == 'P') t++;
        for (u32 p = 0; p < k; p++) *b++ = kd == 'D' ? 255 : *t == '_' ? (t++, 255) : (u8)(*t++ - '0');
        if (donor && kd == 'A') *b++ = (u8)(*donor++ - '0');
        while (*t == ' ') t++;
    }
    if (hook) *b++ = (u8)(hook[2] - '0');
    t++;
    for (int side = 0; side < 2; side++) {
        count = b++; *count = 0;
        while (*t && *t != ';') { ++*count; for (int e = 0; e < 3; e++) *b++ = (u8)(*t++ - '0'); while (*t == ' ') t++; }
        if (*t) t++;
    }
    scheme_len = (u32)(b - scheme);
}
/* The longest accepted scheme, 447 bytes: sixteen preserved nodes on a path of
 * dimensions 1, 2, 1, ..., other links loops, 45 left arcs and 64 right loops. */
static void longest_accepted(void)
{
    u8 *b = scheme;
    static const u8 head[] = { 3, 3, 0, 2, 3, 16 };
    memcpy(b, head, 6); b += 6;
    for (u32 v = 0; v < 16; v++) {
        *b++ = 2;
        memset(b, 255, 6);
        if (v == 0) { b[0] = 0; b[1] = 2; b[2] = 3; }
        if (v == 1) b[2] = 3;
        b += 6;
    }
    u8 *count = b++; *count = 0;
    for (u32 i = 0; i < 4; i++)
        for (u32 v = 0; v < 16; v++) {
            int w = -1;
            if ((i == 1 && v % 2 == 0) || (i == 2 && v % 2 == 1 && v < 15)) w = (int)v + 1;
            else if (i == 0 && v > 0) w = (int)v;
            else if (i == 3 && v > 1) w = (int)v;
            else if (i == 2 && v == 15) w = 15;
            if (w >= 0) { *b++ = (u8)i; *b++ = (u8)v; *b++ = (u8)w; ++*count; }
        }
    *b++ = 64;
    for (u32 i = 0; i < 4; i++) for (u32 v = 0; v < 16; v++) { *b++ = (u8)i; *b++ = (u8)v; *b++ = (u8)v; }
    scheme_len = (u32)(b - scheme);
}
/* 537 bytes in the form, 538 with a second hook: k = 4 fills node 0's left side, so with
 * 64 left arcs it can only be refused (3 or 4); here every node is reached and it is 4 at node 0. */
static void longest_form(u32 second)   /* the second hook, 0 for none */
{
    u8 *b = scheme;
    static const u8 head[] = { 3, 4, 0, 1, 2, 3, 16 };
    memcpy(b, head, 7); b += 7;
    for (u32 v = 0; v < 16; v++) { *b++ = 2; for (u32 p = 0; p < 8; p++) *b++ = (u8)(p & 3); }
    if (second) { scheme[0] += 32; *b++ = (u8)second; }
    for (int side = 0; side < 2; side++) {
        *b++ = 64;
        for (u32 i = 0; i < 4; i++) for (u32 v = 0; v < 16; v++) { *b++ = (u8)i; *b++ = (u8)v; *b++ = (u8)(v < 15 ? v + 1 : v); }
    }
    scheme_len = (u32)(b - scheme);
}
/* 548 bytes in the form, with a second hook and donors: 64 left arcs need six left nodes,
 * so at most ten nodes are added; it is 4 at node 0 as above. */
static void longest_form_with_donors(void)
{
    u8 *b = scheme;
    static const u8 head[] = { 3 + 32 + 16, 4, 0, 1, 2, 3, 16 };
    memcpy(b, head, 7); b += 7;
    for (u32 v = 0; v < 16; v++) {
        *b++ = v < 6 ? 2 : 3;
        for (u32 p = 0; p < 8; p++) *b++ = v < 6 || p > 3 ? (u8)(p & 3) : 255;
        if (v >= 6) *b++ = (u8)(v % 6);
    }
    *b++ = 5;
    *b++ = 64;
    for (u32 a = 0, i = 0; i < 4; i++)
        for (u32 v = 0; v < 6; v++) for (u32 w = v; w < 6 && a < 64; w++, a++) { *b++ = (u8)i; *b++ = (u8)v; *b++ = (u8)w; }
    *b++ = 64;
    for (u32 i = 0; i < 4; i++) for (u32 v = 0; v < 16; v++) { *b++ = (u8)i; *b++ = (u8)v; *b++ = (u8)(v < 15 ? v + 1 : v); }
    scheme_len = (u32)(b - scheme);
}

/* ------------------------------------------------------------------ timing */
static u32 reps = 2001;
static int instr_mode;
static struct { double worst, product; const char *name; u32 rows; } summary[CALLS + 1];   /* the last is of all calls */
static double base_ns, gmap_ns;        /* of the last row */

static double timed(u64 (*f)(call), call c, u32 batch)
{
    u64 a = now(), s = 0;
    for (u32 e = 0; e < batch; e++) s |= f(c);
    u64 b = now();
    __asm__ volatile("" : : "r"(s) : "memory");
    return ((double)(b - a) - clock_cost) / batch;
}
static u64 instructions(u64 (*f)(call), call c)
{
    u64 v = 0;
#if defined(__linux__)
    restore(c); ioctl(pfd, PERF_EVENT_IOC_RESET, 0); ioctl(pfd, PERF_EVENT_IOC_ENABLE, 0);
    f(c);
    ioctl(pfd, PERF_EVENT_IOC_DISABLE, 0);
    if (read(pfd, &v, 8) != 8) v = 0;
#endif
    return v;
}
static void note(u32 e, double ratio, const char *name)
{
    if (summary[e].rows++ == 0) summary[e].product = 1;
    summary[e].product *= ratio;
    if (ratio > summary[e].worst) { summary[e].worst = ratio; summary[e].name = name; }
}
static void measure(const char *name, call c, int batched, u64 want)
{
    static double va[20001], vb[20001];
    u32 counted[GMAP_COUNTS];
    memset(counts, 0, sizeof counts);
    restore(c); u64 a = base_call(c);
    memcpy(counted, counts, sizeof counts);
    memset(counts, 0, sizeof counts);
    restore(c); u64 b = gmap_call(c);
    u64 num = a >> 63 ? a & 255 : 0;
    if (num != want) { printf("%-50s unexpected answer %016llx\n", name, (unsigned long long)a); exit(2); }
    if (a != b) { printf("%-50s ANSWERS DIFFER %016llx %016llx\n", name, (unsigned long long)a, (unsigned long long)b); exit(1); }
    if (memcmp(counted, counts, sizeof counts)) { printf("%-50s COUNTS DIFFER\n", name); exit(1); }
#if defined(HAVE_CALLGRIND)
    if (instr_mode) {                  /* run with --collect-atstart=no */
        char la[100], lb[100];
        snprintf(la, sizeof la, "base|%s", name);
        snprintf(lb, sizeof lb, "gmap|%s", name);
        restore(c); CALLGRIND_ZERO_STATS; CALLGRIND_TOGGLE_COLLECT; base_call(c); CALLGRIND_TOGGLE_COLLECT; CALLGRIND_DUMP_STATS_AT(la);
        restore(c); CALLGRIND_ZERO_STATS; CALLGRIND_TOGGLE_COLLECT; gmap_call(c); CALLGRIND_TOGGLE_COLLECT; CALLGRIND_DUMP_STATS_AT(lb);
        return;
    }
#endif
    u32 batch = 1;
    restore(c);
    if (batched) {                     /* about 20 us a batch */
        double one = timed(base_call, c, 64);
        batch = one < 1 ? 4096 : (u32)(20000 / one) + 1;
    }
    for (u32 r = 0; r < reps; r++) {
        for (u32 h = 0; h < 2; h++) {
            restore(c);
            if ((r ^ h) & 1) vb[r] = timed(gmap_call, c, batch);
            else va[r] = timed(base_call, c, batch);
        }
    }
    double ma = median(va, reps), mb = median(vb, reps), ratio = mb / ma;
    printf("%-50s %10.1f %10.1f %8.3f", name, ma, mb, ratio);
    if (pfd >= 0) printf(" %9llu %9llu", (unsigned long long)instructions(base_call, c), (unsigned long long)instructions(gmap_call, c));
    printf("\n");
    base_ns = ma; gmap_ns = mb;
    note(c, ratio, name);
    note(CALLS, ratio, name);
}
/* The number whose rows-th power is the product, without libm. */
static double geometric_mean(double product, u32 rows)
{
    double lo = 0, hi = 1e6;
    for (u32 e = 0; e < 200; e++) {
        double mid = (lo + hi) / 2, p = 1;
        for (u32 q = 0; q < rows && p < 1e250 && p > 1e-250; q++) p *= mid;
        if (p > product) hi = mid; else lo = mid;
    }
    return (lo + hi) / 2;
}
static void summarize(void)
{
    printf("%-50s %10s %10s\n", "ratio by call", "mean", "worst");
    for (u32 e = 0; e <= CALLS; e++)
        printf("%-50s %10.3f %10.3f  (%s)\n", e < CALLS ? call_names[e] : "all",
                   geometric_mean(summary[e].product, summary[e].rows), summary[e].worst, summary[e].name);
}
static PIN void floor_memset(void) { memset(store, 0, 64 * N); __asm__ volatile("" : : "r"(store) : "memory"); }
static PIN void floor_memcpy(void) { memcpy(table, table0, 24 * N); __asm__ volatile("" : : "r"(table) : "memory"); }
static PIN void floor_memset_t(void) { memset(table, 0, 24 * N); __asm__ volatile("" : : "r"(table) : "memory"); }
static void floor_of(const char *name, void (*f)(void))
{
    static double v[2001];
    for (u32 r = 0; r < 2001; r++) { u64 a = now(); for (u32 e = 0; e < 16; e++) f(); u64 b = now(); v[r] = ((double)(b - a) - clock_cost) / 16; }
    printf("%-50s %10.1f\n", name, median(v, 2001));
}
static void edit(const char *name, u64 want) { measure(name, ED, want != 0, want); }
static void edit2(const char *name, u64 want) { measure(name, E2, want != 0, want); }

/* The same edit, or a count where no operation is given, on tables of 64 to 1,024 slots, live to the given part: how the time grows. */
static void growth(const char *name, const char *operation, u32 part)
{
    static char names[20][64];
    static u32 used;
    double base_first = 0, gmap_first = 0;
    dim = 2; dart = 0;
    if (operation) text(operation);
    for (slots = 64; slots <= N; slots *= 2) {
        u32 squares = slots / part / 8;
        char *row = names[used++];
        snprintf(row, sizeof names[0], "%s n=2 %s of %u slots", operation ? "edit" : "count", name, slots);
        zero(); torus(squares < 8 ? 1 : squares / 8, squares < 8 ? squares : 8);
        store_len = 16 * slots;
        measure(row, operation ? ED : CO, !operation, 0);
        if (slots == 64) { base_first = base_ns; gmap_first = gmap_ns; }
    }
    slots = N; store_len = 16 * N;
    if (!instr_mode) printf("%-50s %9.1fx %9.1fx\n", "  1,024 slots against 64 (linear: 16x)", base_ns / base_first, gmap_ns / gmap_first);
}

int main(int argc, char **argv)
{
    if (argc > 1 && !strcmp(argv[1], "instr")) instr_mode = 1;
    else if (argc > 1) reps = (u32)atoi(argv[1]);
    if (reps < 3) reps = 3;
    if (reps > 20000) reps = 20000;
    static double v[2001];
    for (u32 r = 0; r < 2001; r++) { u64 a = now(), b = now(); v[r] = (double)(b - a); }
    clock_cost = median(v, 2001);
    counter_open();
    store_len = 16 * N; out_len = 14345;
    if (!instr_mode) {
        printf("N = 1024, %u repetitions, median ns; clock %.0f ns taken off%s\n", reps, clock_cost,
               pfd >= 0 ? "" : "; no instruction counter here (perf/run --instructions)");
        zero(); torus(16, 8);
        floor_of("floor: memset of the store (64 KiB)", floor_memset);
        floor_of("floor: memcpy of the table (24 KiB)", floor_memcpy);
        floor_of("floor: memset of the table (24 KiB)", floor_memset_t);
        printf("%-50s %10s %10s %8s%s\n", "", "base", "gmap", "ratio", pfd >= 0 ? "   i.base    i.gmap" : "");
    }
    /* tables */
    dim = 2; zero(); torus(16, 8);            measure("check_table n=2 full", CT, 1, 0);
    shuffle();                                measure("check_table n=2 full, slots shuffled", CT, 1, 0);
    dim = 3; zero(); mirrored(8, 512); measure("check_table n=3 full", CT, 1, 0);
    shuffle();                                measure("check_table n=3 full, slots shuffled", CT, 1, 0);
    dim = 2; zero();                          measure("check_table n=2 empty", CT, 1, 0);
    dim = 2; zero(); torus(8, 8); shuffle();  measure("check_table n=2 half live, shuffled", CT, 1, 0);
    /* schemes */
    text("2;02;P02>_2 A12;;001");             measure("check_scheme small (V, 20 bytes)", CS, 1, 0);
    text("3;01;P01>01 A01 A0_ A_2 A_2 A0_ A01;300;034 123 145 212 256 301 322 333 344 355 366");
                                              measure("check_scheme middle (prism on face)", CS, 1, 0);
    longest_accepted();
    if (scheme_len != 447) { printf("longest accepted: %u bytes\n", scheme_len); return 2; }
                                              measure("check_scheme longest accepted (447 bytes)", CS, 1, 0);
    longest_form(0);
    if (scheme_len != 537) { printf("longest form: %u bytes\n", scheme_len); return 2; }
                                              measure("check_scheme longest form (537 bytes): 4", CS, 1, 4);
    longest_form(15);
    if (scheme_len != 538) { printf("longest form, two hooks: %u bytes\n", scheme_len); return 2; }
                                              measure("check_scheme longest form, two hooks (538): 4", CS, 1, 4);
    text("2;0;P0>0 P0>0 A0 A_ A_ A0;200 211;034 123 145 202 215 233 244;h1");
                                              measure("check_scheme two hooks (bridge edges)", CS, 1, 0);
    longest_form_with_donors();
    if (scheme_len != 548) { printf("longest form, two hooks and donors: %u bytes\n", scheme_len); return 2; }
                                              measure("check_scheme longest form, hooks, donors (548): 4", CS, 1, 4);
    text("2;01;P01>01 P01>01 A0_ A_2 A_2 A0_;200 211;034 123 145 202 215;h1;d0011");
                                              measure("check_scheme two hooks and donors (tube)", CS, 1, 0);
    /* edits, small orbits */
    dim = 2; zero(); torus(16, 7); dart = 5;
    text("2;;P> P>;001;001");                 edit("edit n=2 look at edge (orbit 1)", 0);
    text("2;02;P02>_2 A12;;001");             edit("edit n=2 edge split (orbit 4)", 0);
    text("2;02;D02 P__>_1;101;");             edit("edit n=2 edge removal (orbit 4)", 0);
    text("2;01;P01>0_ A_2 A12;;012 101");     edit("edit n=2 face star (orbit 8)", 0);
    shuffle();                                edit("edit n=2 face star (orbit 8), shuffled", 0);
    dim = 3; zero(); mirrored(7, 448); dart = 5;
    text("3;023;P023>_23 A123;;001");         edit("edit n=3 edge split (orbit 8)", 0);
    text("3;013;D013 P0__>0_2;201;");         edit("edit n=3 face removal (orbit 16)", 0);
    /* edits, whole maps */
    dim = 2; zero(); torus(16, 8); dart = 0;
    text("2;012;P012>210;;");                 edit("edit n=2 dual (orbit 1024)", 0);
    text("2;012;D012;;");                     edit("edit n=2 drop piece (orbit 1024)", 0);
    zero(); torus(8, 8);
    text("2;012;P012>012 A012;;");            edit("edit n=2 copy piece (orbit 512)", 0);
    zero(); torus(8, 4);
    text("2;012;P012>_12 A__2 A2__ A21_;;001 023 112"); edit("edit n=2 quad subdivision (orbit 256)", 0);
    shuffle();                                edit("edit n=2 quad subdivision (orbit 256), shuffled", 0);
    zero(); polygon(170);
    text("2;01;P01>0_ A_2 A12;;012 101");     edit("edit n=2 star of a 170-gon (orbit 340)", 0);
    dim = 3; zero(); mirrored(8, 512); dart = 0;
    text("3;0123;P0123>3210;;");              edit("edit n=3 dual (orbit 1024)", 0);
    text("3;012;D012 P01_>01_;301;311");      edit("edit n=3 drop volume (orbit 512, two nodes)", 0);
    text("3;012;P012>012 P012>012;301;300 311"); edit("edit n=3 unsew volumes (orbit 512, two nodes)", 0);
    zero(); torus(8, 4);
    text("3;012;P012>01_ A0_3 A_23 A123;;023 112 201"); edit("edit n=3 volume cone (orbit 256)", 0);
    text("3;012;P012>012 A012;300;301");      edit("edit n=3 mirror volume (orbit 256)", 0);
    zero(); for (u32 e = 0; e < 16; e++) dart_at(e);
    for (u32 e = 0; e < 15; e++) join(e, e + 1, e % 2 ? 2 : 1);
    longest_accepted(); dart = 0;             edit("edit n=3 longest scheme, 16 nodes (orbit 1)", 0);
    /* refused edits */
    dim = 2; zero(); torus(16, 8); dart = 0; text("2;02;P02>_2 A12;;001");
    store_len = 16 * N - 1;                   edit("edit refused 1 (store length)", 1); store_len = 16 * N;
    scheme_len++; scheme[scheme_len - 1] = 0; edit("edit refused 2 (a byte too many)", 2);
    text("2;02;P02>_2 P__>__;;");             edit("edit refused 3 (node 1 unreached)", 3);
    text("2;02;P02>_2 A12;;");                edit("edit refused 4 (P5)", 4);
    text("2;02;P02>_2 A1_;;001 211");         edit("edit refused 5 (P6)", 5);
    text("3;023;P023>_23 A123;;001");         edit("edit refused 6", 6);
    text("2;02;P02>_2 A12;;001");
    AL(1023, 3) = 0;                          edit("edit refused 7 (last slot)", 7); AL(1023, 3) = 1023;
    AL(0, 3) = 1;                             edit("edit refused 7 (first slot)", 7); AL(0, 3) = 0;
    dart = 1024;                              edit("edit refused 8", 8); dart = 0;
    text("2;;P>;200;200");                    edit("edit refused 9 (orbit 1)", 9);
    text("2;012;P012>012 ;;"); text("2;01;P01>01;200;200");
    zero(); polygon(512); join(1020, 1022, 2); join(1021, 1023, 2);
                                              edit("edit refused 9 (orbit 1024, one edge)", 9);
    zero(); torus(16, 8);
    text("2;02;P02>_2 A12;;001");             edit("edit refused 10 (orbit 4)", 10);
    text("2;012;P012>012 A012;;");            edit("edit refused 10 (orbit 1024)", 10);
    /* edits at two darts */
    dim = 2; zero(); for (u32 e = 0; e < 128; e++) polygon(4);
    dart = 0; other = 8;
    text("2;0;P0>0 P0>0;200 211;201;h1");     edit2("edit2 n=2 sew edges (orbit 2)", 0);
    other = 0;                                edit2("edit2 refused 9 (both darts one)", 9);
    zero(); for (u32 e = 0; e < 112; e++) polygon(4);
    other = 8;
    text("2;0;P0>0 P0>0 A0 A_ A_ A0;200 211;034 123 145 202 215 233 244;h1");
                                              edit2("edit2 n=2 bridge edges (orbit 2, four added)", 0);
    zero(); polygon(256); other = polygon(256);
    text("2;01;P01>01 P01>01;200 211;201;h1"); edit2("edit2 n=2 sew faces (orbit 512)", 0);
    dim = 3; zero(); torus(8, 8); other = torus(8, 8);
    text("3;012;P012>012 P012>012;300 311;301;h1"); edit2("edit2 n=3 sew volumes (orbit 512)", 0);
    shuffle(); dart = moved[0]; other = moved[512]; edit2("edit2 n=3 sew volumes (orbit 512), shuffled", 0);
    zero(); dart = torus(8, 8); other = torus(16, 4); edit2("edit2 refused 9 (orbit 512, other piece)", 9);
    other = N;                                edit2("edit2 refused 8 (the other dart)", 8);
    text("3;012;P012>012 P012>012;301;300 311"); edit2("edit2 refused 2 (one hook)", 2);
    /* edits with donors */
    dim = 2; zero(); polygon(170); dart = 0;
    text("2;01;P01>0_ A_2 A12;;012 101;d00"); edit("edit n=2 star of a 170-gon, donors (orbit 340)", 0);
    zero(); torus(8, 4);
    text("2;012;D012 A012 A210;;;d00");       edit("edit n=2 piece to two, donor deleted (orbit 256)", 0);
    scheme[20] = 2;                           edit("edit refused 2 (a donor that is added)", 2);
    zero(); for (u32 e = 0; e < 112; e++) polygon(4);
    other = 8;
    text("2;0;P0>0 P0>0 A0 A_ A_ A0;200 211;034 123 145 202 215 233 244;h1;d0011");
                                              edit2("edit2 n=2 bridge edges, donors (orbit 2)", 0);
    zero(); polygon(85); other = polygon(85);
    text("2;01;P01>01 P01>01 A0_ A_2 A_2 A0_;200 211;034 123 145 202 215;h1;d0011");
                                              edit2("edit2 n=2 tube, donors (orbit 170, four added)", 0);
    /* edits that delete and add, in full tables */
    zero(); torus(16, 8); dart = 0;
    text("2;012;D012 A012;;");                edit("edit n=2 renew piece, full table (orbit 1024)", 0);
    shuffle();                                edit("edit n=2 renew piece, full table, shuffled", 0);
    zero(); polygon(256); polygon(256); for (u32 x = 0; x < 512; x++) join(x, 512 + x, 2);
    dart = 0;
    text("2;2;P2>2 D2 D2 P2>2 A2 A2;001 023 112;004 035 145;d12");
                                              edit("edit n=2 renew corner, full table (orbit 2)", 0);
    shuffle();                                edit("edit n=2 renew corner, full table, shuffled", 0);
    zero(); torus(16, 8); dart = 0;
    text("2;02;D02 P__>_1 A02;101;122");      edit("edit n=2 edge off its faces, full (orbit 4)", 0);
    dim = 3; zero(); mirrored(8, 512);
    text("3;012;D012 P012>012 A012;301;312"); edit("edit n=3 renew volume, full table (orbit 512)", 0);
    shuffle();                                edit("edit n=3 renew volume, full table, shuffled", 0);
    dim = 2; zero(); dart = torus(8, 8); other = torus(8, 8);
    text("2;012;D012 D012 A012;;;h1;d1");     edit2("edit2 n=2 two pieces to one, full (orbit 512)", 0);
    shuffle(); dart = moved[0]; other = moved[512]; edit2("edit2 n=2 two pieces to one, full, shuffled", 0);
    zero(); torus(16, 8); dart = 0;
    text("2;012;D012 A012 A210;;");           edit("edit refused 10 (orbit 1024, room freed)", 10);
    /* counts */
    dim = 2; zero(); torus(16, 8);            measure("count n=2 full", CO, 1, 0);
    shuffle();                                measure("count n=2 full, slots shuffled", CO, 1, 0);
    dim = 3; zero(); mirrored(8, 512);        measure("count n=3 full", CO, 1, 0);
    shuffle();                                measure("count n=3 full, slots shuffled", CO, 1, 0);
    dim = 2; zero(); torus(8, 8); shuffle();  measure("count n=2 half live, shuffled", CO, 1, 0);
    zero(); polygon(512);                     measure("count n=2 one face of 1024 darts", CO, 1, 0);
    zero(); for (u32 x = 0; x < N; x++) dart_at(x);
                                              measure("count n=2 1024 lone darts", CO, 1, 0);
    zero();                                   measure("count n=2 empty", CO, 1, 0);
    counts_len = 5;                           measure("count refused 12", CO, 1, 12); counts_len = GMAP_COUNTS;
    zero(); torus(16, 8); AL(1023, 3) = 0;    measure("count refused 7 (last slot)", CO, 1, 7);
    store_len--;                              measure("count refused 1 (store length)", CO, 1, 1); store_len++;
    /* files */
    for (dim = 2; dim <= 3; dim++) {
        zero(); if (dim == 2) torus(16, 8); else mirrored(8, 512);
        restore(CT); file_len = (u32)base_write(dim, N, table, 6 * N, file, sizeof file);
        measure(dim == 2 ? "write n=2 (12297 bytes)" : "write n=3 (14345 bytes)", WR, 1, 0);
        measure(dim == 2 ? "load n=2 (12297 bytes)" : "load n=3 (14345 bytes)", LD, 1, 0);
        measure(dim == 2 ? "load + check n=2 (12297 bytes)" : "load + check n=3 (14345 bytes)", LC, 1, 0);
        if (dim == 2) continue;
        out_len = 14344;                      measure("write refused 12", WR, 1, 12); out_len = 14345;
        file_len--;                           measure("load refused 11 (a byte short)", LD, 1, 11); file_len++;
        file[2049]++;                         measure("load refused 11 (last slot twice)", LD, 1, 11); file[2049]--;
        file[14344] = 255;                    measure("load of a broken map (last link)", LD, 1, 0);
                                              measure("load + check refused 7 (last link)", LC, 1, 7);
    }
    growth("drop piece, full table", "2;012;D012;;", 1);
    growth("renew piece, full table", "2;012;D012 A012;;", 1);
    growth("edge split, half full table", "2;02;P02>_2 A12;;001", 2);
    growth("full table", NULL, 1);
    if (!instr_mode) summarize();
    return 0;
}

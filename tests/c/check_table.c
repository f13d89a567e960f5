/* The table check through the C interface: the samples P1 to P3, the sizes that are run only, and each rule broken once. */
#include "gmap.h"
#include "check.h"
#include <string.h>

enum { N = 8, MOST = 1024 };

/* The sample map E: n = 2, live 0 and 1, a0 exchanges them, other links loops; unused words hold anything. */
static void sample(uint32_t *t)
{
    static const uint32_t darts[12] = { 1, 1, 0, 0, 0, 7, 1, 0, 1, 1, 1, 9 };
    for (int w = 0; w < 6 * N; w++) t[w] = w % 6 == 0 ? 0 : 900u + (uint32_t)w;
    memcpy(t, darts, sizeof darts);
}

static uint64_t with(uint32_t n, int word, uint32_t value)
{
    uint32_t t[6 * N];
    sample(t);
    t[word] = value;
    return gmap_check_table(n, N, t, 6 * N);
}

int main(void)
{
    uint32_t t[6 * N];
    sample(t);
    expect("P1", gmap_check_table(2, N, t, 6 * N), 0);
    expect("P2", with(2, 7, 1), refusal(7));
    static const uint32_t p3[24] = { 1, 1, 0, 2, 0, 0, 1, 0, 1, 1, 1, 0, 1, 3, 2, 0, 2, 0, 1, 2, 3, 3, 3, 0 };
    expect("P3", gmap_check_table(2, 4, p3, 24), refusal(7));

    expect("n = 1", gmap_check_table(1, N, t, 6 * N), refusal(1));
    expect("n = 4", gmap_check_table(4, N, t, 6 * N), refusal(1));
    expect("N = 0", gmap_check_table(2, 0, t, 0), refusal(1));
    expect("a word too few", gmap_check_table(2, N, t, 6 * N - 1), refusal(1));
    expect("a slot too few", gmap_check_table(2, N - 1, t, 6 * N), refusal(1));
    uint32_t *large = calloc(6 * (MOST + 1), sizeof *large);
    expect("N = 1024", gmap_check_table(3, MOST, large, 6 * MOST), 0);
    expect("N = 1025", gmap_check_table(3, MOST + 1, large, 6 * (MOST + 1)), refusal(1));
    free(large);

    expect("n = 3", with(3, 0, 1), 0);
    expect("state 2", with(2, 0, 2), refusal(7));
    expect("state of an unused slot", with(2, 12, 2), refusal(7));
    expect("link to N", with(2, 2, N), refusal(7));
    expect("link to 2^32 - 1", with(2, 3, UINT32_MAX), refusal(7));
    expect("link to an unused slot", with(2, 2, 3), refusal(7));
    expect("one-way link", with(2, 2, 1), refusal(7));
    expect("a3 with n = 2", with(2, 4, 1), refusal(7));
    expect("tags have no constraint", with(2, 5, UINT32_MAX), 0);
    expect("unused words are not consulted", with(2, 13, UINT32_MAX), 0);

    expect("number", gmap_number(refusal(7)), 7);
    expect("number of done", gmap_number(0), 0);
    if (wrong == 0) puts("check_table: all as wanted");
    return wrong != 0;
}

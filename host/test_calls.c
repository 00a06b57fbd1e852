/* The direct calls against an independent implementation: done and refused, with every byte around the buffers watched. */
#include "../include/wko_frames.h"
#include "reference.h"
#include "testing.h"

static uint8_t *in_page, *out_page;

/* A window put where the byte behind it may not be read. */
static const uint8_t *lend(const uint8_t *w, size_t len)
{
    uint8_t *p = at_end(in_page, len);
    memcpy(p, w, len);
    return p;
}

static uint8_t *lend_out(size_t len)
{
    memset(out_page, FILL, (size_t)sysconf(_SC_PAGESIZE));
    return at_end(out_page, len);
}

typedef uint32_t conversion(uint64_t, const uint8_t *, size_t, uint8_t *, size_t);

/* What document 01 says of a conversion. */
static uint32_t expected_conversion(int to_heights, uint64_t n, const uint8_t *w, size_t len, size_t out_len, uint8_t *bytes)
{
    if (n < 1 || n > 16)
        return 256 + 6;
    if (out_len < n)
        return 256 + 1;
    if (len != n || !(to_heights ? ref_is_rank(w, (int)n) : ref_is_height(w, (int)n)))
        return 256 + 8;
    (to_heights ? ref_heights : ref_ranks)(w, (int)n, bytes);
    return 0;
}

static void check_conversion(int to_heights, uint64_t n, const uint8_t *w, size_t len, size_t out_len)
{
    conversion *call = to_heights ? wko_rank_to_height : wko_height_to_rank;
    uint8_t bytes[16] = {0};
    uint8_t *out = lend_out(out_len);
    uint32_t want = expected_conversion(to_heights, n, w, len, out_len, bytes);
    uint32_t got = call(n, lend(w, len), len, out, out_len);
    size_t written = want == 0 ? (size_t)n : 0;
    CHECK(got == want, "conversion %d of n = %llu, length %zu: %u, not %u", to_heights, (unsigned long long)n, len, got, want);
    CHECK(memcmp(out, bytes, written) == 0, "conversion %d of n = %llu: other symbols", to_heights, (unsigned long long)n);
    CHECK(untouched(out_page, out, written, out_len), "conversion %d wrote beside its %zu bytes", to_heights, written);
}

/* Each string of n symbols from 0 to n + 1, both ways. */
static void all_strings(int n)
{
    uint8_t w[16] = {0};
    do {
        check_conversion(1, (uint64_t)n, w, (size_t)n, 16);
        check_conversion(0, (uint64_t)n, w, (size_t)n, (size_t)n);
    } while (ref_next_string(w, n, n + 1));
}

static const uint64_t lengths[] = {0, 1, 2, 8, 15, 16, 17, 18, 255, 256, 257, 4294967297u, UINT64_MAX};

static void refusals_of_conversions(void)
{
    uint8_t w[20] = {1, 1, 1, 1, 1, 1, 1, 1, 1, 1, 1, 1, 1, 1, 1, 1, 1, 1, 1, 1};
    for (size_t k = 0; k < sizeof lengths / sizeof *lengths; k++)
        for (size_t len = 0; len <= 20; len++)
            for (size_t out_len = 0; out_len <= 18; out_len++) {
                check_conversion(1, lengths[k], w, len, out_len);
                check_conversion(0, lengths[k], w, len, out_len);
            }
}

/* Random weak orders of up to 16, one in three with a symbol changed. */
static void random_conversions(long rounds)
{
    for (long k = 0; k < rounds; k++) {
        int n = 1 + (int)random_below(16), damaged = random_below(3) == 0;
        uint8_t h[16], r[16];
        ref_random_heights(random64, n, h);
        ref_ranks(h, n, r);
        if (damaged) {
            h[random_below((uint64_t)n)] = (uint8_t)random_below(k % 2 ? 20 : 256);
            r[random_below((uint64_t)n)] = (uint8_t)random_below(k % 2 ? 20 : 256);
        }
        check_conversion(1, (uint64_t)n, r, (size_t)n, (size_t)n + random_below(4));
        check_conversion(0, (uint64_t)n, h, (size_t)n, (size_t)n + random_below(4));
    }
}

/* The calls on a window under a rule. */
typedef uint32_t rule_call(uint64_t, uint64_t, const uint8_t *, size_t);

static void check_call(const char *name, rule_call *call, uint64_t n, uint64_t rule, const uint8_t *w, size_t len, int accepted)
{
    uint32_t want, got = call(n, rule, lend(w, len), len);
    if (n < 1 || n > 16)
        want = 256 + 6;
    else if (rule < 1 || rule > 3)
        want = 256 + 7;
    else if (len != n || !ref_in_form((int)rule, w, (int)n))
        want = 256 + 8;
    else
        want = (uint32_t)accepted;
    CHECK(got == want, "%s, n = %llu, rule %llu, length %zu: %u, not %u", name, (unsigned long long)n, (unsigned long long)rule, len, got,
          want);
}

/* Whether the reference may look at the window. */
static int good(uint64_t n, uint64_t rule, const uint8_t *w, size_t len)
{
    return n >= 1 && n <= 16 && rule >= 1 && rule <= 3 && len == n && ref_in_form((int)rule, w, (int)n);
}

static void check_next(uint64_t n, uint64_t rule, const uint8_t *w, size_t len)
{
    int symbol = good(n, rule, w, len) ? ref_next_symbol((int)rule, w, (int)n) : 0;
    check_call("next symbol", wko_next_symbol, n, rule, w, len, symbol);
}

static void check_previous(uint64_t n, uint64_t rule, const uint8_t *w, size_t len)
{
    int symbol = good(n, rule, w, len) ? ref_previous_symbol((int)rule, w, (int)n) : 0;
    check_call("previous symbol", wko_previous_symbol, n, rule, w, len, symbol);
}

static void check_rotation(uint64_t n, uint64_t rule, const uint8_t *w, size_t len)
{
    int sound = good(n, rule, w, len);
    check_call("rotation start", wko_rotation_start, n, rule, w, len, sound ? ref_rotation_start((int)rule, w, (int)n) : 0);
    check_call("period", wko_period, n, rule, w, len, sound ? ref_period(w, (int)n) : 0);
}

static void refusals_under_a_rule(void)
{
    static const uint64_t rules[] = {0, 1, 2, 3, 4, 5, 8, 255, 256, 257, 258, 259, 4294967297u, UINT64_MAX};
    uint8_t w[20];
    for (int symbol = 0; symbol <= 1; symbol++) {
        memset(w, symbol, sizeof w);
        for (size_t k = 0; k < sizeof lengths / sizeof *lengths; k++)
            for (size_t r = 0; r < sizeof rules / sizeof *rules; r++)
                for (size_t len = 0; len <= 20; len++) {
                    check_next(lengths[k], rules[r], w, len);
                    check_previous(lengths[k], rules[r], w, len);
                    check_rotation(lengths[k], rules[r], w, len);
                }
    }
}

static void to_ranks(uint8_t *w, int n)
{
    uint8_t r[16];
    ref_ranks(w, n, r);
    memcpy(w, r, (size_t)n);
}

/* Each window of n, in both forms. */
static void all_rotations(int n)
{
    for (uint64_t k = 0; k < ref_count(n); k++) {
        uint8_t w[16];
        ref_window_at(n, k, w);
        check_rotation((uint64_t)n, 2, w, (size_t)n);
        check_rotation((uint64_t)n, 3, w, (size_t)n);
        to_ranks(w, n);
        check_rotation((uint64_t)n, 1, w, (size_t)n);
    }
}

static int random_divisor(int n)
{
    int d;
    do
        d = 1 + (int)random_below((uint64_t)n);
    while (n % d != 0);
    return d;
}

/* Random weak orders, every second one a block again and again, one in eight with a symbol changed. */
static void random_rotations(long rounds)
{
    for (long k = 0; k < rounds; k++) {
        int n = 1 + (int)random_below(16), rule = 1 + (int)random_below(3), block = k % 2 ? random_divisor(n) : n;
        uint8_t w[16];
        ref_random_heights(random64, block, w);
        for (int i = block; i < n; i++)
            w[i] = w[i - block];
        if (random_below(8) == 0)
            w[random_below((uint64_t)n)] = (uint8_t)random_below((uint64_t)n);
        if (rule == 1)
            to_ranks(w, n);
        check_rotation((uint64_t)n, (uint64_t)rule, w, (size_t)n);
    }
}

/* A window read round from where its rotation starts. */
static void read_from_start(int rule, int n, const uint8_t *w, uint8_t *read)
{
    uint32_t start = wko_rotation_start((uint64_t)n, (uint64_t)rule, w, (size_t)n);
    for (int i = 0; i < n; i++)
        read[i] = w[((int)start - 1 + i) % n];
}

static int on_one_ring(const uint8_t *u, const uint8_t *v, int n)
{
    for (int turn = 0; turn < n; turn++) {
        int same = 1;
        for (int i = 0; i < n; i++)
            same &= u[(turn + i) % n] == v[i];
        if (same)
            return 1;
    }
    return 0;
}

/* Read from there, two windows are equal just if they lie on one ring; and a ring has as many windows as its period says. For n up to 5. */
static void rings(int rule, int n)
{
    static uint8_t windows[541][16], read[541][16];
    int count = (int)ref_count(n);
    for (int k = 0; k < count; k++) {
        ref_window_at(n, (uint64_t)k, windows[k]);
        if (rule == 1)
            to_ranks(windows[k], n);
        read_from_start(rule, n, windows[k], read[k]);
    }
    for (int k = 0; k < count; k++) {
        uint32_t on_ring = 0, period = wko_period((uint64_t)n, (uint64_t)rule, windows[k], (size_t)n);
        for (int j = 0; j < count; j++) {
            int one = on_one_ring(windows[k], windows[j], n);
            on_ring += (uint32_t)one;
            CHECK((memcmp(read[k], read[j], (size_t)n) == 0) == one, "windows %d and %d of n = %d on one ring, rule %d", k, j, n, rule);
        }
        CHECK(on_ring == period, "the ring of window %d of n = %d, rule %d, has %u windows, not %u", k, n, rule, on_ring, period);
    }
}

/* Document 02, Paper 5, and a window whose ends agree though nothing in it repeats. */
static void worked_rotations(void)
{
    const uint8_t pairs[4] = {3, 1, 3, 1}, ones[4] = {1, 1, 1, 1}, border[3] = {1, 3, 1}, heights[4] = {0, 1, 0, 1};
    CHECK(wko_rotation_start(4, 1, pairs, 4) == 2 && wko_period(4, 1, pairs, 4) == 2, "3131 starts at 2 and has 2 rotations");
    CHECK(wko_rotation_start(4, 1, ones, 4) == 1 && wko_period(4, 1, ones, 4) == 1, "1111 starts at 1 and has 1 rotation");
    CHECK(wko_rotation_start(3, 1, border, 3) == 3 && wko_period(3, 1, border, 3) == 3, "131 starts at 3 and has 3 rotations");
    CHECK(wko_rotation_start(4, 2, heights, 4) == 2 && wko_period(4, 3, heights, 4) == 2, "0101 starts at 2 and has 2 rotations");
}

/* Random weak orders under each rule, one in four with a symbol changed or of another length; one in five stepped back, too. */
static void random_symbols(long rounds)
{
    for (long k = 0; k < rounds; k++) {
        int n = 1 + (int)random_below(16), rule = 1 + (int)random_below(3);
        size_t len = (size_t)n;
        uint8_t w[17] = {0};
        ref_random_heights(random64, n, w);
        if (rule == 1)
            to_ranks(w, n);
        if (random_below(4) == 0)
            w[random_below((uint64_t)n)] = (uint8_t)random_below(k % 2 ? 20 : 256);
        if (random_below(32) == 0)
            len += random_below(2) ? 1 : -1;
        check_next((uint64_t)n, (uint64_t)rule, w, len);
        if (k % 5 == 0)
            check_previous((uint64_t)n, (uint64_t)rule, w, len);
    }
}

/* Each window of n: the step back of its step is the symbol that was dropped, and the step of its step back is its newest. */
static void back_and_forth(int rule, int n)
{
    uint64_t count = ref_count(n), r = (uint64_t)rule;
    size_t len = (size_t)n;
    for (uint64_t k = 0; k < count; k++) {
        uint8_t w[16], on[16], back[16];
        ref_window_at(n, k, w);
        if (rule == 1)
            to_ranks(w, n);
        check_previous(len, r, w, len);
        memcpy(on, w + 1, len - 1);
        on[n - 1] = (uint8_t)wko_next_symbol(len, r, w, len);
        CHECK(wko_previous_symbol(len, r, on, len) == w[0], "rule %d, n = %d: back from the step of window %d", rule, n, (int)k);
        memcpy(back + 1, w, len - 1);
        back[0] = (uint8_t)wko_previous_symbol(len, r, w, len);
        CHECK(wko_next_symbol(len, r, back, len) == w[n - 1], "rule %d, n = %d: on from the step back of window %d", rule, n, (int)k);
    }
}

/* Document 02, Paper 13: windows of one symbol; and two of three that rules 2 and 3 do not undo by themselves. */
static void worked_steps_back(void)
{
    const uint8_t one[1] = {1}, zero[1] = {0}, w[3] = {1, 3, 2}, v[3] = {1, 0, 1}, u[3] = {1, 0, 2};
    CHECK(wko_previous_symbol(1, 1, one, 1) == 1, "before 1 under rule 1 stands 1");
    CHECK(wko_previous_symbol(1, 2, zero, 1) == 0 && wko_previous_symbol(1, 3, zero, 1) == 0, "before 0 under rules 2 and 3 stands 0");
    CHECK(wko_previous_symbol(3, 1, w, 3) == 1, "rule 1 sends 113 to 132");
    CHECK(wko_previous_symbol(3, 2, v, 3) == 0, "rule 2 sends 010 to 101");
    CHECK(wko_previous_symbol(3, 3, u, 3) == 0, "rule 3 sends 010 to 102");
    CHECK(wko_previous_symbol(0, 4, NULL, 0) == 256 + 6 && wko_previous_symbol(3, 4, zero, 1) == 256 + 7, "6 comes before 7, and 7 before 8");
}

enum { STARTS = 75 };

/* The windows after 1 to a(n) steps from the window at a place. */
static void list_windows(int rule, int n, uint64_t start, uint8_t list[STARTS][16])
{
    uint8_t w[16] = {0};
    ref_window_at(n, start, w);
    if (rule == 1)
        to_ranks(w, n);
    for (uint64_t k = 0; k < ref_count(n); k++) {
        uint32_t symbol = wko_next_symbol((uint64_t)n, (uint64_t)rule, w, (size_t)n);
        memmove(w, w + 1, (size_t)(n - 1));
        w[n - 1] = (uint8_t)symbol;
        memcpy(list[k], w, sizeof w);
    }
}

/* Any two starts of n up to 4: one number of steps below a(n) leads from the first to the second, and the second list is the first with so many
 * taken from its front and put at its end. A list ends with its start. */
static void two_starts(int rule, int n)
{
    static uint8_t lists[STARTS][STARTS][16];
    int count = (int)ref_count(n);
    for (int u = 0; u < count; u++)
        list_windows(rule, n, (uint64_t)u, lists[u]);
    for (int u = 0; u < count; u++)
        for (int v = 0; v < count; v++) {
            int steps = 0, ways = 0, same = 1;
            for (int k = 0; k < count; k++)
                if (memcmp(lists[u][(k + count - 1) % count], lists[v][count - 1], 16) == 0) {
                    steps = k;
                    ways++;
                }
            for (int k = 0; k < count; k++)
                same &= memcmp(lists[v][k], lists[u][(steps + k) % count], 16) == 0;
            CHECK(ways == 1 && same && (steps == 0) == (u == v), "rule %d, n = %d: starts %d and %d, %d ways", rule, n, u, v, ways);
        }
}

/* The whole round of n under a rule, window by window, back to the start. */
static void whole_round(int rule, int n)
{
    uint8_t w[16], first[16];
    memset(w, rule == 1, sizeof w);
    memcpy(first, w, sizeof first);
    for (uint64_t k = 0; k < ref_count(n); k++) {
        check_next((uint64_t)n, (uint64_t)rule, w, (size_t)n);
        ref_step(rule, w, n);
    }
    CHECK(memcmp(w, first, (size_t)n) == 0, "a round of rule %d, n = %d, ends at its start", rule, n);
}

static void check_place(uint64_t n, const uint8_t *w, size_t len, size_t out_len)
{
    uint8_t *out = lend_out(out_len);
    uint32_t want = n < 1 || n > 16                              ? 256 + 6
                    : out_len < 8                                ? 256 + 1
                    : len != n || !ref_is_height(w, (int)n)      ? 256 + 8
                                                                 : 0;
    uint32_t got = wko_place(n, lend(w, len), len, out, out_len);
    size_t written = want == 0 ? 8 : 0;
    CHECK(got == want, "place, n = %llu, length %zu: %u, not %u", (unsigned long long)n, len, got, want);
    if (want == 0)
        CHECK(wko_get_number(out, 8) == ref_place(w, (int)n), "another place of n = %llu", (unsigned long long)n);
    CHECK(untouched(out_page, out, written, out_len), "place wrote beside its %zu bytes", written);
}

static void check_count(uint64_t n, size_t out_len)
{
    uint8_t *out = lend_out(out_len);
    uint32_t want = n < 1 || n > 16 ? 256 + 6 : out_len < 8 ? 256 + 1 : 0;
    uint32_t got = wko_count(n, out, out_len);
    CHECK(got == want, "count, n = %llu, %zu bytes: %u, not %u", (unsigned long long)n, out_len, got, want);
    if (want == 0)
        CHECK(wko_get_number(out, 8) == ref_count((int)n), "another count of n = %llu", (unsigned long long)n);
    CHECK(untouched(out_page, out, want == 0 ? 8 : 0, out_len), "count wrote beside its bytes");
}

/* Every n that is counted, and others, into buffers of each length. */
static void counts(void)
{
    for (size_t out_len = 0; out_len <= 18; out_len++) {
        for (uint64_t n = 1; n <= 16; n++)
            check_count(n, out_len);
        for (size_t k = 0; k < sizeof lengths / sizeof *lengths; k++)
            check_count(lengths[k], out_len);
    }
}

static void check_window_at(uint64_t n, uint64_t place, size_t out_len)
{
    uint8_t *out = lend_out(out_len), w[16];
    uint32_t want = n < 1 || n > 16                 ? 256 + 6
                    : out_len < n                   ? 256 + 1
                    : place >= ref_count((int)n)    ? 256 + 13
                                                    : 0;
    uint32_t got = wko_window_at(n, place, out, out_len);
    size_t written = want == 0 ? (size_t)n : 0;
    CHECK(got == want, "window of n = %llu at %llu: %u, not %u", (unsigned long long)n, (unsigned long long)place, got, want);
    CHECK(untouched(out_page, out, written, out_len), "window at a place wrote beside its %zu bytes", written);
    if (want == 0) {
        ref_window_at((int)n, place, w);
        CHECK(memcmp(out, w, (size_t)n) == 0, "another window of n = %llu at %llu", (unsigned long long)n, (unsigned long long)place);
        check_place(n, w, (size_t)n, 8 + random_below(3));
    }
}

/* Every place of n, there and back. */
static void all_places(int n)
{
    for (uint64_t k = 0; k < ref_count(n) + 3; k++)
        check_window_at((uint64_t)n, k, 16);
}

/* The first, the last and random places of each n up to 16, and those just past the end. */
static void some_places(long rounds)
{
    for (uint64_t n = 1; n <= 16; n++) {
        uint64_t count = ref_count((int)n);
        check_window_at(n, 0, n);
        check_window_at(n, count - 1, n);
        check_window_at(n, count, n);
        check_window_at(n, UINT64_MAX, n);
        for (long k = 0; k < rounds; k++)
            check_window_at(n, random_below(count), n + random_below(3));
    }
}

static void refusals_of_places(void)
{
    uint8_t w[20] = {0};
    for (size_t k = 0; k < sizeof lengths / sizeof *lengths; k++)
        for (size_t out_len = 0; out_len <= 18; out_len++) {
            check_window_at(lengths[k], 0, out_len);
            for (size_t len = 0; len <= 20; len++)
                check_place(lengths[k], w, len, out_len);
        }
    w[0] = 2;
    check_place(3, w, 3, 8);
}

/* What document 02 says of a pattern: a refusal, or the first weak order that agrees, by its very bytes. */
static void check_fill(uint64_t n, const uint8_t *p, size_t len, size_t out_len)
{
    uint8_t *out = lend_out(out_len), bytes[16];
    uint32_t want = n < 1 || n > 16                               ? 256 + 6
                    : out_len < n                                 ? 256 + 1
                    : len != n || !ref_is_pattern(p, (int)n)      ? 256 + 8
                    : !ref_earliest_by_counting(p, (int)n, bytes) ? 256 + 15
                                                                  : 0;
    uint32_t got = wko_fill(n, lend(p, len), len, out, out_len);
    size_t written = want == 0 ? (size_t)n : 0;
    CHECK(got == want, "fill, n = %llu, length %zu, buffer %zu: %u, not %u", (unsigned long long)n, len, out_len, got, want);
    CHECK(memcmp(out, bytes, written) == 0, "fill, n = %llu: not the first in dictionary order", (unsigned long long)n);
    CHECK(untouched(out_page, out, written, out_len), "fill wrote beside its %zu bytes", written);
}

/* Each pattern of n, with the byte n beside those that are allowed; gives how many patterns no weak order agrees with. */
static int all_patterns(int n)
{
    uint8_t p[16] = {0}, tried[16], counted[16];
    int without = 0;
    for (;;) {
        int i = n - 1;
        check_fill((uint64_t)n, p, (size_t)n, (size_t)n);
        if (ref_is_pattern(p, n)) {
            int some = ref_earliest_by_trying(p, n, tried);
            without += !some;
            CHECK(ref_earliest_by_counting(p, n, counted) == some && (!some || memcmp(tried, counted, (size_t)n) == 0),
                  "counting and trying differ on a pattern of n = %d", n);
        }
        while (i >= 0 && p[i] == 255)
            p[i--] = 0;
        if (i < 0)
            return without;
        p[i] = (uint8_t)(p[i] == n ? 255 : p[i] + 1);
    }
}

static void small_patterns(void)
{
    static const int without[6] = {0, 0, 1, 17, 267, 4439};
    for (int n = 1; n <= 5; n++)
        CHECK(all_patterns(n) == without[n], "of the patterns of n = %d not %d are without a weak order", n, without[n]);
}

/* A random weak order w of n, and p, which is w with none, some or all of its places opened. */
static void random_pattern(int n, uint8_t *w, uint8_t *p)
{
    uint64_t opened = random_below(5);
    ref_random_heights(random64, n, w);
    for (int i = 0; i < n; i++)
        p[i] = random_below(4) < opened ? 255 : w[i];
}

/* One in three with a byte changed, one in eight into a buffer or of a length that may not do. */
static void random_patterns(long rounds)
{
    for (long k = 0; k < rounds; k++) {
        int n = 1 + (int)random_below(16);
        size_t len = (size_t)n, out_len = (size_t)n + random_below(4);
        uint8_t w[16], p[17] = {0};
        random_pattern(n, w, p);
        if (random_below(3) == 0)
            p[random_below((uint64_t)n)] = (uint8_t)random_below(k % 2 ? (uint64_t)n + 1 : 256);
        if (random_below(8) == 0) {
            len = (size_t)n + 1 - random_below(3);
            out_len = random_below(18);
        }
        check_fill((uint64_t)n, p, len, out_len);
    }
}

/* Two benches fill one pattern, each into a buffer of its own: the same bytes, and the weak order that the pattern was made of does not stand
 * before them. */
static void two_benches(long rounds)
{
    for (long k = 0; k < rounds; k++) {
        int n = 1 + (int)random_below(16);
        size_t len = (size_t)n;
        uint8_t w[16], p[16], first[16] = {0}, second[16];
        memset(second, 255, sizeof second);
        random_pattern(n, w, p);
        CHECK(wko_fill(len, p, len, first, len) == 0 && wko_fill(len, lend(p, len), len, second, 16) == 0, "fill, n = %d: refused", n);
        CHECK(memcmp(first, second, len) == 0, "fill, n = %d: two benches have different windows", n);
        CHECK(memcmp(first, w, len) <= 0, "fill, n = %d: another one stands before it", n);
    }
}

/* Slices of 0 to 20 bytes with buffers of 0 to 18: a weak order, all places open, a pattern that no weak order agrees with, and one that is none. */
static void refusals_of_fill(void)
{
    static const uint8_t last[4] = {0, 255, 1, 254};
    uint8_t p[20];
    for (size_t kind = 0; kind < sizeof last; kind++)
        for (size_t k = 0; k < sizeof lengths / sizeof *lengths; k++)
            for (size_t len = 0; len <= 20; len++)
                for (size_t out_len = 0; out_len <= 18; out_len++) {
                    memset(p, kind == 1 ? 255 : 1, sizeof p);
                    if (len > 0)
                        p[len - 1] = last[kind];
                    check_fill(lengths[k], p, len, out_len);
                }
}

/* Patterns and what is written for each. */
static void worked_patterns(void)
{
    static const struct {
        uint8_t n, pattern[16], start[16];
    } filled[] = {
        {5, {255, 255, 0, 255, 0}, {0, 0, 0, 0, 0}}, /* "third sweep on top, fifth level with it" */
        {5, {255, 0, 255, 3, 255}, {0, 0, 1, 3, 2}},
        {4, {255, 255, 255, 2}, {0, 0, 1, 2}},
        {3, {255, 255, 1}, {0, 0, 1}},
        {3, {2, 0, 1}, {2, 0, 1}}, /* no open place */
        {1, {255}, {0}},
        {1, {0}, {0}},
        {16, {255, 255, 255, 255, 255, 255, 255, 255, 255, 255, 255, 255, 255, 255, 255, 255}, {0}},
        {16, {255, 255, 255, 255, 255, 255, 255, 255, 255, 255, 255, 255, 255, 255, 255, 15}, {0, 1, 2, 3, 4, 5, 6, 7, 8, 9, 10, 11, 12, 13, 14, 15}},
    };
    const uint8_t gap[3] = {0, 0, 2};
    uint8_t out[16];
    for (size_t k = 0; k < sizeof filled / sizeof *filled; k++) {
        size_t n = filled[k].n;
        CHECK(wko_fill(n, filled[k].pattern, n, out, n) == 0 && memcmp(out, filled[k].start, n) == 0, "worked pattern %zu", k);
    }
    CHECK(wko_fill(3, gap, 3, out, 3) == 256 + 15, "0,0,2 is 15");
    CHECK(wko_fill(0, NULL, 0, NULL, 0) == 256 + 6, "no pattern at all is 6");
}

/* Document 01, "Place". */
static const uint8_t windows_of_3[13][3] = {{0, 0, 0}, {0, 0, 1}, {0, 1, 0}, {0, 1, 1}, {0, 1, 2}, {0, 2, 1}, {1, 0, 0},
                                            {1, 0, 1}, {1, 0, 2}, {1, 1, 0}, {1, 2, 0}, {2, 0, 1}, {2, 1, 0}};

static void worked_example(void)
{
    const uint8_t ranks[8] = {8, 2, 5, 1, 2, 2, 7, 6}, heights[8] = {5, 1, 2, 0, 1, 1, 4, 3};
    uint8_t out[8];
    CHECK(wko_rank_to_height(8, ranks, 8, out, 8) == 0 && memcmp(out, heights, 8) == 0, "82512276 is 51201143 in heights");
    CHECK(wko_height_to_rank(8, heights, 8, out, 8) == 0 && memcmp(out, ranks, 8) == 0, "51201143 is 82512276 in ranks");
    CHECK(wko_rank_to_height(0, NULL, 0, NULL, 0) == 256 + 6, "no window at all is 6");
    for (uint64_t k = 0; k < 13; k++)
        CHECK(wko_window_at(3, k, out, 8) == 0 && memcmp(out, windows_of_3[k], 3) == 0, "window %d of n = 3", (int)k);
}

/* What the header itself defines. */
static void conveniences(void)
{
    CHECK(WKO_REFUSED(0) == 0 && WKO_REFUSED(16) == 0, "a symbol or 0 is no refusal");
    CHECK(WKO_REFUSED(wko_count(17, NULL, 0)) == WKO_WINDOW_LENGTH, "a refusal of a direct call has its number");
    for (uint32_t i = 0; i <= 20; i++)
        for (uint32_t j = 0; j < i; j++)
            CHECK(strcmp(wko_refusal_text(i), wko_refusal_text(j)) != 0, "refusals %u and %u have the same text", i, j);
    CHECK(wko_refusal_text(20) == wko_refusal_text(UINT32_MAX), "there are 19 refusals");
}

int main(void)
{
    in_page = guarded_page();
    out_page = guarded_page();
    worked_example();
    conveniences();
    counts();
    for (int n = 1; n <= 5; n++)
        all_strings(n);
    refusals_of_conversions();
    random_conversions(20000);
    refusals_under_a_rule();
    worked_rotations();
    for (int n = 1; n <= 7; n++)
        all_rotations(n);
    for (int rule = 1; rule <= 3; rule++)
        for (int n = 1; n <= 5; n++)
            rings(rule, n);
    random_rotations(300000);
    for (int rule = 1; rule <= 3; rule++)
        for (int n = 1; n <= 7; n++)
            whole_round(rule, n);
    worked_steps_back();
    for (int rule = 1; rule <= 3; rule++)
        for (int n = 1; n <= 6; n++)
            back_and_forth(rule, n);
    for (int rule = 1; rule <= 3; rule++)
        for (int n = 1; n <= 4; n++)
            two_starts(rule, n);
    random_symbols(1000000);
    refusals_of_places();
    for (int n = 1; n <= 6; n++)
        all_places(n);
    some_places(100);
    worked_patterns();
    small_patterns();
    refusals_of_fill();
    random_patterns(200000);
    two_benches(200000);
    return report("direct calls");
}

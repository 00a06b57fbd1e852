/* The source paper's algorithms in plain C: Algorithm 1 and the rules g and g' of section 4, least rotation in O(n) (Booth / Shiloach),
 * counts in a table filled once for a window. */
#include "baseline.h"
#include <string.h>

struct rotation {
    int start, period;
};

/* The least index at which the least rotation of w starts, counted from 0, by two pointers; `sign` is 1 for least, -1 for greatest. Where the
 * pointers meet the same rotation they are a period apart. */
static inline struct rotation extreme(const uint8_t *w, int n, int sign)
{
    int i = 0, j = 1, k = 0;
    while (i < n && j < n && k < n) {
        int a = i + k, b = j + k;
        int d = w[a < n ? a : a - n] - w[b < n ? b : b - n];
        if (d == 0) {
            k++;
            continue;
        }
        if (d * sign > 0)
            i += k + 1;
        else
            j += k + 1;
        if (i == j)
            j++;
        k = 0;
    }
    return (struct rotation){i < j ? i : j, k < n ? n : i < j ? j - i : i - j};
}

static int extreme_rotation(const uint8_t *w, int n, int sign)
{
    return extreme(w, n, sign).start;
}

static int is_single(const uint8_t *counts, int v)
{
    return v == 1 || counts[v] == 1;
}

/* Behind the first symbol and before any 1 stands p, or one that repeats: then no index up to the least rotation's can do. */
static int repeat_before_one(const uint8_t *w, int n, const uint8_t *counts, int p)
{
    for (int i = 1; i < n && w[i] != 1; i++)
        if (w[i] == p || counts[w[i]] != 1)
            return 1;
    return 0;
}

/* Algorithm 1; `look` is whether to look for such a repeat before the search, as the proved code does and the paper does not. */
static inline int rule1(const uint8_t *w, int n, int look)
{
    uint8_t counts[18] = {0}, q[16];
    int plain = 1, x = w[0];
    for (int i = 0; i < n; i++)
        counts[w[i]]++;
    for (int i = 0; i < n && plain; i++)
        plain = is_single(counts, w[i]);
    if (plain && x == counts[1] + 1)
        return 1;
    if (plain && x == 1)
        return counts[1];
    if (x > 1 && counts[x] > 1) {
        int t;
        if (look && repeat_before_one(w, n, counts, 0))
            return x;
        t = extreme_rotation(w, n, 1);
        for (int i = 1; i < t; i++)
            if (!is_single(counts, w[i]))
                return x;
        return x + counts[x] - 1;
    }
    if (x > 1) {
        int p = x - 1, t;
        while (counts[p] == 0)
            p--;
        if (p == 1 || (look && repeat_before_one(w, n, counts, p)))
            return x;
        memcpy(q, w, (size_t)n);
        q[0] = (uint8_t)p;
        t = extreme_rotation(q, n, 1);
        for (int i = 1; i < t; i++)
            if (w[i] == p || !is_single(counts, w[i]))
                return x;
        return p;
    }
    return x;
}

/* x before the rest of w is in R; counts are those of the rest. */
static int in_r(uint8_t *w, int n, const uint8_t *counts, int largest, int x)
{
    int first = w[0], found;
    if (x <= 0 || largest > x)
        return 0;
    for (int v = 0; v < x; v++)
        if (counts[v] == 0)
            return 0;
    w[0] = (uint8_t)x;
    found = extreme_rotation(w, n, -1) == 0;
    w[0] = (uint8_t)first;
    return found;
}

static int height_rule(int rule, uint8_t *w, int n)
{
    uint8_t counts[19] = {0};
    int x = w[0], largest = 0;
    for (int i = 1; i < n; i++) {
        counts[w[i]]++;
        if (w[i] > largest)
            largest = w[i];
    }
    if (largest > x + 1)
        return x;
    if (rule == 2) {
        if (in_r(w, n, counts, largest, x + 1))
            return x + 1;
        if (!in_r(w, n, counts, largest, x))
            return x;
        return in_r(w, n, counts, largest, x - 1) ? x - 2 : x - 1;
    }
    if (in_r(w, n, counts, largest, x))
        return x - 1;
    if (!in_r(w, n, counts, largest, x + 1))
        return x;
    return in_r(w, n, counts, largest, x + 2) ? x + 2 : x + 1;
}

static int next_symbol(int rule, uint8_t *w, int n)
{
    return rule == 1 ? rule1(w, n, 0) : height_rule(rule, w, n);
}

/* A weak order in rank form (rule 1) or in height form. */
static inline int in_form(int rule, const uint8_t *w, int n)
{
    uint8_t counts[17] = {0};
    int below = 0;
    for (int i = 0; i < n; i++) {
        if (w[i] > 16)
            return 0;
        counts[w[i]]++;
    }
    for (int v = 0; v <= 16; v++) {
        if (counts[v] == 0)
            continue;
        if (v != (rule == 1 ? below + 1 : below))
            return 0;
        below += rule == 1 ? counts[v] : 1;
    }
    return 1;
}

void baseline_step(int rule, uint8_t *w, int n)
{
    int s = next_symbol(rule, w, n);
    memmove(w, w + 1, (size_t)(n - 1));
    w[n - 1] = (uint8_t)s;
}

void baseline_walk(int rule, uint8_t *w, int n, uint64_t steps)
{
    for (uint64_t k = 0; k < steps; k++) {
        if (n < 1 || n > 16 || rule < 1 || rule > 3 || !in_form(rule, w, n))
            return;
        baseline_step(rule, w, n);
    }
}

/* The tests of a call on a window under a rule: 0, or what is returned. */
static inline uint32_t refused(uint64_t n, uint64_t rule, const uint8_t *window, size_t window_len)
{
    if (n < 1 || n > 16)
        return 256 + 6;
    if (rule < 1 || rule > 3)
        return 256 + 7;
    return window_len != n || !in_form((int)rule, window, (int)n) ? 256 + 8 : 0;
}

uint32_t baseline_next_symbol(uint64_t n, uint64_t rule, const uint8_t *window, size_t window_len)
{
    uint8_t w[16];
    uint32_t returned = refused(n, rule, window, window_len);
    if (returned)
        return returned;
    memcpy(w, window, n);
    return (uint32_t)next_symbol((int)rule, w, (int)n);
}

uint32_t baseline_previous_symbol(uint64_t n, uint64_t rule, const uint8_t *window, size_t window_len)
{
    uint8_t w[16];
    uint32_t returned = refused(n, rule, window, window_len);
    if (returned)
        return returned;
    w[0] = window[n - 1];
    memcpy(w + 1, window, n - 1);
    return (uint32_t)next_symbol(rule == 1 ? 1 : rule == 2 ? 3 : 2, w, (int)n);
}

uint32_t baseline_rotation_start(uint64_t n, uint64_t rule, const uint8_t *window, size_t window_len)
{
    uint32_t returned = refused(n, rule, window, window_len);
    return returned ? returned : (uint32_t)extreme(window, (int)n, rule == 1 ? 1 : -1).start + 1;
}

uint32_t baseline_period(uint64_t n, uint64_t rule, const uint8_t *window, size_t window_len)
{
    uint32_t returned = refused(n, rule, window, window_len);
    return returned ? returned : (uint32_t)extreme(window, (int)n, rule == 1 ? 1 : -1).period;
}

uint32_t baseline_rule1_looking(uint64_t n, uint64_t rule, const uint8_t *window, size_t window_len)
{
    if (n < 1 || n > 16)
        return 256 + 6;
    if (rule != 1)
        return 256 + 7;
    if (window_len != n || !in_form(1, window, (int)n))
        return 256 + 8;
    return (uint32_t)rule1(window, (int)n, 1);
}

/* L(n, k), filled by its recurrence, and a(n), the sum of a row. */
static uint64_t by_symbols[17][17], all_windows[17];

static void fill_table(void)
{
    by_symbols[0][0] = 1;
    for (int n = 1; n <= 16; n++)
        for (int k = 1; k <= 16; k++) {
            by_symbols[n][k] = (uint64_t)k * (by_symbols[n - 1][k] + by_symbols[n - 1][k - 1]);
            all_windows[n] += by_symbols[n][k];
        }
}

static uint64_t power(uint64_t x, uint64_t k)
{
    uint64_t p = 1;
    while (k-- > 0)
        p *= x;
    return p;
}

static uint64_t one_missing(uint64_t rest, uint64_t present)
{
    return power(present + 1, rest) - power(present, rest);
}

/* The ways to fill rest places so that each of the missing heights occurs, any of the present ones being allowed. */
static uint64_t ways(uint64_t rest, uint64_t missing, uint64_t present)
{
    uint64_t total = 0, fillings = 1;
    if (present == 0)
        return missing > 16 ? 0 : by_symbols[rest][missing];
    if (missing == 0)
        return power(present, rest);
    if (missing == 1)
        return one_missing(rest, present);
    if (missing == 2)
        return one_missing(rest, present + 1) - one_missing(rest, present);
    while (missing <= rest) {
        rest--;
        total += fillings * missing * ways(rest, missing - 1, present + 1);
        fillings *= present;
    }
    return total;
}

/* For each symbol below n: the height windows that begin with the first i symbols of w and it. */
static void continuations(const uint8_t *w, int n, int i, uint64_t *counts)
{
    int seen[17] = {0}, top = 0, present = 0;
    uint64_t totals[17], total = 0;
    for (int j = 0; j < i; j++) {
        present += !seen[w[j]];
        seen[w[j]] = 1;
        if (w[j] + 1 > top)
            top = w[j] + 1;
    }
    for (int m = 16; m >= 0; m--) {
        total += ways((uint64_t)(n - 1 - i), (uint64_t)m, (uint64_t)present);
        totals[m] = total;
    }
    for (int v = 0; v < n; v++) {
        int missing = (top > v + 1 ? top : v + 1) - present;
        counts[v] = seen[v] ? totals[missing] : totals[missing - 1] + totals[missing];
    }
}

static uint64_t place_of(const uint8_t *w, int n)
{
    uint64_t counts[16], place = 0;
    for (int i = 0; i < n; i++) {
        continuations(w, n, i, counts);
        for (int v = 0; v < w[i]; v++)
            place += counts[v];
    }
    return place;
}

static void window_at(int n, uint64_t place, uint8_t *w)
{
    uint64_t counts[16];
    for (int i = 0; i < n; i++) {
        int v = 0;
        continuations(w, n, i, counts);
        while (counts[v] <= place)
            place -= counts[v++];
        w[i] = (uint8_t)v;
    }
}

uint32_t baseline_place(uint64_t n, const uint8_t *window, size_t window_len, uint8_t *out, size_t out_len)
{
    uint64_t place;
    if (n < 1 || n > 16)
        return 256 + 6;
    if (out_len < 8)
        return 256 + 1;
    if (window_len != n || !in_form(2, window, (int)n))
        return 256 + 8;
    if (by_symbols[0][0] == 0)
        fill_table();
    place = place_of(window, (int)n);
    for (int i = 0; i < 8; i++)
        out[i] = (uint8_t)(place >> (8 * i));
    return 0;
}

uint32_t baseline_window_at(uint64_t n, uint64_t place, uint8_t *out, size_t out_len)
{
    if (n < 1 || n > 16)
        return 256 + 6;
    if (out_len < n)
        return 256 + 1;
    if (by_symbols[0][0] == 0)
        fill_table();
    if (place >= all_windows[n])
        return 256 + 13;
    window_at((int)n, place, out);
    return 0;
}

uint32_t baseline_fill(uint64_t n, const uint8_t *pattern, size_t pattern_len, uint8_t *out, size_t out_len)
{
    int seen[16] = {0}, open = 0, top = 0, missing = 0, next = 0;
    if (n < 1 || n > 16)
        return 256 + 6;
    if (out_len < n)
        return 256 + 1;
    if (pattern_len != n)
        return 256 + 8;
    for (uint64_t i = 0; i < n; i++) {
        if (pattern[i] == 255) {
            open++;
            continue;
        }
        if (pattern[i] >= n)
            return 256 + 8;
        seen[pattern[i]] = 1;
        if (pattern[i] + 1 > top)
            top = pattern[i] + 1;
    }
    for (int v = 0; v < top; v++)
        missing += !seen[v];
    if (missing > open)
        return 256 + 15;
    for (uint64_t i = 0; i < n; i++) {
        out[i] = pattern[i];
        if (pattern[i] != 255)
            continue;
        out[i] = 0;
        if (missing == open) { /* the missing heights in order, as soon as each place is needed for one */
            while (seen[next])
                next++;
            out[i] = (uint8_t)next;
        }
        missing -= top > 0 && !seen[out[i]];
        seen[out[i]] = 1;
        open--;
    }
    return 0;
}
